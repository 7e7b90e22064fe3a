//! Every stage of examples/papers and examples/proofs through the independent checker, and the catalogue beside the folders.

use papers::catalogue::{Relation, CHAINS, EXAMPLES};
use papers::formula::Formula;
use papers::root;
use papers::stage::{constraints, file, Chain, Stage};
use papers::tables::folder;
use reference::NONE;
use std::collections::BTreeSet;
use std::fs;
use std::path::{Path, PathBuf};

/// The folders in one under examples/, in order.
fn folders(name: &str) -> Vec<PathBuf> {
    let mut list: Vec<PathBuf> = fs::read_dir(root().join("examples").join(name))
        .expect("a folder")
        .map(|entry| entry.expect("an entry").path())
        .filter(|path| path.is_dir())
        .collect();
    list.sort();
    list
}

fn name(path: &Path) -> String {
    path.file_name()
        .and_then(|n| n.to_str())
        .expect("a name")
        .into()
}

fn expected(folder: &Path) -> String {
    String::from_utf8(file(folder, "expected")).expect("text")
}

#[test]
fn every_folder_is_in_the_catalogue_once() {
    let there: Vec<String> = folders("papers").iter().map(|path| name(path)).collect();
    let mut said: Vec<String> = EXAMPLES.iter().map(|e| e.name.to_string()).collect();
    said.extend(CHAINS.iter().map(|c| c.name.to_string()));
    said.sort();
    assert_eq!(there, said);
}

/// Whether the formula names only constants that both bundles use.
fn names_common_constants(formula: &Formula, common: &[bool]) -> bool {
    match formula {
        Formula::Or(i, j) | Formula::And(i, j) => {
            names_common_constants(i, common) && names_common_constants(j, common)
        }
        Formula::AtMostZero(t) | Formula::Zero(t) | Formula::Divides(_, t) => t
            .iter()
            .zip(common)
            .all(|(&number, &common)| common || number == 0),
    }
}

fn common(stage: &Stage) -> Vec<bool> {
    let uses = |bundle: &[u8], i: usize| constraints(bundle).iter().any(|c| c.form[i] != 0);
    (0..stage.constants.len())
        .map(|i| uses(&stage.a, i) && uses(&stage.b, i))
        .collect()
}

#[test]
fn each_example_is_answered_as_expected() {
    for example in EXAMPLES {
        let folder = folder(example.name);
        let stage = Stage::read(&folder);
        assert_eq!(stage.printed(), expected(&folder), "{}", example.name);
        assert_eq!(usize::from(stage.p[7]), stage.constants.len());
        let answer = stage.check();
        let refused = example.relation == Relation::Refused;
        assert_eq!(answer.is_err(), refused, "{}", example.name);
        if let Ok(formula) = answer {
            let formula = Formula::read(&formula);
            assert!(
                names_common_constants(&formula, &common(&stage)),
                "{}",
                example.name
            );
        }
    }
}

#[test]
fn each_cut_of_a_chain_gives_its_guard() {
    for chain in CHAINS {
        let folder = folder(chain.name);
        let files = Chain::read(&folder);
        assert_eq!(files.stages.len() + 1, chain.cuts.len(), "{}", chain.name);
        for cut in 0..chain.cuts.len() {
            let stage = files.cut(cut);
            let guard = file(&folder, &format!("i{cut}"));
            assert_eq!(stage.check(), Ok(guard.clone()), "{} {cut}", chain.name);
            assert!(names_common_constants(
                &Formula::read(&guard),
                &common(&stage)
            ));
        }
    }
}

/// The refused stages of docs/WRITING-PROOFS.md: number, row, step and branch.
const REFUSED: [(&str, [u16; 4]); 4] = [
    ("unsigned", [15, 1, NONE, NONE]),
    ("unsigned-claimed", [14, 0, NONE, NONE]),
    ("wrong-sign", [15, 7, 4, 0]),
    ("wrong-sign-claimed", [14, 3, NONE, NONE]),
];

#[test]
fn each_stage_of_the_authors_page_is_answered_as_expected() {
    let page = fs::read_to_string(root().join("docs/WRITING-PROOFS.md")).expect("a page");
    let mut refused = BTreeSet::new();
    for folder in folders("proofs") {
        let name = name(&folder);
        let stage = Stage::read(&folder);
        assert_eq!(stage.printed(), expected(&folder), "{name}");
        assert!(
            page.contains(&format!("    $ papers examples/proofs/{name}\n")),
            "{name}"
        );
        if let Err(answer) = stage.check() {
            refused.insert((
                name,
                [
                    u16::from(answer.number),
                    answer.row,
                    answer.step,
                    answer.branch,
                ],
            ));
        }
    }
    let known = REFUSED.map(|(name, answer)| (name.to_string(), answer));
    assert_eq!(refused, BTreeSet::from(known));
}
