//! The papers' examples and the stages of docs/WRITING-PROOFS.md through the library and the check program.

mod common;
use common::{root, Folder};

use dulgaverk::{check, guards_into};
use papers::catalogue::{CHAINS, EXAMPLES};
use papers::stage::{accepted, file, refused, Chain, Stage};
use papers::tables::folder;
use std::fs;
use std::path::PathBuf;

/// What the program would print of the library's answer.
fn answered(stage: &Stage) -> String {
    match check(&stage.a, &stage.b, &stage.p) {
        Ok(formula) => accepted(&formula),
        Err(refusal) => refused(refusal.number, refusal.file, refusal.place),
    }
}

/// The folders with a stage.
fn stages() -> Vec<PathBuf> {
    let mut list: Vec<PathBuf> = EXAMPLES.iter().map(|e| folder(e.name)).collect();
    for entry in fs::read_dir(root().join("examples/proofs")).expect("a folder") {
        let path = entry.expect("an entry").path();
        if path.join("p").is_file() {
            list.push(path);
        }
    }
    assert_eq!(list.len(), 53 + 14);
    list
}

#[test]
fn the_library_answers_as_expected() {
    for path in stages() {
        let expected = String::from_utf8(file(&path, "expected")).expect("text");
        assert_eq!(
            answered(&Stage::read(&path)),
            expected,
            "{}",
            path.display()
        );
    }
}

#[test]
fn the_program_prints_what_is_expected() {
    for path in stages() {
        let expected = String::from_utf8(file(&path, "expected")).expect("text");
        let name = path.file_name().and_then(|n| n.to_str()).expect("a name");
        let stage = Stage::read(&path);
        Folder::new("checker", &format!("paper-{name}"))
            .with("a", &stage.a)
            .with("b", &stage.b)
            .with("p", &stage.p)
            .prints(&expected);
    }
}

#[test]
fn the_library_gives_the_guard_of_each_cut() {
    for chain in CHAINS {
        let files = Chain::read(&folder(chain.name));
        for cut in 0..chain.cuts.len() {
            let stage = files.cut(cut);
            let guard = file(&folder(chain.name), &format!("i{cut}"));
            let answer = check(&stage.a, &stage.b, &stage.p);
            assert_eq!(answer.ok(), Some(guard), "{} {cut}", chain.name);
        }
    }
}

/// All of them in one call, and their sizes.
#[test]
fn the_library_gives_the_guards_of_each_chain() {
    for chain in CHAINS {
        let path = folder(chain.name);
        let files = Chain::read(&path);
        let guards: Vec<Vec<u8>> = (0..chain.cuts.len())
            .map(|cut| file(&path, &format!("i{cut}")))
            .collect();
        let (all, n) = (guards.concat(), files.stages.len());
        assert_eq!(guards.len(), n + 1);
        let lengths: Vec<usize> = files.stages.iter().map(Vec::len).collect();
        let (mut out, mut sizes) = (vec![7; all.len()], vec![7; n + 1]);
        let buffer = files.stages.concat();
        let answer = guards_into(&buffer, &lengths, &files.p, &mut out, &mut sizes);
        assert_eq!(answer, Ok(all.len()), "{}", chain.name);
        assert_eq!(out, all, "{}", chain.name);
        assert!(sizes.into_iter().eq(guards.iter().map(Vec::len)));
    }
}
