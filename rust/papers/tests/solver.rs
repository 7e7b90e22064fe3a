//! What z3 proves of the formulas: each is an interpolant, and stands to the paper's as the catalogue says. Nothing is tried
//! where z3 is not installed.

use papers::catalogue::{Relation, CHAINS, EXAMPLES};
use papers::formula::Formula;
use papers::smt;
use papers::solver::{installed, valid};
use papers::stage::{constraints, Chain, Stage};
use papers::tables::folder;
use papers::{root, stage};
use std::fs;
use std::path::Path;

/// A, B and the formula as terms.
fn terms(stage: &Stage, formula: &[u8]) -> [String; 3] {
    let names = &stage.constants;
    let [a, b] = [&stage.a, &stage.b].map(|bundle| smt::conjunction(&constraints(bundle), names));
    [a, b, smt::formula(&Formula::read(formula), names)]
}

fn implies(i: &str, j: &str) -> String {
    format!("(=> {i} {j})")
}

fn excludes(i: &str, j: &str) -> String {
    format!("(not (and {i} {j}))")
}

/// The term in a file, which is there just where there is something to compare with.
fn paper_term(folder: &Path, name: &str, relation: Relation) -> Option<String> {
    let term = fs::read_to_string(folder.join(name)).ok();
    let compared = !matches!(relation, Relation::Alone | Relation::Refused);
    assert_eq!(term.is_some(), compared, "{} {name}", folder.display());
    term.map(|term| term.trim_end().into())
}

/// That the formula is an interpolant, that the paper's is one, and how they stand to each other.
fn stands(stage: &Stage, formula: &[u8], paper: Option<&str>, relation: Relation, which: &str) {
    let [a, b, ours] = terms(stage, formula);
    let mut claims = vec![implies(&a, &ours), excludes(&b, &ours)];
    if let Some(paper) = paper {
        claims.extend([implies(&a, paper), excludes(&b, paper)]);
        claims.extend([implies(&ours, paper), implies(paper, &ours)]);
    }
    let answers = valid(&stage.constants, &claims);
    let (interpolants, directions) = answers.split_at(answers.len().min(4));
    assert!(
        interpolants.iter().all(|&holds| holds),
        "{which}: {answers:?}"
    );
    let expected: &[bool] = match relation {
        Relation::Identical | Relation::Equivalent => &[true, true],
        Relation::Stronger => &[true, false],
        Relation::Weaker => &[false, true],
        Relation::Alone | Relation::Refused => &[],
    };
    assert_eq!(directions, expected, "{which}");
    if relation == Relation::Identical {
        assert_eq!(paper, Some(ours.as_str()), "{which}");
    }
}

#[test]
fn examples_are_interpolants_and_stand_as_said() {
    if !installed() {
        return;
    }
    let mut compared = 0;
    for example in EXAMPLES {
        let folder = folder(example.name);
        let paper = paper_term(&folder, "paper.smt2", example.relation);
        let stage = Stage::read(&folder);
        if let Ok(formula) = stage.check() {
            stands(
                &stage,
                &formula,
                paper.as_deref(),
                example.relation,
                example.name,
            );
            compared += 1;
        }
    }
    assert_eq!(compared, 47);
}

#[test]
fn guards_of_chains_are_interpolants_and_follow_one_from_the_other() {
    if !installed() {
        return;
    }
    for chain in CHAINS {
        let folder = folder(chain.name);
        let files = Chain::read(&folder);
        let mut guards = Vec::new();
        for (cut, &(_, _, relation)) in chain.cuts.iter().enumerate() {
            let paper = paper_term(&folder, &format!("paper-{cut}.smt2"), relation);
            let guard = stage::file(&folder, &format!("i{cut}"));
            let which = format!("{} {cut}", chain.name);
            stands(&files.cut(cut), &guard, paper.as_deref(), relation, &which);
            guards.push(smt::formula(&Formula::read(&guard), &files.constants));
        }
        let last = guards.len() - 1;
        let mut claims = vec![guards[0].clone(), format!("(not {})", guards[last])];
        for (i, bundle) in files.stages.iter().enumerate() {
            let step = smt::conjunction(&constraints(bundle), &files.constants);
            claims.push(format!("(=> (and {} {step}) {})", guards[i], guards[i + 1]));
        }
        let answers = valid(&files.constants, &claims);
        assert!(
            answers.iter().all(|&holds| holds),
            "{}: {answers:?}",
            chain.name
        );
    }
}

#[test]
fn formulas_of_the_authors_page_are_interpolants() {
    if !installed() {
        return;
    }
    for entry in fs::read_dir(root().join("examples/proofs")).expect("a folder") {
        let path = entry.expect("an entry").path();
        if !path.is_dir() {
            continue;
        }
        let stage = Stage::read(&path);
        if let Ok(formula) = stage.check() {
            stands(
                &stage,
                &formula,
                None,
                Relation::Alone,
                &path.display().to_string(),
            );
        }
    }
}

/// The solver is asked the right way round: what does not follow is not proved.
#[test]
fn what_does_not_hold_is_not_proved() {
    if !installed() {
        return;
    }
    let names = ["x".to_string()];
    let claims = ["(=> (<= x 0) (<= x (- 1)))", "(=> (<= x (- 1)) (<= x 0))"].map(String::from);
    assert_eq!(valid(&names, &claims), [false, true]);
}
