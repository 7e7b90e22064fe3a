//! The made parts of the documents, and the pages of the examples, are what the command makes.

use papers::document::{made, refreshed};
use papers::root;
use std::fs;
use std::process::Command;

#[test]
fn made_parts_are_as_they_are_made() {
    for (path, text) in made() {
        let there = fs::read_to_string(&path).unwrap_or_default();
        assert!(
            there == text,
            "{} is not as it is made: run `papers --write`",
            path.display()
        );
    }
}

#[test]
fn a_made_part_that_was_changed_is_made_again() {
    let folder = "examples/proofs/stride";
    let wrong = format!("before\n\n    $ ./check {folder}\n    accepted 30\n\nbehind\n");
    let expected = fs::read_to_string(root().join(folder).join("expected")).expect("a file");
    let lines: String = expected
        .lines()
        .map(|line| format!("    {line}\n"))
        .collect();
    let right = format!("before\n\n    $ ./check {folder}\n{lines}\nbehind\n");
    assert_eq!(refreshed(&wrong), right);
    assert_eq!(refreshed(&right), right);
}

#[test]
fn the_command_shows_a_stage() {
    let run = |arguments: &[&str]| {
        Command::new(env!("CARGO_BIN_EXE_papers"))
            .args(arguments)
            .current_dir(root())
            .output()
            .expect("the program")
    };
    let shown = run(&["examples/stage-rounding-1"]);
    assert_eq!(shown.status.code(), Some(2), "no names of constants");
    let shown = run(&["examples/proofs/stride"]);
    assert!(shown.status.success());
    let text = String::from_utf8(shown.stdout).expect("text");
    assert!(text.ends_with("row 1: close 2 by stride 2\naccepted: 2 divides y\n"));
    for wrong in [
        vec![],
        vec!["examples/none"],
        vec!["examples/proofs/stride", "x"],
    ] {
        assert_eq!(run(&wrong).status.code(), Some(2), "{wrong:?}");
    }
}
