//! The example programs `shorten` and `run` print what the folders under examples/ expect, and README.md shows a run of each.

mod common;
use common::root;

use std::fs;
use std::path::Path;
use std::process::Command;

/// What a program prints of each folder that has a file of that name is what the other file has; how many there are.
fn printed(program: &str, has: &str, expected: &str) -> usize {
    // This test stands in .../deps, the examples beside that folder.
    let this = std::env::current_exe().expect("a path");
    let built = this.parent().and_then(Path::parent).expect("a folder");
    let mut seen = 0;
    for entry in fs::read_dir(root().join("examples")).expect("examples/") {
        let path = entry.expect("an entry").path();
        if !path.join(has).is_file() {
            continue;
        }
        let output = Command::new(built.join("examples").join(program))
            .arg(&path)
            .output()
            .expect("the example");
        let expected = fs::read_to_string(path.join(expected)).expect("a file");
        assert_eq!(String::from_utf8_lossy(&output.stdout), expected);
        let refused = expected.starts_with("refused");
        assert_eq!(output.status.code(), Some(i32::from(refused)));
        seen += 1;
    }
    seen
}

#[test]
fn shortened_stages() {
    assert_eq!(printed("shorten", "shortened", "shortened"), 2);
    // One folder has the proof that the other's is shortened to.
    let read = |name: &str| fs::read(root().join("examples").join(name)).expect("a file");
    let shortened = read("stage-5-shortened/p");
    let hex: String = shortened.iter().map(|byte| format!("{byte:02X}")).collect();
    let told = String::from_utf8(read("stage-5-unused/shortened")).expect("text");
    assert_eq!(told.lines().nth(2), Some(&hex[..]));
    assert_eq!(
        read("stage-5-shortened/expected"),
        read("stage-5-unused/expected")
    );
}

#[test]
fn runs_of_stages() {
    assert_eq!(printed("run", "t1", "expected"), 3);
}

/// README.md shows what these two print.
#[test]
fn readme() {
    let page = fs::read_to_string(root().join("README.md")).expect("a page");
    for (program, folder, expected) in [
        ("shorten", "stage-5-unused", "shortened"),
        ("run", "run-1", "expected"),
    ] {
        let said = fs::read_to_string(root().join("examples").join(folder).join(expected));
        let said = said.expect("a file");
        let lines: String = said.lines().map(|line| format!("    {line}\n")).collect();
        let call = format!("--example {program} examples/{folder}\n{lines}");
        assert!(page.contains(&call), "{program}");
    }
}
