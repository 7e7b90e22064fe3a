//! The example programs `print` and `short_proofs` print what the folders print-* and short-* under examples/ expect.

mod common;
use common::root;

use std::fs;
use std::path::Path;
use std::process::Command;

/// Runs an example in every folder whose name starts so; gives how many there are.
fn run(example: &str, start: &str) -> usize {
    // This test stands in .../deps, the examples beside that folder.
    let this = std::env::current_exe().expect("a path");
    let built = this.parent().and_then(Path::parent).expect("a folder");
    let program = built.join("examples").join(example);
    let mut seen = 0;
    for entry in fs::read_dir(root().join("examples")).expect("examples/") {
        let path = entry.expect("an entry").path();
        let name = path.file_name().and_then(|name| name.to_str());
        if !name.is_some_and(|name| name.starts_with(start)) {
            continue;
        }
        let output = Command::new(&program).arg(&path).output();
        let output = output.expect("the example");
        let expected = fs::read_to_string(path.join("expected")).expect("a file");
        assert_eq!(String::from_utf8_lossy(&output.stdout), expected);
        let refused = expected.starts_with("refused");
        assert_eq!(output.status.code(), Some(i32::from(refused)));
        seen += 1;
    }
    for arguments in [&[][..], &["no such folder"]] {
        let output = Command::new(&program).args(arguments).output();
        assert_eq!(output.expect("the example").status.code(), Some(2));
    }
    seen
}

#[test]
fn printed_guards() {
    assert_eq!(run("print", "print-"), 3);
}

#[test]
fn listed_short_proofs() {
    assert_eq!(run("short_proofs", "short-"), 2);
    let listed = fs::read_to_string(root().join("examples/short-1/expected")).expect("a file");
    assert_eq!(listed.lines().count(), 345);
    assert_eq!(listed.lines().last(), Some("344 short proofs"));
}

/// The wrapper lists as many of one, two and three rows as there are.
#[test]
fn as_many_as_there_are() {
    use stages::build::{constraint, file};
    let [le, eq] =
        [false, true].map(|equality| move |numbers: &[i16]| constraint(equality, numbers));
    let pair = |k, a: &[Vec<u8>], b: &[Vec<u8>]| [file(k, a), file(k, b)];
    for (name, [a, b], expected) in [
        (
            "stage 1",
            pair(3, &[eq(&[-2, 1, 0, 0])], &[eq(&[0, -1, 2, 1])]),
            [0, 4, 340],
        ),
        (
            "stage 3",
            pair(1, &[le(&[1, 0])], &[le(&[-1, 1])]),
            [0, 4, 304],
        ),
        (
            "stage 4",
            pair(1, &[le(&[1, 0])], &[le(&[-1, 0])]),
            [0, 0, 0],
        ),
        (
            "stage 5",
            pair(1, &[le(&[2, -1])], &[le(&[-2, 1])]),
            [0, 0, 0],
        ),
        ("stage 6", pair(1, &[le(&[0, 1])], &[]), [1, 12, 360]),
        (
            "stage 6, exchanged",
            pair(1, &[], &[le(&[0, 1])]),
            [1, 12, 360],
        ),
        (
            "x = 0 against x - 1 = 0",
            pair(1, &[eq(&[1, 0])], &[eq(&[1, -1])]),
            [0, 12, 984],
        ),
    ] {
        let mut counts = [0; 3];
        for table in dulgaverk::short_proofs(&a, &b).expect("two bundles") {
            let rows = stages::damage::fields(&table).len() - 2;
            counts[rows - 1] += 1;
        }
        assert_eq!(counts, expected, "{name}");
    }
}
