//! The table is printed; the page and the plot are written only when that is asked for.

use std::fs;
use std::path::PathBuf;
use std::process::{Command, Output};

/// What bench does in a folder of its own, with the names in its docs/ afterwards.
fn bench(name: &str, arguments: &[&str]) -> (Output, Vec<PathBuf>) {
    let folder = std::env::temp_dir().join(format!("bench-{}-{name}", std::process::id()));
    fs::create_dir_all(folder.join("docs")).expect("a folder");
    let output = Command::new(env!("CARGO_BIN_EXE_bench"))
        .args(arguments)
        .current_dir(&folder)
        .output()
        .expect("the program");
    let entries = fs::read_dir(folder.join("docs")).expect("a folder");
    let mut names: Vec<_> = entries
        .map(|entry| PathBuf::from(entry.expect("an entry").file_name()))
        .collect();
    names.sort();
    let _ = fs::remove_dir_all(&folder);
    (output, names)
}

#[test]
fn written_when_asked_to() {
    let (plain, none) = bench("plain", &["1"]);
    assert!(plain.status.success());
    assert!(plain.stdout.iter().filter(|&&byte| byte == b'\n').count() > 20);
    assert!(none.is_empty(), "{none:?}");
    let (asked, both) = bench("asked", &["--write", "1"]);
    assert!(asked.status.success());
    assert_eq!(both, ["BENCHMARKS.md", "bench.svg"].map(PathBuf::from));
}

#[test]
fn used_wrongly() {
    for arguments in [
        vec!["0"],
        vec!["x"],
        vec!["1", "--write"],
        vec!["1", "1"],
        vec!["lists", "0"],
        vec!["lists", "x"],
        vec!["lists", "--write"],
        vec!["1", "lists"],
        vec!["--write", "lists", "1", "1"],
    ] {
        let (output, none) = bench("wrong", &arguments);
        assert_eq!(output.status.code(), Some(2), "{arguments:?}");
        assert!(output.stdout.is_empty() && none.is_empty(), "{arguments:?}");
    }
}
