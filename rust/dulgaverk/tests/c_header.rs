//! What stands in the header itself: the words of each number, names, limits, and, from a C program, too little stack.

mod common;
use common::root;

use dulgaverk::MEANINGS;
use std::fs;
use std::process::Command;

/// The words of `dulgaverk_meaning` are those of the table, in C99 and, where a compiler is at hand, in C++.
#[test]
fn words_of_the_numbers() {
    let words = MEANINGS.map(|(_, meaning)| meaning);
    let expected = [&["accepted"][..], &words, &["no refusal"]].concat();
    for (compiler, language) in [("cc", "-std=c99"), ("c++", "-xc++")] {
        if Command::new(compiler).arg("--version").output().is_err() {
            println!("no {compiler} here");
            continue;
        }
        let name = format!("header-{compiler}-{}", std::process::id());
        let program = std::env::temp_dir().join(name);
        let compiled = Command::new(compiler)
            .args(["-Wall", "-Wextra", "-Wpedantic", "-Werror", "-pthread"])
            .arg(language)
            .arg(root().join("rust/dulgaverk/tests/c/header.c"))
            .args(["-xnone", "-I"])
            .arg(root().join("include"))
            .arg(root().join("target/staticlib/libdulgaverk.a"))
            .arg("-o")
            .arg(&program)
            .output()
            .expect("a compiler");
        let told = String::from_utf8_lossy(&compiled.stderr);
        assert!(compiled.status.success(), "{told}");
        let output = Command::new(&program).output().expect("the program");
        let _ = fs::remove_file(&program);
        assert_eq!(output.status.code(), Some(0), "{compiler}");
        let printed = String::from_utf8(output.stdout).expect("text");
        assert_eq!(printed.lines().collect::<Vec<_>>(), expected);
    }
}

/// Every number has its name, but 22, which is not given.
#[test]
fn names_of_the_numbers() {
    let header = fs::read_to_string(root().join("include/dulgaverk.h")).expect("the header");
    let names = header
        .split_once("enum dulgaverk_number {\n")
        .and_then(|(_, rest)| rest.split_once("\n};"))
        .expect("the names")
        .0;
    let number = |line: &str| {
        let (name, number) = line
            .trim_end_matches(',')
            .split_once(" = ")
            .expect("a name");
        assert!(name.starts_with("    DULGAVERK_"), "{name}");
        number.parse::<u8>().expect("a number")
    };
    let found: Vec<u8> = names.lines().map(number).collect();
    let given = MEANINGS.into_iter().map(|(number, _)| number);
    let expected: Vec<u8> = [0].into_iter().chain(given).filter(|&n| n != 22).collect();
    assert_eq!(found, expected);
}

/// The limits are those of the Rust side.
#[test]
fn limits() {
    let header = fs::read_to_string(root().join("include/dulgaverk.h")).expect("the header");
    let value = usize::try_from(dulgaverk::VALUE).expect("above 0");
    for (name, limit) in [
        ("CONSTANTS", dulgaverk::CONSTANTS),
        ("CONSTRAINTS", dulgaverk::CONSTRAINTS),
        ("NUMBERS", dulgaverk::NUMBERS),
        ("BUNDLE", dulgaverk::BUNDLE),
        ("WRITTEN_BUNDLE", dulgaverk::WRITTEN_BUNDLE),
        ("FIELD", dulgaverk::CONSTRAINT_FIELD),
        ("PROOF", dulgaverk::PROOF),
        ("FORMULA", dulgaverk::FORMULA),
        ("VALUE", value),
        ("TEXT", dulgaverk::TEXT),
        ("SHORT_PROOF", dulgaverk::SHORT_PROOF),
        ("ROWS", dulgaverk::ROWS),
        ("STAGES", dulgaverk::STAGES),
        ("GUARDS", (dulgaverk::STAGES + 1) * dulgaverk::FORMULA),
    ] {
        let line = format!("\n#define DULGAVERK_{name} {limit} ");
        assert!(header.contains(&line), "{line}");
    }
}
