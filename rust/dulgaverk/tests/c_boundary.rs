//! The boundary to C: a C program over the header and the static library, which calls every function on worked stages.

use dulgaverk::MEANINGS;
use std::fs;
use std::path::PathBuf;
use std::process::Command;

fn root() -> PathBuf {
    PathBuf::from(env!("CARGO_MANIFEST_DIR")).join("../..")
}

fn compiler(name: &str) -> Command {
    let mut command = Command::new(name);
    command
        .args(["-Wall", "-Wextra", "-Wpedantic", "-Werror", "-I"])
        .arg(root().join("include"));
    command
}

/// Runs a command that has to succeed.
fn succeeds(mut command: Command) {
    let output = command.output().expect("the command starts");
    assert!(
        output.status.success(),
        "{command:?}\n{}{}",
        String::from_utf8_lossy(&output.stdout),
        String::from_utf8_lossy(&output.stderr)
    );
}

/// Compiled at both ends of optimisation, the C program finds no difference.
#[test]
fn a_c_program_gets_the_same_answers() {
    let source = root().join("rust/dulgaverk/tests/c/boundary.c");
    for level in ["-O0", "-O2"] {
        let program = std::env::temp_dir().join(format!("boundary-{}{level}", std::process::id()));
        let mut compile = compiler("cc");
        compile
            .args(["-std=c11", level, "-o"])
            .args([&program, &source])
            .arg(root().join("target/staticlib/libdulgaverk.a"));
        succeeds(compile);
        succeeds(Command::new(&program));
        let _ = fs::remove_file(&program);
    }
}

/// The header is C++ too, where a C++ compiler is at hand.
#[test]
fn the_header_is_cpp() {
    if Command::new("c++").arg("--version").output().is_err() {
        println!("no c++ here");
        return;
    }
    let mut compile = compiler("c++");
    compile
        .args(["-fsyntax-only", "-x", "c++"])
        .arg(root().join("include/dulgaverk.h"));
    succeeds(compile);
}

/// The words for each refusal are the same in the header.
#[test]
fn the_header_has_every_meaning() {
    let header = fs::read_to_string(root().join("include/dulgaverk.h")).expect("the header");
    for (number, meaning) in MEANINGS {
        let line = format!(" * {number:>6}  {meaning}\n");
        assert!(header.contains(&line), "{line}");
    }
}

/// 1 to 35 have their words; those of 22 say that it is kept free.
#[test]
fn every_number_has_its_words() {
    for ((number, meaning), expected) in MEANINGS.into_iter().zip(1..=35) {
        assert_eq!(number, expected);
        assert_eq!(number == 22, meaning.starts_with("no longer given"));
    }
}
