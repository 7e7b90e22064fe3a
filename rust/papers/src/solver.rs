//! What z3 proves, where it is installed.

use std::io::Write;
use std::process::{Command, Stdio};

/// Whether z3 can be run; says so on stderr where it cannot.
pub fn installed() -> bool {
    let there = Command::new("z3")
        .arg("--version")
        .stdout(Stdio::null())
        .status()
        .is_ok();
    if !there {
        // Not by eprintln, which a test that passes does not show.
        let _ = writeln!(
            std::io::stderr(),
            "z3 is not installed: nothing is proved by it here"
        );
    }
    there
}

/// For each claim whether it holds at all values of the constants.
pub fn valid(constants: &[String], claims: &[String]) -> Vec<bool> {
    let mut script = String::from("(set-logic ALL)\n");
    for name in constants {
        script += &format!("(declare-const {name} Int)\n");
    }
    for claim in claims {
        script += &format!("(push)(assert (not {claim}))(check-sat)(pop)\n");
    }
    let mut z3 = Command::new("z3")
        .args(["-in", "-T:300"])
        .stdin(Stdio::piped())
        .stdout(Stdio::piped())
        .spawn()
        .expect("z3");
    let mut input = z3.stdin.take().expect("its input");
    input.write_all(script.as_bytes()).expect("its input");
    drop(input);
    let said = z3.wait_with_output().expect("its output").stdout;
    let said = String::from_utf8(said).expect("text");
    let answers: Vec<bool> = said
        .split_whitespace()
        .map(|word| match word {
            "unsat" => true,
            "sat" => false,
            _ => panic!("z3 says {said}\nof {script}"),
        })
        .collect();
    assert_eq!(answers.len(), claims.len(), "{script}");
    answers
}
