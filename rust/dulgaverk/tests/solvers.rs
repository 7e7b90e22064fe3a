//! Other solvers read every printed guard, and take it to say what the file says: z3 and cvc5, each where it is installed.
//!
//! Each text is put beside a translation made here from the file's bytes in another shape, without `mod`, and the solver is
//! asked for an assignment at which the two differ; there must be none. Numbers of any size are compared with a test at
//! register values instead, as a solver may be long about them.

mod common;
use common::root;

use stages::build::{and, comparison, divides, file, or};
use stages::other;
use stages::rng::Rng;
use std::fmt::Write as _;
use std::fs;
use std::io::Write as _;
use std::process::{Command, Stdio};

/// The formulas of all examples: those of the files f that are right, and of every stage that is accepted.
fn guards() -> Vec<Vec<u8>> {
    let mut formulas = Vec::new();
    for entry in fs::read_dir(root().join("examples")).expect("examples/") {
        let path = entry.expect("an entry").path();
        let read = |name: &str| fs::read(path.join(name)).ok();
        formulas.extend(read("f"));
        if let (Some(a), Some(b), Some(p)) = (read("a"), read("b"), read("p")) {
            formulas.extend(dulgaverk::check(&a, &b, &p).ok());
        }
    }
    formulas.retain(|formula| dulgaverk::print(formula).is_ok());
    assert!(formulas.len() >= 29, "{}", formulas.len());
    formulas
}

/// A random formula of some parts with small numbers, at most two of them strides.
fn small(rng: &mut Rng) -> Vec<u8> {
    let k = 1 + rng.below(3);
    let mut parts = Vec::new();
    let (mut left, mut open, mut strides) = (rng.below(5), 1, 2);
    while open > 0 {
        if left > 0 && rng.chance(2, 3) {
            parts.push(if rng.chance(1, 2) { or() } else { and() });
            (left, open) = (left - 1, open + 1);
            continue;
        }
        let numbers: Vec<i32> = (0..=k)
            .map(|_| *rng.pick(&[0, 0, 0, 1, -1, 2, -3, 5]))
            .collect();
        parts.push(match rng.below(3) {
            0 if strides > 0 => {
                strides -= 1;
                divides(2 + rng.below(4) as i32, &numbers)
            }
            1 => comparison(true, &numbers),
            _ => comparison(false, &numbers),
        });
        open -= 1;
    }
    file(k as u8, &parts)
}

/// A formula's file read apart, for a translation that owes nothing to the printing.
struct Translation<'a> {
    rest: &'a [u8],
    k: usize,
    /// What the constants of the remainders are, each with its declaration.
    remainders: String,
    strides: usize,
}

impl Translation<'_> {
    fn number(&mut self) -> i64 {
        let (four, rest) = self.rest.split_at(4);
        self.rest = rest;
        i64::from(i32::from_be_bytes([four[0], four[1], four[2], four[3]]))
    }

    /// The sum from its last constant to its first, with every product as it stands, 0 too: d - (-c)r ..
    fn form(&mut self) -> String {
        let numbers: Vec<i64> = (0..=self.k).map(|_| self.number()).collect();
        let mut sum = numeral(numbers[self.k]);
        for (constant, coefficient) in numbers[..self.k].iter().enumerate() {
            let product = format!("(* r{constant} {})", numeral(-coefficient));
            sum = format!("(- {sum} {product})");
        }
        sum
    }

    /// The part that starts here, said without the printing's own symbols where there are others.
    fn part(&mut self) -> String {
        let tag = self.rest[0];
        let length = usize::from(self.rest[1]) * 256 + usize::from(self.rest[2]);
        self.rest = &self.rest[3..];
        match tag {
            0x31 => {
                let (first, second) = (self.part(), self.part());
                format!("(not (and (not {second}) (not {first})))")
            }
            0x32 => {
                let (first, second) = (self.part(), self.part());
                format!("(ite {second} {first} false)")
            }
            0x33 => format!("(not (< 0 {}))", self.form()),
            0x34 => format!("(not (distinct 0 {}))", self.form()),
            0x35 => {
                let g = self.number();
                let form = self.form();
                // Quotient and remainder are what they must be, not what a solver takes `mod` for.
                let n = self.strides;
                self.strides += 1;
                let _ = writeln!(
                    self.remainders,
                    "(declare-const q{n} Int)(declare-const m{n} Int)\
                     (assert (= {form} (+ m{n} (* {g} q{n}))))(assert (<= 0 m{n}))(assert (< m{n} {g}))"
                );
                format!("(= 0 m{n})")
            }
            _ => {
                // A note.
                assert!(tag >= 0x80, "a tag of a formula");
                self.rest = &self.rest[length..];
                self.part()
            }
        }
    }
}

fn numeral(number: i64) -> String {
    if number < 0 {
        format!("(- {})", -number)
    } else {
        number.to_string()
    }
}

/// K of a formula that is right, and where its parts start.
fn constants(formula: &[u8]) -> (usize, &[u8]) {
    let fields = stages::damage::fields(formula);
    let start = |tag: u8| fields.iter().find(|part| formula[part.start] == tag);
    let k = start(0x02).expect("K");
    (usize::from(formula[k.start + 3]), &formula[k.end..])
}

fn declared(k: usize) -> String {
    (0..k)
        .map(|constant| format!("(declare-const r{constant} Int)"))
        .collect()
}

/// Asks for an assignment at which the text and the translation differ.
fn differ(script: &mut String, formula: &[u8]) {
    let (k, rest) = constants(formula);
    let text = dulgaverk::print(formula).expect("a formula");
    let mut translation = Translation {
        rest,
        k,
        remainders: String::new(),
        strides: 0,
    };
    let other = translation.part();
    let remainders = translation.remainders;
    let _ = writeln!(
        script,
        "(push 1){}\n{remainders}(assert (distinct {text} {other}))(check-sat)(pop 1)",
        declared(k)
    );
}

/// Asks for the text's truth at register values.
fn truth_at(script: &mut String, formula: &[u8], values: &[i32]) {
    let text = dulgaverk::print(formula).expect("a formula");
    let _ = write!(script, "(push 1){}", declared(values.len()));
    for (constant, &value) in values.iter().enumerate() {
        let _ = write!(script, "(assert (= r{constant} {}))", numeral(value.into()));
    }
    let _ = writeln!(script, "(assert {text})(check-sat)(pop 1)");
}

/// What a solver answers to each question of a script, or none if it is not installed.
fn answers(solver: &[&str], script: String) -> Option<Vec<String>> {
    let child = Command::new(solver[0])
        .args(&solver[1..])
        .stdin(Stdio::piped())
        .stdout(Stdio::piped())
        .spawn();
    let Ok(mut child) = child else {
        println!("no {} here: not asked", solver[0]);
        return None;
    };
    let mut input = child.stdin.take().expect("its input");
    let writer = std::thread::spawn(move || input.write_all(script.as_bytes()));
    let output = child.wait_with_output().expect("its output");
    writer.join().expect("a thread").expect("all is written");
    let text = String::from_utf8(output.stdout).expect("text");
    Some(text.lines().map(String::from).collect())
}

/// Puts every question to a solver.
fn ask(solver: &[&str]) {
    let mut rng = Rng::new(1);
    let mut script = "(set-logic ALL)\n".to_string();
    let mut expected = Vec::new();
    let mut formulas = guards();
    formulas.extend((0..300).map(|_| small(&mut rng)));
    for formula in &formulas {
        differ(&mut script, formula);
        expected.push("unsat");
    }
    // The question can be answered otherwise: two texts that do differ.
    let [first, second] = [0, 1].map(|d| file(1, &[divides(2, &[1, d])]));
    let texts = [first, second].map(|formula| dulgaverk::print(&formula).expect("a formula"));
    let [first, second] = texts;
    let _ = writeln!(
        script,
        "(push 1)(declare-const r0 Int)(assert (distinct {first} {second}))(check-sat)(pop 1)"
    );
    expected.push("sat");
    // And numbers of any size, at values.
    for _ in 0..300 {
        let k = 1 + rng.below(16);
        let formula = other::formula(&mut rng, k, 6);
        let values: Vec<i32> = (0..k).map(|_| other::value(&mut rng)).collect();
        truth_at(&mut script, &formula, &values);
        let holds = dulgaverk::test_formula(&formula, &values).expect("a formula");
        expected.push(if holds { "sat" } else { "unsat" });
    }
    let Some(answers) = answers(solver, script) else {
        return;
    };
    for (index, (answer, expected)) in answers.iter().zip(&expected).enumerate() {
        assert_eq!(answer, expected, "{solver:?}, question {index}");
    }
    assert_eq!(answers.len(), expected.len(), "{:?}", answers.last());
    let true_ones = expected.iter().filter(|&&answer| answer == "sat").count();
    assert!(true_ones > 50 && true_ones < 250, "{true_ones}");
    println!("{}: {} questions", solver[0], answers.len());
}

#[test]
fn z3_reads_every_guard() {
    ask(&["z3", "-in", "-t:60000"]);
}

#[test]
fn cvc5_reads_every_guard() {
    ask(&["cvc5", "--incremental", "--lang=smt2", "--tlimit-per=60000"]);
}
