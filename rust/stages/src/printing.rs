//! Formulas that are printed.

use crate::case::{Case, Operation};
use crate::damage::damage;
use crate::directed::Aimed;
use crate::other;
use crate::rng::Rng;
use crate::stream::near;

/// A formula printed in one of the two ways.
pub fn print(operation: Operation, formula: Vec<u8>, out: usize) -> Case {
    if operation == Operation::PrintWords {
        Case::PrintWords { formula, out }
    } else {
        Case::Print { formula, out }
    }
}

/// An output in which the text of any formula of so many bytes has room.
pub fn enough(formula: &[u8]) -> usize {
    6 * formula.len()
}

/// A formula that is in order, with more or less room than its text needs.
pub fn sound(rng: &mut Rng, operation: Operation, formula: Vec<u8>) -> Case {
    let needed = print(operation, formula.clone(), 0).outcome().answer.place;
    let out = if rng.chance(1, 8) {
        0
    } else {
        near(rng, needed)
    };
    print(operation, formula, out)
}

/// Damages what is printed in one place.
pub fn damaged(rng: &mut Rng, formula: &mut Vec<u8>, out: &mut usize, k: usize) {
    match rng.below(10) {
        0 => *out = rng.below(*out + 1),
        _ => damage(rng, formula, k),
    }
}

/// Formulas printed that were made for an answer to a test, where that is the
/// formula's.
pub fn from_tests(operation: Operation, tests: Vec<Aimed>) -> Vec<Aimed> {
    let mut cases = Vec::new();
    for (number, case) in tests {
        if let Case::Test { formula, values } = case {
            let of_values = matches!(number, 9 | 23) || !(1..=16).contains(&values.len());
            if !of_values {
                let out = enough(&formula);
                cases.push((number, print(operation, formula, out)));
            }
        }
    }
    cases
}

/// Outputs just long enough, too short, and none; and the formula's refusals
/// before that of the output.
pub fn directed(rng: &mut Rng, operation: Operation) -> Vec<Aimed> {
    let k = 1 + rng.below(16);
    let formula = other::formula(rng, k, 3);
    let needed = print(operation, formula.clone(), 0).outcome().answer.place;
    let mut cases = Vec::new();
    for (number, out) in [
        (0, needed),
        (0, needed + 1 + rng.below(9)),
        (21, needed - 1),
        (21, 0),
    ] {
        cases.push((number, print(operation, formula.clone(), out)));
    }
    cases.push((2, print(operation, formula[..4].to_vec(), 0)));
    cases.push((2, print(operation, Vec::new(), 0)));
    cases
}
