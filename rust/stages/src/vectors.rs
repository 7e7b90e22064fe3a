//! Lists of vectors at which one formula is tested.

use crate::case::Case;
use crate::damage::damage;
use crate::directed::Aimed;
use crate::other;
use crate::rng::Rng;
use crate::stream::near;

/// How many vectors a list has: none, a few, and about as many as the bits of a
/// word or two.
fn count(rng: &mut Rng) -> usize {
    match rng.below(10) {
        0 => 0,
        1..=6 => 1 + rng.below(5),
        7 | 8 => *rng.pick(&[62, 63, 64, 65]),
        _ => *rng.pick(&[31, 32, 33, 125, 126, 127, 128, 130]),
    }
}

/// A list that is in order for a formula over k constants.
pub fn sound(rng: &mut Rng, k: usize, formula: Vec<u8>) -> Case {
    let vectors = count(rng);
    let values = (0..vectors * k).map(|_| other::value(rng)).collect();
    Case::List {
        formula,
        k,
        values,
        out: near(rng, vectors),
    }
}

/// A number of values to a vector that is none, or one that only its last byte
/// makes one.
pub fn wrong_k(rng: &mut Rng) -> usize {
    *rng.pick(&[
        0,
        17,
        18,
        255,
        256,
        257,
        272,
        65_552,
        1 << 32 | 1,
        usize::MAX,
    ])
}

/// Damages a list in one place.
pub fn damaged(rng: &mut Rng, case: &mut Case) {
    let Case::List {
        formula,
        k,
        values,
        out,
    } = case
    else {
        return;
    };
    match rng.below(12) {
        0 => *k = wrong_k(rng),
        1 => *k = rng.below(20),
        2 => {
            values.pop();
        }
        3 => values.push(other::value(rng)),
        4 | 5 => {
            let place = rng.below(values.len());
            if let Some(value) = values.get_mut(place) {
                *value = outside(rng);
            }
        }
        6 => *out = rng.below(*out + 1),
        _ => damage(rng, formula, (*k).min(16)),
    }
}

/// A value that is not permitted.
fn outside(rng: &mut Rng) -> i32 {
    *rng.pick(&[1_000_001, -1_000_001, 1_000_000_000, i32::MIN, i32::MAX])
}

/// A list that is answered as a test is: of its vector alone, of some more
/// behind it, or, where the formula is at fault, of none.
fn like(rng: &mut Rng, number: u8, formula: Vec<u8>, vector: &[i32]) -> Case {
    let vectors = match rng.below(4) {
        0 if number != 23 => 0,
        1 => 1 + rng.below(3),
        2 => *rng.pick(&[2, 63, 64]),
        _ => 1,
    };
    let mut values = vector.repeat(vectors);
    for value in values.iter_mut().skip(vector.len()) {
        *value = other::value(rng);
    }
    Case::List {
        formula,
        k: vector.len(),
        values,
        out: vectors + rng.below(3),
    }
}

/// Lists made from tests that were made for an answer, which stays.
pub fn from_tests(rng: &mut Rng, tests: Vec<Aimed>) -> Vec<Aimed> {
    let mut cases = Vec::new();
    for (number, case) in tests {
        if let Case::Test { formula, values } = case {
            cases.push((number, like(rng, number, formula, &values)));
        }
    }
    cases
}

/// One of each refusal that only a list has, and its order before the others.
pub fn directed(rng: &mut Rng) -> Vec<Aimed> {
    let k = 1 + rng.below(16);
    let formula = other::formula(rng, k, 3);
    let vectors = 1 + rng.below(5);
    let values: Vec<i32> = (0..vectors * k).map(|_| other::value(rng)).collect();
    let mut cases = Vec::new();
    let mut push = |number: u8, formula: &[u8], k: usize, values: &[i32], out: usize| {
        let (formula, values) = (formula.to_vec(), values.to_vec());
        let case = Case::List {
            formula,
            k,
            values,
            out,
        };
        cases.push((number, case));
    };
    push(0, &formula, k, &values, vectors);
    push(0, &formula, k, &[], 0);
    push(21, &formula, k, &values, vectors - 1);
    push(21, &formula, k, &values, 0);
    // 7 before 23, before the formula and before 21; no K is divided by.
    for wrong in [0, 17, 272, usize::MAX] {
        push(7, &[9], wrong, &[1_000_001], 0);
        push(7, &formula, wrong, &[], 0);
    }
    let mut more = values.clone();
    more.push(1_000_001);
    if k > 1 {
        push(7, &formula, k, &more, vectors);
    } else {
        push(23, &formula, k, &more, vectors + 1);
    }
    // 23 at the first value of any vector, before the formula.
    let mut far = values.clone();
    let place = rng.below(far.len());
    far[place] = outside(rng);
    push(23, &[9], k, &far, 0);
    let last = far.len() - 1;
    far[last] = outside(rng);
    push(23, &formula, k, &far, vectors);
    // The formula before 21, in an empty list too.
    push(2, &formula[..4], k, &values, 0);
    push(2, &formula[..4], k, &[], 0);
    cases
}
