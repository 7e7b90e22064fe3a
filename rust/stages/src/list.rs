//! The mixed list that the program prints.

use crate::case::{Case, Operation, OPERATIONS};
use crate::deep::deep;
use crate::rng::Rng;
use crate::stream::{damaged, random, sound, Class};
use crate::table::Size;
use crate::{directed, limit};
use std::collections::HashSet;

/// A case with a file above so many bytes, a formula that it writes among
/// them, is heavy.
pub const HEAVY: usize = 2_000;
/// How many faults inside branches the list has for certain, and how long
/// their files are at most.
const DEEP: usize = 30;
const SHORT: usize = 400;

/// The list for a seed: a case for each refusal of each operation and file,
/// then some of both sides of the limits, some faults inside branches, then a
/// random mixture up to the count. Only the cases for the refusals 1 of a file and 18 have a file above
/// `HEAVY` bytes, as these cannot be met otherwise; `light` leaves them out too.
pub fn list(seed: u64, count: usize, light: bool) -> Vec<(Class, Case)> {
    let mut rng = Rng::new(seed);
    let mut cases = Vec::new();
    // Directed and limit cases that are not taken at once.
    let mut rest = Vec::new();
    let mut met = HashSet::new();
    for operation in OPERATIONS {
        let mut aimed = directed::directed(&mut rng, operation);
        rng.shuffle(&mut aimed);
        for (number, case) in aimed {
            let heavy = case.largest_file() > HEAVY;
            let file = case.outcome().answer.file;
            // A formula or turned file that is too long is for the heavy list:
            // all of it would have to be evaluated.
            if heavy && (light || (number, file) == (1, 4)) {
                continue;
            }
            if met.insert((operation as u8, number, file)) {
                cases.push((Class::Directed, case));
            } else if !heavy {
                rest.push((Class::Directed, case));
            }
        }
    }
    for operation in OPERATIONS {
        let mut aimed = limit::light(&mut rng, operation);
        rng.shuffle(&mut aimed);
        let share = match operation {
            Operation::Check => 22,
            Operation::Test => 8,
            Operation::TurnProof => 8,
            Operation::List | Operation::NextProof => 0,
            _ => 4,
        };
        aimed.retain(|(_, case)| case.largest_file() <= HEAVY);
        for (index, (_, case)) in aimed.into_iter().enumerate() {
            if index < share {
                cases.push((Class::Limit, case));
            } else {
                rest.push((Class::Limit, case));
            }
        }
    }
    let mut left = DEEP;
    while left > 0 {
        let (_, case) = deep(&mut rng, Size::SMALL.constants);
        if case.longest_file() <= SHORT {
            cases.push((Class::Damaged, case));
            left -= 1;
        }
    }
    rng.shuffle(&mut rest);
    if cases.len() > count {
        // Some of every sort.
        rng.shuffle(&mut cases);
        cases.truncate(count);
    }
    while cases.len() < count {
        if rng.chance(1, 8) {
            cases.extend(rest.pop());
            continue;
        }
        let class = match rng.below(20) {
            0..=11 => Class::Sound,
            12..=17 => Class::Damaged,
            _ => Class::Noise,
        };
        let operation = match rng.below(24) {
            0..=13 => Operation::Check,
            14..=15 => Operation::Read,
            16 => Operation::Write,
            17 => Operation::Show,
            18 => Operation::Test,
            19 => *rng.pick(&[Operation::TurnBundle, Operation::TurnProof]),
            20 => Operation::List,
            21 => Operation::Print,
            22 => Operation::PrintWords,
            _ => Operation::NextProof,
        };
        let case = match class {
            Class::Sound => sound(&mut rng, operation, &Size::SMALL),
            Class::Damaged => damaged(&mut rng, operation, &Size::SMALL),
            _ => random(&mut rng, operation),
        };
        if case.largest_file() <= HEAVY {
            cases.push((class, case));
        }
    }
    cases
}

/// The heavy list for a seed: the limits that need long files, then large
/// tables up to the count.
pub fn heavy_list(seed: u64, count: usize) -> Vec<(Class, Case)> {
    let mut rng = Rng::new(seed);
    let mut cases = Vec::new();
    for operation in OPERATIONS {
        for (_, case) in limit::heavy(&mut rng, operation) {
            cases.push((Class::Limit, case));
        }
    }
    cases.truncate(count);
    while cases.len() < count {
        let case = sound(&mut rng, Operation::Check, &Size::LARGE);
        if case.largest_file() > HEAVY {
            cases.push((Class::Sound, case));
        }
    }
    cases
}
