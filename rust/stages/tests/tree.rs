//! Row, step and branch of every answer, beside a reading of the proof that goes
//! down its branches one by one; and how deep the faults stand.

use reference::{Answer, NONE};
use stages::damage::fields;
use stages::deep::deep;
use stages::rng::Rng;
use stages::table::Size;
use stages::tree::{spot, Spot};
use stages::{heavy_list, list, stream, Case, Class, Operation, CLASSES, OPERATIONS};
use std::collections::BTreeSet;

const SIZES: [Size; 3] = [Size::SMALL, Size::MEDIUM, Size::LARGE];

/// What document 02 asks of the answer to a case: row, step and branch.
fn expected(case: &Case, answer: &Answer) -> [u16; 3] {
    let Case::Check { proof, .. } = case else {
        return [NONE; 3];
    };
    // What is refused of A, B and the output, and the proof's length.
    if answer.file != 3 || answer.number == 1 {
        return [NONE; 3];
    }
    let Spot { rows, open } = spot(proof, answer.place);
    let row = match answer.number {
        10..=13 | 15..=18 => rows,
        14 => rows - 1,
        _ => NONE,
    };
    let (step, branch) = open.last().copied().unwrap_or((NONE, NONE));
    [row, step, branch]
}

fn agrees(case: &Case) -> Answer {
    let answer = case.outcome().answer;
    let tree = [answer.row, answer.step, answer.branch];
    assert_eq!(tree, expected(case, &answer), "{}", case.print());
    answer
}

#[test]
fn every_answer_of_every_operation_and_class() {
    for operation in OPERATIONS {
        for class in CLASSES {
            // Limits and edges have long files.
            let share = match class {
                Class::Limit | Class::Edge => 1,
                _ => 20,
            };
            for (size, count) in SIZES.into_iter().zip([400, 100, 25]) {
                for case in stream(operation, class, size, 51).take(share * count) {
                    agrees(&case);
                }
            }
        }
    }
    for (_, case) in list(52, 1_000, false).into_iter().chain(heavy_list(52, 60)) {
        agrees(&case);
    }
}

#[test]
fn deep_cases_meet_their_number_inside_branches() {
    let mut rng = Rng::new(53);
    let mut met = BTreeSet::new();
    let mut steps_left = 0;
    for _ in 0..20_000 {
        let (number, case) = deep(&mut rng, 4);
        let answer = agrees(&case);
        assert_eq!(answer.number, number, "{}", case.print());
        assert_ne!(answer.branch, NONE, "{}", case.print());
        let Case::Check { proof, .. } = &case else {
            unreachable!();
        };
        let Spot { open, .. } = spot(proof, answer.place);
        met.insert((number, open.len().min(4), answer.branch));
        // Steps in front of the fault that are closed already.
        let front = &proof[..answer.place];
        let steps = fields(front)
            .into_iter()
            .filter(|part| matches!(front[part.start], 0x13 | 0x16 | 0x17));
        steps_left += usize::from(steps.count() > open.len());
    }
    for number in [2, 3, 4, 6, 10, 11, 12, 13, 14, 15, 16, 20] {
        // Every branch of a rounding by 16.
        assert!((0..17).all(|branch| (1..=4).any(|depth| met.contains(&(number, depth, branch)))));
        for depth in 1..=4 {
            for branch in 0..3 {
                assert!(
                    met.contains(&(number, depth, branch)),
                    "{number} {depth} {branch}"
                );
            }
        }
    }
    assert!((0..17).all(|branch| met.contains(&(17, 4, branch))));
    assert!(steps_left > 5_000, "{steps_left}");
}

/// How the refusals of a proof stand in it.
#[derive(Default, Debug)]
struct Depths {
    /// Inside so many branches; the last is for four or more.
    inside: [usize; 5],
    /// With a note in front.
    noted: usize,
}

fn depths(cases: impl Iterator<Item = Case>) -> Depths {
    let mut found = Depths::default();
    for case in cases {
        let Case::Check { proof, .. } = &case else {
            continue;
        };
        let answer = case.outcome().answer;
        if answer.file == 3 {
            found.inside[spot(proof, answer.place).open.len().min(4)] += 1;
            let front = &proof[..answer.place];
            let mut parts = fields(front).into_iter();
            found.noted += usize::from(parts.any(|part| front[part.start] >= 0x80));
        }
    }
    found
}

#[test]
fn faults_stand_deep_often_enough() {
    for size in SIZES {
        let found = depths(stream(Operation::Check, Class::Damaged, size, 54).take(10_000));
        println!("10,000 damaged checks: {found:?}");
        assert!(found.inside[2..4].iter().all(|&times| times >= 800));
        assert!(found.noted >= 1_500, "{found:?}");
    }
    // The list that the definitions are tried on.
    for seed in 1..=10 {
        let found = depths(list(seed, 500, false).into_iter().map(|(_, case)| case));
        println!("a list of 500: {found:?}");
        assert!(found.inside[2] >= 6 && found.inside[3] >= 6, "{found:?}");
    }
}
