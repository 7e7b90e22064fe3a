//! The comparison in the gate: fixed seeds, every class of stages, every operation.

use compare::{
    compare, list_proofs, play, print_tested, reorder, turn_back, turn_stage, Calls, Listings,
    Reorderings, Tally, Turnings,
};
use reference::NOT_GIVEN;
use stages::calls::sequence;
use stages::rng::Rng;
use stages::short::pair;
use stages::table::Size;
use stages::turning::many_lines;
use stages::{stream, Class, Operation, CLASSES};

/// So many cases of each class and size; those at the limits have long files, so a part of that.
fn share(class: Class, cases: usize) -> usize {
    match class {
        Class::Limit | Class::Edge => cases / 8,
        _ => cases,
    }
}

fn agree(operation: Operation, seed: u64, cases: usize, numbers: &[u8]) -> Tally {
    let mut tally = Tally::default();
    let mut rng = Rng::new(seed);
    for class in CLASSES {
        for size in [Size::SMALL, Size::MEDIUM, Size::LARGE] {
            for case in stream(operation, class, size, rng.word()).take(share(class, cases)) {
                compare(&case, &mut rng, &mut tally);
            }
        }
    }
    println!("{operation:?}: {} calls", tally.calls(operation));
    assert_eq!(tally.differences(), 0, "{tally}");
    // Every answer that the operation can give was met, and often; no other one ever, 22 among them.
    assert!(!numbers.contains(&NOT_GIVEN));
    for number in 0..=35 {
        let times = tally.answered(operation, number);
        if numbers.contains(&number) {
            assert!(times >= 1_000, "{number}: {tally}");
        } else {
            assert_eq!(times, 0, "{number}: {tally}");
        }
    }
    tally
}

/// 20,000 random closed tables of each size, as many damaged ones, and the rest. Faults stand inside branches often.
#[test]
fn checking_proofs() {
    let tally = agree(
        Operation::Check,
        2,
        20_000,
        &[
            0, 1, 2, 3, 4, 5, 6, 7, 8, 9, 10, 11, 12, 13, 14, 15, 16, 17, 18, 19, 20, 21,
        ],
    );
    for depth in 0..=3 {
        assert!(tally.inside(depth) >= 4_000, "{tally}");
    }
    assert!(tally.too_long(Operation::Check) >= 1_000, "{tally}");
    // Every mix of editions.
    assert!(
        tally.mixes().iter().all(|&calls| calls >= 10_000),
        "{tally}"
    );
}

#[test]
fn reading_bundles() {
    agree(
        Operation::Read,
        3,
        100_000,
        &[0, 1, 2, 3, 4, 5, 6, 7, 8, 13, 21],
    );
}

#[test]
fn writing_bundles() {
    agree(Operation::Write, 4, 100_000, &[0, 5, 7, 8, 13, 21, 24]);
}

#[test]
fn showing_constraints() {
    agree(
        Operation::Show,
        5,
        100_000,
        &[0, 1, 2, 3, 4, 5, 6, 7, 8, 9, 10, 13],
    );
}

#[test]
fn testing_formulas() {
    agree(
        Operation::Test,
        6,
        100_000,
        &[0, 1, 2, 3, 4, 5, 6, 7, 9, 12, 17, 19, 23],
    );
}

#[test]
fn turning_bundles() {
    agree(
        Operation::TurnBundle,
        9,
        100_000,
        &[0, 1, 2, 3, 4, 5, 6, 7, 8, 13, 21],
    );
}

#[test]
fn turning_proofs() {
    let tally = agree(
        Operation::TurnProof,
        10,
        20_000,
        &[0, 1, 2, 3, 4, 5, 6, 7, 10, 21],
    );
    assert!(tally.too_long(Operation::TurnProof) >= 1_000, "{tally}");
}

/// What is turned and turned back is the file without its notes.
#[test]
fn turning_back() {
    let mut seen = Turnings::default();
    let mut rng = Rng::new(11);
    for operation in [Operation::TurnBundle, Operation::TurnProof] {
        for class in CLASSES {
            for size in [Size::SMALL, Size::MEDIUM, Size::LARGE] {
                let cases = stream(operation, class, size, rng.word());
                for case in cases.take(share(class, 10_000)) {
                    turn_back(&case, &mut seen);
                }
            }
        }
    }
    println!("{seen}");
    assert_eq!(seen.differences, 0, "{seen}");
    assert!(seen.back.iter().all(|&files| files > 20_000), "{seen}");
}

/// Every choice of A, B and proof of an accepted stage, turned: the check gives the same, or 16 where a branch of a proof
/// that was turned down has more than 128 lines.
#[test]
fn checking_turned_files() {
    let mut seen = Turnings::default();
    let mut rng = Rng::new(12);
    for class in CLASSES {
        for size in [Size::SMALL, Size::MEDIUM, Size::LARGE] {
            let cases = stream(Operation::Check, class, size, rng.word());
            for case in cases.take(share(class, 8_000)) {
                turn_stage(&case, &mut rng, &mut seen);
            }
        }
    }
    for _ in 0..1_500 {
        let case = many_lines(&mut rng);
        turn_stage(&case, &mut rng, &mut seen);
    }
    println!("{seen}");
    assert_eq!(seen.differences, 0, "{seen}");
    assert!(seen.stages > 20_000, "{seen}");
    for choice in 1..8 {
        assert!(seen.checks[choice] > 10_000, "{seen}");
    }
    assert!(seen.wide > 1_000 && seen.narrow > 200, "{seen}");
    for number in [10, 13] {
        assert!(seen.refused[&number] > 200, "{seen}");
    }
}

/// Lists of vectors, in and out of order, with K 0, 17 and 272 among them, and outputs that are too short.
#[test]
fn testing_lists() {
    let tally = agree(
        Operation::List,
        13,
        20_000,
        &[0, 1, 2, 3, 4, 5, 6, 7, 9, 12, 17, 19, 21, 23],
    );
    assert!(tally.vectors() >= 1_000_000, "{tally}");
}

/// Formulas of every sort, with no output, one just long enough and others.
#[test]
fn printing_formulas() {
    let numbers = [0, 1, 2, 3, 4, 5, 6, 7, 12, 17, 19, 21];
    agree(Operation::Print, 14, 20_000, &numbers);
    agree(Operation::PrintWords, 15, 20_000, &numbers);
}

/// Every formula that the streams test, printed both ways.
#[test]
fn printing_what_is_tested() {
    let mut tally = Tally::default();
    let mut rng = Rng::new(16);
    for class in CLASSES {
        for size in [Size::SMALL, Size::MEDIUM, Size::LARGE] {
            let cases = stream(Operation::Test, class, size, rng.word());
            for case in cases.take(share(class, 20_000)) {
                print_tested(&case, &mut rng, &mut tally);
            }
        }
    }
    assert_eq!(tally.differences(), 0, "{tally}");
    for operation in [Operation::Print, Operation::PrintWords] {
        assert!(tally.answered(operation, 0) > 50_000, "{tally}");
    }
}

#[test]
fn finding_the_next_short_proof() {
    agree(
        Operation::NextProof,
        17,
        15_000,
        &[0, 1, 2, 3, 4, 5, 6, 7, 8, 9, 13, 21, 32, 33],
    );
}

/// All short proofs of some pairs, one after the other.
#[test]
fn listing_short_proofs() {
    let mut seen = Listings::default();
    let mut rng = Rng::new(18);
    for (constraints, pairs) in [(0, 1), (1, 300), (2, 100), (3, 10), (4, 3)] {
        for _ in 0..pairs {
            let pair = pair(&mut rng, constraints);
            list_proofs(&pair, constraints, &mut rng, &mut seen);
        }
    }
    println!("{seen}");
    assert_eq!(seen.differences, 0, "{seen}");
    assert!(
        seen.proved > 100 && seen.tables > 100_000 && seen.others > 1_000,
        "{seen}"
    );
}

/// Registers listed in another sequence: random closed tables, damaged ones, and the rest; and formulas, right and wrong.
#[test]
fn reordering_constants() {
    let mut seen = Reorderings::default();
    let mut rng = Rng::new(7);
    for operation in [Operation::Check, Operation::Test] {
        for class in CLASSES {
            for size in [Size::SMALL, Size::MEDIUM, Size::LARGE] {
                for case in stream(operation, class, size, rng.word()).take(share(class, 20_000)) {
                    reorder(&case, &mut rng, &mut seen);
                }
            }
        }
    }
    println!("{seen}");
    assert_eq!(seen.differences, 0, "{seen}");
    assert!(seen.accepted > 10_000 && seen.moved > 50_000 && seen.one_way > 50_000);
    assert!(seen.judged > 50_000 && seen.tested - seen.judged > 10_000);
}

/// Sequences of 60 calls at the scheduler, over files of closed and damaged tables.
#[test]
fn serving_jobs() {
    let mut seen = Calls::default();
    let mut rng = Rng::new(8);
    for class in [Class::Sound, Class::Damaged] {
        let mut cases = stream(Operation::Check, class, Size::SMALL, rng.word());
        for _ in 0..5_000 {
            let some: Vec<_> = cases.by_ref().take(6).collect();
            let calls = sequence(&mut rng, &some, 60);
            play(&calls, &mut rng, &mut seen);
        }
    }
    println!("{} calls: {seen:?}", seen.all());
    assert_eq!(seen.differences, 0);
    assert_eq!(seen.longest, 8);
    for number in [0, 29, 30] {
        assert!(seen.submitted[&number] > 1_000);
    }
    for number in [0, 29, 31] {
        assert!(seen.cancelled[&number] > 1_000);
    }
    for number in [0, 21, 34] {
        assert!(seen.served[&number] > 1_000);
    }
    assert!(seen.idle[&35] > 1_000 && seen.idle.len() == 1);
}
