//! Every class of cases has every mix of editions, and both sides of the limits
//! that go by them; a file turned to edition 2 says the same.

use reference::Edition;
use stages::build::{file_of, Layout};
use stages::damage::{edition_of, fields};
use stages::rng::Rng;
use stages::table::{closed_table_in, random_editions, Size, Table};
use stages::turn::turned_up;
use stages::{heavy_list, limit, list, stream, Case, Class, Operation, CLASSES};
use std::collections::{BTreeMap, BTreeSet};

fn written(a: &[u8], b: &[u8], proof: &[u8]) -> Vec<u8> {
    let mut out = vec![0; 65_536];
    let result = reference::check(a, b, proof, &mut out);
    assert_eq!(result.answer.number, 0, "{:?}", result.answer);
    out.truncate(result.written);
    out
}

/// The editions of A, B and proof of a check.
fn mix(case: &Case) -> [Edition; 3] {
    let Case::Check { a, b, proof, .. } = case else {
        panic!("another operation");
    };
    [a, b, proof].map(|file| edition_of(file))
}

#[test]
fn a_table_turned_to_edition_2_gives_the_same_formula() {
    let mut rng = Rng::new(81);
    let first = [Edition::One; 3];
    for (size, count) in [(Size::SMALL, 3_000), (Size::MEDIUM, 500), (Size::LARGE, 60)] {
        for _ in 0..count {
            let Table { a, b, proof, .. } = closed_table_in(&mut rng, &size, first);
            let expected = written(&a, &b, &proof);
            let up = [&a, &b, &proof].map(|file| turned_up(file));
            assert!(up.iter().all(|file| edition_of(file) == Edition::Two));
            for which in 1..8 {
                let of = |index: usize, file: &[u8]| {
                    if which >> index & 1 == 1 {
                        up[index].clone()
                    } else {
                        file.to_vec()
                    }
                };
                let formula = written(&of(0, &a), &of(1, &b), &of(2, &proof));
                assert_eq!(formula, expected);
            }
        }
    }
}

#[test]
fn a_file_that_does_not_say_edition_1_is_not_turned() {
    let second = file_of(
        Edition::Two,
        1,
        &[Layout(Edition::Two).constraint(0, &[1, 2])],
    );
    assert_eq!(turned_up(&second), second);
    assert_eq!(turned_up(&[]), Vec::<u8>::new());
    assert_eq!(turned_up(&[0x03, 0, 2, 1, 1]), [0x03, 0, 2, 1, 1]);
    assert_eq!(turned_up(&[1, 0, 1, 3]), [1, 0, 1, 3]);
    // What is no whole field stays, and so does a row of the wrong length.
    let bytes = [1, 0, 1, 1, 0x14, 0, 2, 7, 7, 0x14, 0, 1, 7, 0x14, 0];
    let wide = [1, 0, 1, 2, 0x14, 0, 2, 7, 7, 0x14, 0, 2, 0, 7, 0x14, 0];
    assert_eq!(turned_up(&bytes), wide);
}

#[test]
fn tables_of_every_mix_are_accepted_and_four_bytes_are_used() {
    let mut rng = Rng::new(82);
    let mut large = 0;
    for (size, count) in [
        (Size::SMALL, 8_000),
        (Size::MEDIUM, 1_000),
        (Size::LARGE, 100),
        (Size::LONG, 150),
    ] {
        for _ in 0..count {
            let editions = random_editions(&mut rng);
            let Table { a, b, proof, .. } = closed_table_in(&mut rng, &size, editions);
            written(&a, &b, &proof);
            let (mut kinds, mut numbers) = ([0; 32], [0; 544]);
            for file in [&a, &b] {
                reference::read_bundle(file, &mut kinds, &mut numbers);
                large += usize::from(numbers.iter().any(|n| n.abs() > 32_768));
            }
        }
    }
    assert!(large > 1_000, "{large}");
}

/// How many lines the rows 0x10 to 0x12 of a proof make.
fn made_lines(proof: &[u8]) -> usize {
    let parts = fields(proof).into_iter();
    parts
        .filter(|part| matches!(proof[part.start], 0x10..=0x12))
        .count()
}

#[test]
fn long_tables_name_lines_above_one_byte() {
    let mut rng = Rng::new(83);
    let mut above = 0;
    for _ in 0..200 {
        let editions = [Edition::One, Edition::Two, Edition::Two];
        let table = closed_table_in(&mut rng, &Size::LONG, editions);
        written(&table.a, &table.b, &table.proof);
        above += usize::from(fields(&table.proof).iter().any(|part| {
            let row = &table.proof[part.clone()];
            matches!(row[0], 0x10..=0x17) && row[3] > 0
        }));
    }
    assert!(above > 40, "{above}");
}

#[test]
fn every_class_has_every_mix() {
    for class in CLASSES {
        let mut accepted = BTreeMap::new();
        let mut refused = BTreeMap::new();
        for case in stream(Operation::Check, class, Size::SMALL, 84).take(3_000) {
            let answer = case.outcome().answer;
            let met = if answer.number == 0 {
                &mut accepted
            } else {
                &mut refused
            };
            *met.entry(mix(&case)).or_insert(0) += 1;
        }
        if class != Class::Sound {
            assert_eq!(refused.len(), 8, "{class:?} {refused:?}");
        }
        if class != Class::Noise {
            assert_eq!(accepted.len(), 8, "{class:?} {accepted:?}");
        }
    }
}

#[test]
fn the_lists_have_every_mix() {
    for seed in 0..5 {
        for cases in [list(seed, 400, true), heavy_list(seed, 400)] {
            let checks = cases
                .iter()
                .map(|(_, case)| case)
                .filter(|case| case.operation() == Operation::Check);
            let met: BTreeSet<_> = checks.map(mix).collect();
            assert_eq!(met.len(), 8);
        }
    }
}

#[test]
fn both_sides_of_every_new_limit_are_met() {
    let mut rng = Rng::new(85);
    let mut lengths = BTreeSet::new();
    let mut lines = BTreeSet::new();
    for (_, case) in limit::heavy(&mut rng, Operation::Check) {
        let answer = case.outcome().answer;
        let Case::Check { a, b, proof, .. } = &case else {
            unreachable!();
        };
        for (name, file) in [(1, a), (2, b)] {
            let refused = (answer.number, answer.file) == (1, name);
            if refused || answer.number == 0 {
                lengths.insert((edition_of(file), file.len(), refused));
            }
        }
        if answer.number == 0 || answer.number == 16 {
            // Three lines are the bundles'; the refused one does not count.
            let count = 3 + made_lines(proof) - usize::from(answer.number == 16);
            lines.insert((edition_of(proof), count, answer.number));
        }
    }
    for (edition, most) in [(Edition::One, 4_096), (Edition::Two, 8_192)] {
        assert!(lengths.contains(&(edition, most, false)));
        assert!(lengths.contains(&(edition, most + 1, true)));
    }
    for (edition, most) in [(Edition::One, 128), (Edition::Two, 1_000)] {
        assert!(lines.contains(&(edition, most, 0)));
        assert!(lines.contains(&(edition, most, 16)));
    }
}

#[test]
fn the_ends_of_two_and_four_bytes_are_read_and_written() {
    let ends = [-32_768, -i32::MAX, i32::MAX, 32_768, -32_769];
    let (mut read, mut written, mut refused) = (BTreeSet::new(), BTreeSet::new(), BTreeSet::new());
    let mut rng = Rng::new(86);
    for operation in [Operation::Read, Operation::Write] {
        for (_, case) in limit::light(&mut rng, operation) {
            let answer = case.outcome().answer;
            match &case {
                Case::Write {
                    edition, numbers, ..
                } if answer.number == 0 => written.extend(numbers.iter().map(|&n| (*edition, n))),
                Case::Write {
                    edition, numbers, ..
                } if answer.number == 13 => {
                    refused.insert((*edition, numbers[answer.place]));
                }
                Case::Read { file, .. } if answer.number == 0 => {
                    let (mut kinds, mut numbers) = ([0; 32], [0; 544]);
                    reference::read_bundle(file, &mut kinds, &mut numbers);
                    read.extend(numbers);
                }
                _ => {}
            }
        }
    }
    for end in ends {
        assert!(read.contains(&end), "{end}");
        assert!(written.contains(&(2, end)), "{end}");
    }
    assert!(written.contains(&(1, -32_768)) && written.contains(&(1, 32_767)));
    for (edition, number) in [(1, 32_768), (1, -32_769), (1, i32::MIN), (2, i32::MIN)] {
        assert!(refused.contains(&(edition, number)), "{edition} {number}");
    }
}
