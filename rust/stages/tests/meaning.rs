//! What an accepted check promises, judged by the meaning of constraints and
//! formulas: the formula is true wherever all of A holds, false wherever all
//! of B holds, and names only constants that occur in both.

use stages::damage::fields;
use stages::rng::Rng;
use stages::rounding::rounded;
use stages::table::{closed_table, Size};
use stages::{stream, Case, Class, Operation, CLASSES};

/// A bundle as kinds and rows of numbers.
struct Bundle {
    k: usize,
    constraints: Vec<(u8, Vec<i64>)>,
}

fn bundle(file: &[u8]) -> Bundle {
    let (mut kinds, mut numbers) = ([0; 32], [0; 544]);
    let result = reference::read_bundle(file, &mut kinds, &mut numbers);
    assert_eq!(result.answer.number, 0);
    let rows = numbers.chunks(result.k + 1).take(result.count);
    Bundle {
        k: result.k,
        constraints: kinds
            .into_iter()
            .zip(rows.map(|row| row.iter().map(|&n| i64::from(n)).collect()))
            .collect(),
    }
}

impl Bundle {
    fn holds(&self, values: &[i32]) -> bool {
        self.constraints.iter().all(|(kind, row)| {
            let products = row.iter().zip(values).map(|(&c, &x)| c * i64::from(x));
            let value: i64 = products.sum::<i64>() + row[self.k];
            match kind {
                0 => value <= 0,
                1 => value == 0,
                _ => value != 0,
            }
        })
    }

    fn names(&self, constant: usize) -> bool {
        self.constraints.iter().any(|(_, row)| row[constant] != 0)
    }
}

/// The constants with a non-zero coefficient somewhere in a formula's file.
fn named(formula: &[u8], k: usize) -> Vec<bool> {
    let mut found = vec![false; k];
    for part in fields(formula) {
        let skip = match formula[part.start] {
            0x33 | 0x34 => 3,
            0x35 => 7,
            _ => continue,
        };
        let form = &formula[part.start + skip..part.end];
        for (constant, number) in form.chunks(4).take(k).enumerate() {
            found[constant] |= number != [0; 4];
        }
    }
    found
}

/// Whether the formula holds at the values, which must be sound.
fn test(formula: &[u8], values: &[i32]) -> bool {
    let result = reference::test_formula(formula, values);
    assert_eq!(result.answer.number, 0);
    result.holds
}

/// Counts of what the assignments have met.
#[derive(Default)]
struct Met {
    in_a: usize,
    in_b: usize,
    split: usize,
}

fn examine(rng: &mut Rng, a: &[u8], b: &[u8], formula: &[u8], met: &mut Met) {
    let (a, b) = (bundle(a), bundle(b));
    for (constant, named) in named(formula, a.k).into_iter().enumerate() {
        assert!(!named || (a.names(constant) && b.names(constant)));
    }
    let mut judge = |values: &[i32]| {
        let (in_a, in_b) = (a.holds(values), b.holds(values));
        assert!(!(in_a && in_b));
        let holds = test(formula, values);
        assert!(!in_a || holds, "true where A holds: {values:?}");
        assert!(!in_b || !holds, "false where B holds: {values:?}");
        met.in_a += usize::from(in_a);
        met.in_b += usize::from(in_b);
        met.split += usize::from(in_a != in_b);
    };
    // A whole small box, or random points of a larger one.
    match a.k {
        1 => (-30..=30).for_each(|x| judge(&[x])),
        2 => (-7..=7).for_each(|x| (-7..=7).for_each(|y| judge(&[x, y]))),
        _ => {
            for _ in 0..200 {
                let most = *rng.pick(&[1, 3, 12]);
                let values: Vec<i32> = (0..a.k).map(|_| rng.within(-most, most) as i32).collect();
                judge(&values);
            }
        }
    }
}

#[test]
fn accepted_checks_give_interpolants() {
    let mut met = Met::default();
    let mut rng = Rng::new(21);
    let mut out = vec![0; 65_536];
    let narrow = Size {
        constants: 2,
        ..Size::SMALL
    };
    // Splits of lines of A and of B.
    let mut splits = [0; 2];
    for (size, count) in [(narrow, 8_000), (Size::SMALL, 4_000), (Size::MEDIUM, 500)] {
        for _ in 0..count {
            let table = closed_table(&mut rng, &size);
            let own = bundle(&table.a).constraints.len();
            for part in fields(&table.proof) {
                if table.proof[part.start] == 0x17 {
                    // One byte or two; no line of a bundle is above 255.
                    let line = usize::from(table.proof[part.end - 1]);
                    splits[usize::from(line >= own)] += 1;
                }
            }
            let result = reference::check(&table.a, &table.b, &table.proof, &mut out);
            assert_eq!(result.answer.number, 0);
            examine(
                &mut rng,
                &table.a,
                &table.b,
                &out[..result.written],
                &mut met,
            );
        }
    }
    assert!(splits.iter().all(|&times| times > 1_000), "{splits:?}");
    // The boxes do meet both sides, else nothing would have been tested.
    assert!(met.in_a > 10_000, "{}", met.in_a);
    assert!(met.in_b > 10_000, "{}", met.in_b);
    assert!(met.split > 20_000, "{}", met.split);
}

#[test]
fn roundings_give_interpolants() {
    let mut met = Met::default();
    let mut rng = Rng::new(30);
    let mut out = vec![0; 65_536];
    let mut rounds = [0; 17];
    for (constants, count) in [(1, 1_500), (2, 3_000), (4, 1_500), (16, 200)] {
        for _ in 0..count {
            let table = rounded(&mut rng, constants);
            let proof = table.proof();
            let result = reference::check(&table.a, &table.b, &proof, &mut out);
            assert_eq!(result.answer.number, 0);
            let formula = &out[..result.written];
            examine(&mut rng, &table.a, &table.b, formula, &mut met);
            rounds[usize::from(table.k)] += 1;
        }
    }
    assert!(rounds[1..].iter().all(|&times| times > 100), "{rounds:?}");
    assert!(met.in_a > 10_000, "{}", met.in_a);
    assert!(met.in_b > 10_000, "{}", met.in_b);
}

#[test]
fn damaged_tables_that_are_accepted_give_interpolants_too() {
    let mut met = Met::default();
    let mut rng = Rng::new(22);
    let mut out = vec![0; 65_536];
    let narrow = Size {
        constants: 2,
        ..Size::SMALL
    };
    let mut accepted = 0;
    for case in stream(Operation::Check, Class::Damaged, narrow, 23).take(20_000) {
        let Case::Check { a, b, proof, .. } = case else {
            unreachable!();
        };
        let result = reference::check(&a, &b, &proof, &mut out);
        if result.answer.number == 0 {
            accepted += 1;
            examine(&mut rng, &a, &b, &out[..result.written], &mut met);
        }
    }
    assert!(accepted > 2_000, "{accepted}");
    assert!(met.in_a > 2_000 && met.in_b > 2_000);
}

/// No close tests for it: what the rows make of the lines sees to it.
#[test]
fn every_accepted_formula_names_common_constants_only() {
    let mut out = vec![0; 65_536];
    let (mut accepted, mut strangers, mut common) = (0, 0, 0);
    for class in CLASSES {
        // Limits and edges have long files.
        let share = match class {
            Class::Limit | Class::Edge => 1,
            _ => 8,
        };
        for (size, count) in [(Size::SMALL, 1_000), (Size::MEDIUM, 250), (Size::LARGE, 50)] {
            for case in stream(Operation::Check, class, size, 29).take(share * count) {
                let Case::Check { a, b, proof, .. } = case else {
                    unreachable!();
                };
                let result = reference::check(&a, &b, &proof, &mut out);
                if result.answer.number != 0 {
                    continue;
                }
                accepted += 1;
                let (a, b) = (bundle(&a), bundle(&b));
                let named = named(&out[..result.written], a.k);
                for (constant, named) in named.into_iter().enumerate() {
                    let (in_a, in_b) = (a.names(constant), b.names(constant));
                    assert!(!named || (in_a && in_b));
                    strangers += usize::from(in_a != in_b);
                    common += usize::from(named);
                }
            }
        }
    }
    assert!(accepted > 8_000, "{accepted}");
    assert!(strangers > 8_000, "{strangers}");
    assert!(common > 8_000, "{common}");
}

#[test]
fn bundles_come_back_from_their_bytes() {
    let mut rng = Rng::new(24);
    for _ in 0..5_000 {
        let edition = stages::other::edition(&mut rng);
        let (k, kinds, numbers) = stages::other::lists(&mut rng, edition, 16, 32);
        let needed = 8 + 3 * kinds.len() + edition.number_bytes() * numbers.len();
        let mut file = vec![0x77; needed + 5];
        let number = usize::from(edition.number());
        let result = reference::write_bundle(number, usize::from(k), &kinds, &numbers, &mut file);
        assert_eq!((result.answer.number, result.written), (0, needed));
        assert_eq!(file[needed..], [0x77; 5]);
        let (mut kinds_back, mut numbers_back) = (vec![9; 40], vec![9; 600]);
        let file = &file[..needed];
        let result = reference::read_bundle(file, &mut kinds_back, &mut numbers_back);
        assert_eq!(result.answer.number, 0);
        assert_eq!((result.count, result.k), (kinds.len(), usize::from(k)));
        assert_eq!(usize::from(result.edition), number);
        assert_eq!(kinds_back[..kinds.len()], kinds);
        assert_eq!(numbers_back[..numbers.len()], numbers);
        assert!(kinds_back[kinds.len()..].iter().all(|&kind| kind == 9));
        assert!(numbers_back[numbers.len()..].iter().all(|&n| n == 9));
    }
}

#[test]
fn a_bundle_with_notes_is_written_without_them() {
    let mut rng = Rng::new(25);
    for _ in 0..5_000 {
        let edition = stages::other::edition(&mut rng);
        let (k, kinds, numbers) = stages::other::lists(&mut rng, edition, 16, 32);
        let noted = stages::other::bundle(&mut rng, edition, k, &kinds, &numbers);
        let plain: Vec<u8> = fields(&noted)
            .into_iter()
            .filter(|part| noted[part.start] < 0x80)
            .flat_map(|part| noted[part].to_vec())
            .collect();
        let (mut kinds_back, mut numbers_back) = ([0; 32], [0; 544]);
        let read = reference::read_bundle(&noted, &mut kinds_back, &mut numbers_back);
        assert_eq!(read.answer.number, 0);
        let mut out = vec![0; 2_500];
        let written = reference::write_bundle(
            usize::from(read.edition),
            read.k,
            &kinds_back[..read.count],
            &numbers_back[..read.count * (read.k + 1)],
            &mut out,
        )
        .written;
        assert_eq!(out[..written], plain);
    }
}

#[test]
fn notes_never_change_an_answer_of_check() {
    let mut rng = Rng::new(26);
    let mut refused = 0;
    let cases = stream(Operation::Check, Class::Sound, Size::SMALL, 27)
        .take(1_500)
        .chain(stream(Operation::Check, Class::Damaged, Size::SMALL, 28).take(3_000));
    for case in cases {
        let Case::Check { a, b, proof, out } = case else {
            unreachable!();
        };
        let mut plain = vec![0; out];
        let first = reference::check(&a, &b, &proof, &mut plain);
        let mut files = [a, b, proof];
        // A note at the border of a whole field moves the later places on.
        let index = rng.below(3);
        let borders = fields(&files[index]);
        let border = if borders.is_empty() {
            0
        } else {
            rng.pick(&borders).start
        };
        files[index].splice(border..border, [0xC3, 0, 2, 7, 7]);
        let mut noted = vec![0; out];
        let second = reference::check(&files[0], &files[1], &files[2], &mut noted);
        let mut expected = first.answer;
        if usize::from(expected.file) == index + 1 && expected.place >= border {
            expected.place += 5;
        }
        assert_eq!(second.answer, expected);
        assert_eq!(noted, plain);
        refused += usize::from(first.answer.number != 0);
    }
    assert!(refused > 1_000);
}
