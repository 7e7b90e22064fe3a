//! Stride formulas in reduced form: what a check writes, that reducing again
//! changes nothing, and that no register value tells the two forms apart.

use stages::build;
use stages::damage::fields;
use stages::other;
use stages::rng::Rng;
use stages::stride::{closes, near_miss, Closes};
use stages::table::Size;
use stages::{stream, Case, Class, Operation, CLASSES};
use std::ops::Range;

const STRIDE: u8 = 0x35;

fn number(bytes: &[u8]) -> i64 {
    i64::from(i32::from_be_bytes(bytes.try_into().unwrap()))
}

/// The stride parts of a formula's file: g, and where the form stands.
fn strides(formula: &[u8]) -> Vec<(i64, Range<usize>)> {
    fields(formula)
        .into_iter()
        .filter(|part| formula[part.start] == STRIDE)
        .map(|part| {
            let form = part.start + 7..part.end;
            (number(&formula[part.start + 3..form.start]), form)
        })
        .collect()
}

/// The file with each number of a stride part changed, given the number and g.
fn changed(formula: &[u8], mut change: impl FnMut(i64, i64) -> i64) -> Vec<u8> {
    let mut file = formula.to_vec();
    for (g, form) in strides(formula) {
        for place in form.step_by(4) {
            let new = change(number(&formula[place..place + 4]), g) as i32;
            file[place..place + 4].copy_from_slice(&new.to_be_bytes());
        }
    }
    file
}

/// The remainder from 0 to g-1, in words that have no negative remainder.
fn remainder(number: i64, g: i64) -> i64 {
    (number % g + g) % g
}

fn reduced(formula: &[u8]) -> Vec<u8> {
    changed(formula, remainder)
}

fn written(table: &Closes) -> Vec<u8> {
    let mut out = vec![0; 65_536];
    let result = reference::check(&table.a, &table.b, &table.proof, &mut out);
    assert_eq!(result.answer.number, 0, "{}", table.case().print());
    out.truncate(result.written);
    out
}

/// A number of a form as someone reads it.
struct Place {
    number: i64,
    g: i64,
    /// Not a coefficient.
    is_d: bool,
    /// A coefficient of a constant that occurs in B, or d.
    kept: bool,
}

/// The file of the formula, each number of tA read in some way.
fn file(table: &Closes, read: impl Fn(Place) -> i64) -> Vec<u8> {
    let part = |g: u16| {
        let numbers: Vec<i32> = table
            .partial
            .iter()
            .enumerate()
            .map(|(place, &number)| {
                let is_d = place == table.k;
                let of = Place {
                    number: i64::from(number),
                    g: i64::from(g),
                    is_d,
                    kept: is_d || table.in_b[place],
                };
                read(of) as i32
            })
            .collect();
        build::divides(i32::from(g), &numbers)
    };
    let parts = match table.strides[..] {
        [g] => vec![part(g)],
        [first, second, third] => vec![
            build::or(),
            part(first),
            build::and(),
            part(second),
            part(third),
        ],
        _ => unreachable!(),
    };
    build::file(table.k as u8, &parts)
}

/// Document 01's form, with the constants that B lacks set to 0.
fn stands(place: &Place) -> i64 {
    if place.kept {
        place.number
    } else {
        0
    }
}

fn right(place: Place) -> i64 {
    remainder(stands(&place), place.g)
}

fn test(formula: &[u8], values: &[i32]) -> bool {
    let result = reference::test_formula(formula, values);
    assert_eq!(result.answer.number, 0);
    result.holds
}

fn values(rng: &mut Rng, k: usize) -> Vec<i32> {
    (0..k).map(|_| other::value(rng)).collect()
}

#[test]
fn closes_by_stride_are_written_reduced() {
    let mut rng = Rng::new(51);
    let mut met = [0; 9];
    for _ in 0..6_000 {
        let table = closes(&mut rng);
        assert_eq!(written(&table), file(&table, right));
        let numbers = &table.partial;
        let g = i32::from(table.strides[0]);
        let gone =
            |place: usize| table.in_b[place] && numbers[place] != 0 && numbers[place] % g == 0;
        let alone = |place: usize| !table.in_b[place] && numbers[place] != 0;
        for (count, meets) in met.iter_mut().zip([
            numbers.iter().any(|&n| n < 0 && n % g != 0),
            numbers.iter().any(|n| n.unsigned_abs() > 1 << 30),
            numbers.contains(&i32::MAX),
            numbers.contains(&-i32::MAX),
            g > 32_767,
            table.strides.contains(&65_535),
            (0..table.k).any(gone),
            (0..table.k).any(alone),
            table.strides.iter().any(|&other| other != table.strides[0]),
        ]) {
            *count += usize::from(meets);
        }
    }
    assert!(met.iter().all(|&count| count > 100), "{met:?}");
}

#[test]
fn closes_that_just_fail_are_refused() {
    let mut rng = Rng::new(52);
    let mut out = vec![0; 65_536];
    for _ in 0..3_000 {
        let table = near_miss(&mut rng);
        let answer = reference::check(&table.a, &table.b, &table.proof, &mut out).answer;
        let place = fields(&table.proof).pop().unwrap().start;
        assert_eq!((answer.number, answer.file, answer.place), (15, 3, place));
    }
}

#[test]
fn wrong_readings_are_told_apart() {
    type Reading = (&'static str, fn(Place) -> i64);
    let wrong: [Reading; 10] = [
        ("as it stands", |p| stands(&p)),
        ("the remainder of the absolute value", |p| {
            stands(&p).abs() % p.g
        }),
        ("the truncated remainder", |p| stands(&p) % p.g),
        ("d left as it stands", |p| {
            if p.is_d {
                p.number
            } else {
                right(p)
            }
        }),
        (
            "only d reduced",
            |p| {
                if p.is_d {
                    right(p)
                } else {
                    stands(&p)
                }
            },
        ),
        ("one more than the remainder", |p| right(p) + 1),
        ("from 1 to g", |p| remainder(stands(&p) - 1, p.g) + 1),
        ("the nearest to 0", |p| {
            let (g, r) = (p.g, right(p));
            if 2 * r > g {
                r - g
            } else {
                r
            }
        }),
        ("only negative numbers raised by g", |p| {
            let number = stands(&p);
            if number < 0 {
                number + p.g
            } else {
                number
            }
        }),
        ("the remainder by g-1", |p| {
            remainder(stands(&p), (p.g - 1).max(1))
        }),
    ];
    let mut rng = Rng::new(53);
    let mut told = [0; 10];
    for _ in 0..2_000 {
        let table = closes(&mut rng);
        let bytes = written(&table);
        for (count, (_, read)) in told.iter_mut().zip(wrong) {
            *count += usize::from(file(&table, read) != bytes);
        }
        // Constants that A alone has: g divides their coefficient in tA, as
        // in t, so it is 0 whether they are set to 0 before or not.
        assert_eq!(file(&table, |p| remainder(p.number, p.g)), bytes);
    }
    for ((name, _), count) in wrong.iter().zip(told) {
        assert!(count > 200, "{name}: {count}");
    }
}

#[test]
fn every_number_of_a_written_stride_part_is_a_remainder() {
    let mut out = vec![0; 65_536];
    let (mut parts, mut comparisons) = (0, 0);
    for class in CLASSES {
        // Limits and edges have long files.
        let share = match class {
            Class::Limit | Class::Edge => 1,
            _ => 8,
        };
        for (size, count) in [(Size::SMALL, 1_000), (Size::MEDIUM, 250), (Size::LARGE, 50)] {
            for case in stream(Operation::Check, class, size, 54).take(share * count) {
                let Case::Check { a, b, proof, .. } = case else {
                    unreachable!();
                };
                let length = reference::check(&a, &b, &proof, &mut out).written;
                let formula = &out[..length];
                for (g, form) in strides(formula) {
                    assert!((2..=65_535).contains(&g));
                    let mut numbers = formula[form].chunks(4).map(number);
                    assert!(numbers.all(|n| (0..g).contains(&n)));
                    parts += 1;
                }
                assert_eq!(reduced(formula), formula);
                // Other parts keep their signs.
                comparisons += fields(formula)
                    .into_iter()
                    .filter(|part| matches!(formula[part.start], 0x33 | 0x34))
                    .filter(|part| {
                        formula[part.start + 3..part.end]
                            .chunks(4)
                            .any(|n| number(n) < 0)
                    })
                    .count();
            }
        }
    }
    assert!(parts > 10_000, "{parts}");
    assert!(comparisons > 5_000, "{comparisons}");
}

/// A formula of one stride part, of any numbers that a test takes.
fn stride_part(rng: &mut Rng, k: usize) -> Vec<u8> {
    let numbers: Vec<i32> = (0..=k).map(|_| other::long(rng)).collect();
    let g = match rng.below(3) {
        0 => rng.within(2, 9),
        1 => rng.within(2, 65_535),
        _ => *rng.pick(&[2, 65_536, 1 << 30, i64::from(i32::MAX)]),
    };
    build::file(k as u8, &[build::divides(g as i32, &numbers)])
}

fn any_formula(rng: &mut Rng, k: usize) -> Vec<u8> {
    if rng.chance(1, 3) {
        stride_part(rng, k)
    } else {
        other::formula(rng, k, 8)
    }
}

#[test]
fn reducing_again_changes_nothing() {
    let mut rng = Rng::new(55);
    let mut moved = 0;
    for _ in 0..10_000 {
        let k = 1 + rng.below(16);
        let formula = any_formula(&mut rng, k);
        let once = reduced(&formula);
        assert_eq!(reduced(&once), once);
        assert_eq!(once.len(), formula.len());
        moved += usize::from(once != formula);
    }
    assert!(moved > 5_000, "{moved}");
}

#[test]
fn the_unreduced_and_the_reduced_file_test_alike() {
    let mut rng = Rng::new(56);
    let (mut differ, mut holding) = (0, 0);
    for _ in 0..10_000 {
        let k = 1 + rng.below(16);
        let formula = any_formula(&mut rng, k);
        let once = reduced(&formula);
        differ += usize::from(once != formula);
        for _ in 0..4 {
            let values = values(&mut rng, k);
            let holds = test(&formula, &values);
            assert_eq!(test(&once, &values), holds);
            holding += usize::from(holds);
        }
    }
    assert!(differ > 5_000, "{differ}");
    assert!((5_000..35_000).contains(&holding), "{holding}");
}

#[test]
fn a_written_formula_tests_like_document_01s_form() {
    let mut rng = Rng::new(57);
    let (mut differ, mut holding) = (0, 0);
    for _ in 0..4_000 {
        let table = closes(&mut rng);
        let bytes = written(&table);
        let as_it_stands = file(&table, |p| stands(&p));
        assert_eq!(reduced(&as_it_stands), bytes);
        differ += usize::from(as_it_stands != bytes);
        // And like any other form of the same remainders.
        let shifted = changed(&bytes, |number, g| {
            let most = (i64::from(i32::MAX) - g) / g;
            number + g * rng.within(-most, most)
        });
        for _ in 0..6 {
            let values = values(&mut rng, table.k);
            let holds = test(&bytes, &values);
            assert_eq!(test(&as_it_stands, &values), holds);
            assert_eq!(test(&shifted, &values), holds);
            holding += usize::from(holds);
        }
    }
    assert!(differ > 3_000, "{differ}");
    assert!(holding > 1_000, "{holding}");
}
