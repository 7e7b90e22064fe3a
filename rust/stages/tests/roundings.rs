//! Roundings: what a check writes of them, the readings that it shuts out, what
//! they are refused for, and the tie with strengthens.

use stages::build;
use stages::damage::fields;
use stages::rng::Rng;
use stages::rounding::{damaged, exact, rounded, Rounded};
use stages::table::{closed_table, Size, Table};
use stages::tie::tied;
use stages::tree::branches;
use stages::{stream, Case, Class, Operation, CLASSES};
use std::collections::BTreeSet;

fn written(a: &[u8], b: &[u8], proof: &[u8]) -> Vec<u8> {
    let mut out = vec![0; 65_536];
    let result = reference::check(a, b, proof, &mut out);
    assert_eq!(result.answer.number, 0, "{:?}", result.answer);
    out.truncate(result.written);
    out
}

/// A formula as a tree.
#[derive(Clone)]
enum Formula {
    Part(Vec<u8>),
    Or(Box<Formula>, Box<Formula>),
    And(Box<Formula>, Box<Formula>),
}

use Formula::{And, Or, Part};

fn or(first: Formula, second: Formula) -> Formula {
    Or(Box::new(first), Box::new(second))
}

fn and(first: Formula, second: Formula) -> Formula {
    And(Box::new(first), Box::new(second))
}

fn bytes(formula: &Formula) -> Vec<u8> {
    match formula {
        Part(field) => field.clone(),
        Or(first, second) => [build::or(), bytes(first), bytes(second)].concat(),
        And(first, second) => [build::and(), bytes(first), bytes(second)].concat(),
    }
}

/// Ij: what the close of the branch that raises tA by j gives.
fn closed(table: &Rounded, j: i32) -> Formula {
    let mut form: Vec<i32> = table
        .partial
        .iter()
        .zip(&table.other)
        .map(|(n, m)| n + m)
        .collect();
    form[table.constants] += j;
    Part(build::comparison(false, &form))
}

/// Ej: "g divides tA + j", reduced and over the constants of B.
fn divided(table: &Rounded, j: i32) -> Formula {
    let g = i32::from(table.g);
    let form: Vec<i32> = (0..=table.constants)
        .map(|place| match table.in_b.get(place) {
            None => (table.partial[place] + j).rem_euclid(g),
            Some(true) => table.partial[place].rem_euclid(g),
            Some(false) => 0,
        })
        .collect();
    Part(build::divides(g, &form))
}

/// (Ej and Ij) or the pairs of the amounts after j.
fn pairs(table: &Rounded, j: i32) -> Formula {
    let pair = and(divided(table, j), closed(table, j));
    if j == i32::from(table.k) - 1 {
        pair
    } else {
        or(pair, pairs(table, j + 1))
    }
}

fn right(table: &Rounded) -> Formula {
    or(closed(table, i32::from(table.k)), pairs(table, 0))
}

fn file(table: &Rounded, formula: &Formula) -> Vec<u8> {
    build::file(table.constants as u8, &[bytes(formula)])
}

#[test]
fn roundings_are_written_as_document_02_says() {
    let mut rng = Rng::new(61);
    let (mut amounts, mut met) = (BTreeSet::new(), [0; 6]);
    for _ in 0..6_000 {
        let table = rounded(&mut rng, 16);
        let formula = written(&table.a, &table.b, &table.proof());
        assert_eq!(formula, file(&table, &right(&table)));
        amounts.insert(table.k);
        let (g, k) = (i32::from(table.g), i32::from(table.k));
        let d = table.t[table.constants];
        let coefficients = &table.partial[..table.constants];
        let mut alone = coefficients.iter().zip(&table.in_b);
        for (count, meets) in met.iter_mut().zip([
            (d + k) % g == 0,
            (d + k) % g != 0,
            g > 32_767,
            coefficients.iter().any(|n| n % g != 0 && *n < 0),
            alone.any(|(&n, &in_b)| n != 0 && !in_b),
            table.partial != table.t && coefficients.iter().any(|&n| n != 0),
        ]) {
            *count += usize::from(meets);
        }
    }
    assert_eq!(amounts, (1..=16).collect());
    assert!(met.iter().all(|&count| count > 100), "{met:?}");
}

/// All formulas but the last joined to the last, to the left or to the right.
fn to_the_left(mut list: Vec<Formula>) -> Formula {
    let first = list.remove(0);
    list.into_iter().fold(first, or)
}

fn to_the_right(mut list: Vec<Formula>) -> Formula {
    let last = list.pop().expect("a formula");
    list.into_iter().rfold(last, |rest, next| or(next, rest))
}

#[test]
fn wrong_readings_are_told_apart() {
    type Reading = (&'static str, fn(&Rounded) -> Formula);
    fn each(table: &Rounded, pair: impl Fn(i32) -> Formula) -> Vec<Formula> {
        (0..i32::from(table.k)).map(pair).collect()
    }
    fn whole(table: &Rounded, pair: impl Fn(i32) -> Formula) -> Formula {
        let first = closed(table, i32::from(table.k));
        to_the_right([vec![first], each(table, pair)].concat())
    }
    fn pair(table: &Rounded, j: i32) -> Formula {
        and(divided(table, j), closed(table, j))
    }
    let wrong: [Reading; 8] = [
        ("nested to the left", |t| {
            let first = closed(t, i32::from(t.k));
            to_the_left([vec![first], each(t, |j| pair(t, j))].concat())
        }),
        ("Ik last", |t| {
            let last = closed(t, i32::from(t.k));
            to_the_right([each(t, |j| pair(t, j)), vec![last]].concat())
        }),
        ("I before E", |t| {
            whole(t, |j| and(closed(t, j), divided(t, j)))
        }),
        ("E of tA for all", |t| {
            whole(t, |j| and(divided(t, 0), closed(t, j)))
        }),
        ("one tA for all", |t| {
            whole(t, |j| and(divided(t, j), closed(t, 0)))
        }),
        ("E of tA + k - 1 - j", |t| {
            let k = i32::from(t.k);
            whole(t, |j| and(divided(t, k - 1 - j), closed(t, j)))
        }),
        ("the first raised by 1", |t| {
            to_the_right([vec![closed(t, 1)], each(t, |j| pair(t, j))].concat())
        }),
        ("the pairs from the last on", |t| {
            let mut list = each(t, |j| pair(t, j));
            list.reverse();
            to_the_right([vec![closed(t, i32::from(t.k))], list].concat())
        }),
    ];
    let mut rng = Rng::new(62);
    let mut told = [0; 8];
    for _ in 0..1_000 {
        let table = rounded(&mut rng, 6);
        let formula = written(&table.a, &table.b, &table.proof());
        assert_eq!(formula, file(&table, &whole(&table, |j| pair(&table, j))));
        for (count, (_, read)) in told.iter_mut().zip(wrong) {
            *count += usize::from(file(&table, &read(&table)) != formula);
        }
    }
    for ((name, _), count) in wrong.iter().zip(told) {
        assert!(count > 500, "{name}: {count}");
    }
}

#[test]
fn damaged_roundings_meet_their_number() {
    let mut rng = Rng::new(63);
    let mut met = BTreeSet::new();
    for _ in 0..6_000 {
        let (number, case) = damaged(&mut rng, 4);
        let answer = case.outcome().answer;
        assert_eq!(answer.number, number, "{answer:?} {}", case.print());
        met.insert(number);
    }
    assert_eq!(met, BTreeSet::from([0, 4, 6, 10, 12, 14, 15, 19, 20]));
}

#[test]
fn formulas_of_an_exact_length() {
    let mut rng = Rng::new(64);
    for _ in 0..60 {
        for length in [65_531, 65_533, 65_535, 65_537, 65_539, 65_541] {
            let case = exact(&mut rng, length);
            let Case::Check { a, b, proof, .. } = &case else {
                unreachable!();
            };
            let mut out = vec![0; 70_000];
            let result = reference::check(a, b, proof, &mut out);
            let answer = result.answer;
            if length > 65_536 {
                assert_eq!((answer.number, answer.file, answer.place), (1, 4, length));
            } else {
                assert_eq!((answer.number, result.written), (0, length));
            }
        }
    }
}

/// Every table that has a strengthen with a lone stride in its middle branch, and the one with roundings in its place.
#[test]
fn the_tie_with_a_strengthen() {
    let mut rng = Rng::new(65);
    let (mut ties, mut several, mut deep) = (0, 0, 0);
    for (size, count) in [
        (Size::SMALL, 20_000),
        (Size::MEDIUM, 4_000),
        (Size::LARGE, 400),
    ] {
        for _ in 0..count {
            let table = closed_table(&mut rng, &size);
            let (proof, found) = tied(&table.proof, table.lines());
            if found == 0 {
                assert_eq!(proof, table.proof);
                continue;
            }
            assert_ne!(proof, table.proof);
            let Table { a, b, .. } = &table;
            assert_eq!(written(a, b, &proof), written(a, b, &table.proof));
            let rows = |file: &[u8], tag: u8| {
                let parts = fields(file).into_iter();
                parts.filter(|part| file[part.start] == tag).count()
            };
            assert_eq!(rows(&proof, 0x13) + found, rows(&table.proof, 0x13));
            assert_eq!(rows(&proof, 0x16), rows(&table.proof, 0x16) + found);
            assert_eq!(rows(&proof, 0x15) + found, rows(&table.proof, 0x15));
            ties += 1;
            several += usize::from(found > 1);
            deep += usize::from(rows(&table.proof, 0x13) > found);
        }
    }
    assert!(
        ties > 500 && several > 100 && deep > 100,
        "{ties} {several} {deep}"
    );
}

#[test]
fn roundings_of_every_amount_and_other_steps_stand_in_one_another() {
    let mut amounts = BTreeSet::new();
    // Pairs of an outer and an inner step.
    let mut nested = BTreeSet::new();
    for class in CLASSES {
        for (size, count) in [
            (Size::SMALL, 3_000),
            (Size::MEDIUM, 600),
            (Size::LARGE, 100),
        ] {
            let count = match class {
                Class::Limit | Class::Edge => count / 8,
                _ => count,
            };
            for case in stream(Operation::Check, class, size, 66).take(count) {
                if case.outcome().answer.number != 0 {
                    continue;
                }
                let Case::Check { proof, .. } = case else {
                    unreachable!();
                };
                // The branches that are left of each open step.
                let mut open: Vec<(u8, usize)> = Vec::new();
                for part in fields(&proof) {
                    let field = &proof[part];
                    let branches = match field[0] {
                        0x13 | 0x17 => usize::from(branches(field)),
                        0x16 => {
                            amounts.insert(branches(field) - 1);
                            usize::from(branches(field))
                        }
                        0x14 | 0x15 => {
                            while let Some((_, left)) = open.last_mut() {
                                *left -= 1;
                                if *left > 0 {
                                    break;
                                }
                                open.pop();
                            }
                            continue;
                        }
                        _ => continue,
                    };
                    nested.extend(open.last().map(|&(outer, _)| (outer, field[0])));
                    open.push((field[0], branches));
                }
                assert!(open.is_empty());
            }
        }
    }
    assert_eq!(amounts, (1..=16).collect());
    let steps = [0x13, 0x16, 0x17];
    let all = steps
        .iter()
        .flat_map(|&outer| steps.map(|inner| (outer, inner)));
    assert_eq!(nested, all.collect());
}
