//! What is timed: calls of each operation, small and as large as can be.

use crate::runs::guarded;
use crate::shortening::shortened;
use dulgaverk::{Job, Scheduler};
use reference::{Edition, Parts, Scheduler as AtSeats};
use stages::build::{self, Layout};
use stages::other::number;
use stages::rng::Rng;
use stages::turn::turned_up;
use std::hint::black_box;

/// Calls one side so many times and gives a sum of what came out.
type Side = Box<dyn Fn(usize) -> usize>;

/// A point of a curve: cost against size.
pub struct Point {
    pub curve: &'static str,
    /// What the size counts.
    pub unit: &'static str,
    pub size: usize,
}

pub struct Work {
    pub name: String,
    pub rattle: Side,
    pub rust: Side,
    pub point: Option<Point>,
}

/// Everything that is timed, in the order of the table.
pub fn all() -> Vec<Work> {
    let mut list = Vec::new();
    checks(&mut list);
    bundles(&mut list);
    turned_bundles(&mut list);
    turned_proofs(&mut list);
    shortened(&mut list);
    guarded(&mut list);
    formulas(&mut list);
    short_proofs(&mut list);
    jobs(&mut list);
    list
}

// The Rust checker through plain functions of its own, as the verified operations are called through the library.

#[inline(never)]
fn rust_check(a: &[u8], b: &[u8], proof: &[u8], out: &mut [u8]) -> usize {
    reference::check(a, b, proof, out).written
}

#[inline(never)]
fn rust_read(file: &[u8], kinds: &mut [u8], numbers: &mut [i32]) -> usize {
    reference::read_bundle(file, kinds, numbers).count
}

#[inline(never)]
fn rust_write(edition: usize, k: usize, kinds: &[u8], numbers: &[i32], out: &mut [u8]) -> usize {
    reference::write_bundle(edition, k, kinds, numbers, out).written
}

#[inline(never)]
fn rust_show(a: &[u8], b: &[u8], line: usize) -> usize {
    usize::from(reference::show_answer(a, b, line).number)
}

#[inline(never)]
fn rust_turn_bundle(file: &[u8], to: usize, out: &mut [u8]) -> Result<usize, dulgaverk::Refusal> {
    Ok(reference::turn_bundle(file, to, out).written)
}

#[inline(never)]
fn rust_turn_proof(file: &[u8], to: usize, out: &mut [u8]) -> Result<usize, dulgaverk::Refusal> {
    Ok(reference::turn_proof(file, to, out).written)
}

#[inline(never)]
fn rust_test(formula: &[u8], values: &[i32]) -> usize {
    usize::from(reference::test_formula(formula, values).holds)
}

#[inline(never)]
fn rust_print(formula: &[u8], out: &mut [u8]) -> Result<usize, dulgaverk::Refusal> {
    Ok(reference::print(formula, out).written)
}

#[inline(never)]
fn rust_print_words(formula: &[u8], out: &mut [u8]) -> Result<usize, dulgaverk::Refusal> {
    Ok(reference::print_words(formula, out).written)
}

/// By the search that carries the lines along.
#[inline(never)]
fn rust_next_proof(
    a: &[u8],
    b: &[u8],
    table: &[u8],
    out: &mut [u8],
) -> Result<usize, dulgaverk::Refusal> {
    let found = reference::search_next_proof(a, b, table, out);
    match found.answer.number {
        0 => Ok(found.written),
        number => Err(dulgaverk::Refusal::outside(number, 4, 0)),
    }
}

// The scheduler's state by value, as the library has it.

#[inline(never)]
fn rust_submit(mut state: AtSeats, seat: usize, parts: Parts) -> (AtSeats, u8) {
    let number = state.submit(seat, parts).number;
    (state, number)
}

#[inline(never)]
fn rust_cancel(mut state: AtSeats, seat: usize) -> (AtSeats, u8) {
    let number = state.cancel(seat).number;
    (state, number)
}

#[inline(never)]
fn rust_turn(mut state: AtSeats, buffer: &[u8], out: &mut [u8]) -> (AtSeats, usize) {
    let turned = state.turn(buffer, out);
    (state, turned.map_or(0, |(_, result)| result.written))
}

/// Three files: A, B and a proof.
pub type Stage = [Vec<u8>; 3];

/// Stage 1 of the paper: a reduce and a close by stride.
pub fn stage_1() -> Stage {
    [
        build::file(3, &[build::constraint(true, &[-2, 1, 0, 0])]),
        build::file(3, &[build::constraint(true, &[0, -1, 2, 1])]),
        build::file(3, &[build::reduce(1, 0, 1), build::stride(2, 2)]),
    ]
}

/// A table of so many rows over 16 constants: f ≤ 0 in A, -f + 1 ≤ 0 in B, strengthens up to 30 deep, and each branch
/// closed by combining the two. With claims, each combine is followed by one.
pub fn nested(rows: usize, claims: bool) -> Stage {
    let f: Vec<i16> = (0..17).map(|i| i * 37 - 300).collect();
    let mut minus: Vec<i16> = f.iter().map(|n| -n).collect();
    minus[16] += 1;
    let strengthens = (rows - 2) / 5;
    let extra = rows - (5 * strengthens + 2);
    let mut proof = build::header(16);
    for _ in 0..extra {
        proof.extend(build::scale(0, 3));
    }
    let mut t = [0; 17];
    t[16] = 1;
    let partial: Vec<i32> = f.iter().map(|&n| i32::from(n)).collect();
    let claim = build::claim(&t, &partial);
    let mut left = strengthens;
    let mut branches = vec![0];
    while let Some(depth) = branches.pop() {
        if left > 0 && depth < 30 {
            left -= 1;
            proof.extend(build::strengthen(0));
            branches.extend([depth + 1; 3]);
        } else {
            proof.extend(build::combine(0, 1, 1, 1));
            if claims {
                proof.extend_from_slice(&claim);
            }
            proof.extend(build::close((2 + extra + depth) as u8));
        }
    }
    [
        build::file(16, &[build::constraint(false, &f)]),
        build::file(16, &[build::constraint(false, &minus)]),
        proof,
    ]
}

/// A table of so many rows over K constants: f ≤ 0 in A, where 20 divides f but for a rest of -23, and -f + 1 ≤ 0 in B;
/// roundings by 20 and 3 up to 30 deep, and each branch closed by combining the two.
fn rounded(rows: usize, constants: usize) -> Stage {
    let mut f: Vec<i16> = (0..=constants as i16).map(|i| i * 40 - 320).collect();
    f[constants] = -23;
    let mut minus: Vec<i16> = f.iter().map(|n| -n).collect();
    minus[constants] += 1;
    let roundings = (rows - 2) / 7;
    let extra = rows - (7 * roundings + 2);
    let mut proof = build::header(constants as u8);
    for _ in 0..extra {
        proof.extend(build::scale(0, 3));
    }
    let mut left = roundings;
    let mut branches = vec![0];
    while let Some(depth) = branches.pop() {
        if left > 0 && depth < 30 {
            left -= 1;
            proof.extend(build::rounding(0, 20, 3));
            branches.extend([depth + 1; 4]);
        } else {
            proof.extend(build::combine(0, 1, 1, 1));
            proof.extend(build::close((2 + extra + depth) as u8));
        }
    }
    [
        build::file(constants as u8, &[build::constraint(false, &f)]),
        build::file(constants as u8, &[build::constraint(false, &minus)]),
        proof,
    ]
}

/// Roundings over 16 constants, each in the last branch of the one before, their branches closed by their first row: by how
/// much each rounds, and how many closes follow it. Of these so many, the first, are by stride.
fn closed_at_once(roundings: &[(u16, usize)], mut strides: usize) -> Stage {
    let mut one = vec![0; 17];
    one[16] = 1;
    let mut proof = build::header(16);
    for &(by, closes) in roundings {
        proof.extend(build::rounding(0, 17, by));
        for _ in 0..closes {
            proof.extend(if strides > 0 {
                strides -= 1;
                build::stride(1, 7)
            } else {
                build::close(1)
            });
        }
    }
    let bundle = [
        build::constraint(false, &one),
        build::constraint(true, &one),
    ];
    [build::file(16, &bundle), build::file(16, &[]), proof]
}

/// 6 roundings by 16 and 97 closes, 444 bytes: a formula that is long for so short a proof.
fn rounded_at_once() -> Stage {
    closed_at_once(&[vec![(16, 16); 5], vec![(16, 17)]].concat(), 0)
}

/// 26 roundings by 16 and one by 14, and 431 closes, 24 of them by stride: 65,535 bytes, the longest formula that a check
/// gives.
fn longest_rounded() -> Stage {
    closed_at_once(&[vec![(16, 16); 26], vec![(14, 15)]].concat(), 24)
}

/// 341 strengthens and 683 closes by stride over 16 constants: the longest formula without roundings.
fn longest() -> Stage {
    let mut one = vec![0; 17];
    one[16] = 1;
    let rows: Vec<Vec<u8>> = stages::directed::bushy(341, 1)
        .into_iter()
        .map(|row| {
            if row[0] == 0x14 {
                build::stride(1, 7)
            } else {
                row
            }
        })
        .collect();
    let bundle = [
        build::constraint(false, &one),
        build::constraint(true, &one),
    ];
    [
        build::file(16, &bundle),
        build::file(16, &[]),
        build::file(16, &rows),
    ]
}

/// The same three files in edition 2.
pub fn in_edition_2(stage: Stage) -> Stage {
    stage.map(|file| turned_up(&file))
}

/// A proof of edition 2 that makes so many lines of 16 constants, each from the one before, and closes the last.
pub fn long_branch(lines: usize) -> Stage {
    let rows = Layout(Edition::Two);
    let mut one = vec![0; 17];
    one[16] = 1;
    let mut proof = build::header_of(Edition::Two, 16);
    for line in 0..lines - 1 {
        proof.extend(rows.scale(line, 1));
    }
    proof.extend(rows.close(lines - 1));
    let a = build::file_of(Edition::Two, 16, &[rows.constraint(0, &one)]);
    [a, build::header_of(Edition::Two, 16), proof]
}

fn checks(list: &mut Vec<Work>) {
    list.push(check("stage 1, 2 rows".to_string(), stage_1(), None));
    for rows in [8, 32, 128, 256, 512, 1_024] {
        let point = Point {
            curve: "check a proof",
            unit: "rows",
            size: rows,
        };
        let name = format!("{rows} rows, 16 constants, nested strengthens");
        list.push(check(name, nested(rows, false), Some(point)));
    }
    for rows in [8, 32, 128, 1_024] {
        let name = format!("the same with {rows} rows and claims");
        list.push(check(name, nested(rows, true), None));
    }
    let name = "1,024 rows, the longest formula without roundings".to_string();
    list.push(check(name, longest(), None));
    // With 16 constants the formula of 1,024 such rows would be too long.
    for (rows, constants) in [(128, 16), (512, 16), (1_024, 15)] {
        let name = format!("{rows} rows, {constants} constants, nested roundings by 3");
        list.push(check(name, rounded(rows, constants), None));
    }
    let name = "103 rows, 16 constants, roundings by 16 closed at once".to_string();
    list.push(check(name, rounded_at_once(), None));
    let name = "458 rows, roundings by 16, the longest formula".to_string();
    list.push(check(name, longest_rounded(), None));
    let name = "edition 2, stage 1, 2 rows".to_string();
    list.push(check(name, in_edition_2(stage_1()), None));
    for rows in [128, 1_024] {
        let name = format!("edition 2, {rows} rows, 16 constants, nested strengthens");
        list.push(check(name, in_edition_2(nested(rows, false)), None));
    }
    for rows in [8, 32, 128] {
        let name = format!("edition 2, the same with {rows} rows and claims");
        list.push(check(name, in_edition_2(nested(rows, true)), None));
    }
    for lines in [128, 1_000] {
        let name = format!("edition 2, {lines} lines of 16 constants on one branch");
        list.push(check(name, long_branch(lines), None));
    }
}

pub fn check(name: String, stage: Stage, point: Option<Point>) -> Work {
    let name = format!("check: {name}");
    let [a, b, proof] = stage;
    assert!(dulgaverk::check(&a, &b, &proof).is_ok(), "{name}");
    let other = [a.clone(), b.clone(), proof.clone()];
    Work {
        name,
        rattle: Box::new(move |times| {
            let mut out = vec![0; 65_536];
            (0..times)
                .map(|_| {
                    let proof = black_box(proof.as_slice());
                    dulgaverk::check_into(&a, &b, proof, &mut out).unwrap_or(0)
                })
                .sum()
        }),
        rust: Box::new(move |times| {
            let mut out = vec![0; 65_536];
            let [a, b, proof] = &other;
            (0..times)
                .map(|_| rust_check(a, b, black_box(proof.as_slice()), &mut out))
                .sum()
        }),
        point,
    }
}

/// K, kinds and numbers of a bundle.
fn lists(edition: Edition, k: u8, count: usize) -> (Vec<u8>, Vec<i32>) {
    let mut rng = Rng::new(u64::from(k));
    let kinds = (0..count).map(|_| rng.below(2) as u8).collect();
    let numbers = (0..count * (usize::from(k) + 1))
        .map(|_| number(&mut rng, edition))
        .collect();
    (kinds, numbers)
}

fn bundles(list: &mut Vec<Work>) {
    for (size, edition, k, count) in [
        ("3 constants, 2 constraints", Edition::One, 3, 2),
        ("16 constants, 32 constraints", Edition::One, 16, 32),
        ("edition 2, 3 constants, 2 constraints", Edition::Two, 3, 2),
        (
            "edition 2, 16 constants, 32 constraints",
            Edition::Two,
            16,
            32,
        ),
    ] {
        let (kinds, numbers) = lists(edition, k, count);
        let (edition, k) = (usize::from(edition.number()), usize::from(k));
        let mut file = vec![0; dulgaverk::WRITTEN_BUNDLE];
        let written = dulgaverk::write_bundle_into(edition, k, &kinds, &numbers, &mut file);
        file.truncate(written.expect("a sound bundle"));
        let read = (file.clone(), [0; 32], [0; 544]);
        let other = read.clone();
        list.push(Work {
            name: format!("read a bundle: {size}"),
            rattle: Box::new(move |times| {
                let (file, mut kinds, mut numbers) = read.clone();
                (0..times)
                    .map(|_| {
                        let file = black_box(file.as_slice());
                        dulgaverk::read_bundle_into(file, &mut kinds, &mut numbers)
                            .map_or(0, |counts| counts.constraints)
                    })
                    .sum()
            }),
            rust: Box::new(move |times| {
                let (file, mut kinds, mut numbers) = other.clone();
                (0..times)
                    .map(|_| rust_read(black_box(file.as_slice()), &mut kinds, &mut numbers))
                    .sum()
            }),
            point: None,
        });
        let write = (kinds, numbers, vec![0; dulgaverk::WRITTEN_BUNDLE]);
        let other = write.clone();
        list.push(Work {
            name: format!("write a bundle: {size}"),
            rattle: Box::new(move |times| {
                let (kinds, numbers, mut out) = write.clone();
                (0..times)
                    .map(|_| {
                        let kinds = black_box(kinds.as_slice());
                        dulgaverk::write_bundle_into(edition, k, kinds, &numbers, &mut out)
                            .unwrap_or(0)
                    })
                    .sum()
            }),
            rust: Box::new(move |times| {
                let (kinds, numbers, mut out) = other.clone();
                (0..times)
                    .map(|_| {
                        let kinds = black_box(kinds.as_slice());
                        rust_write(edition, k, kinds, &numbers, &mut out)
                    })
                    .sum()
            }),
            point: None,
        });
        let last = 2 * count - 1;
        let other = file.clone();
        list.push(Work {
            name: format!("show the last line of two bundles: {size} each"),
            rattle: Box::new(move |times| {
                (0..times)
                    .map(|_| {
                        let file = black_box(file.as_slice());
                        usize::from(dulgaverk::show_answer(file, file, last).is_err())
                    })
                    .sum()
            }),
            rust: Box::new(move |times| {
                (0..times)
                    .map(|_| {
                        let file = black_box(other.as_slice());
                        rust_show(file, file, last)
                    })
                    .sum()
            }),
            point: None,
        });
    }
}

/// A bundle turned up and down, each beside the same bundle read and written in its own edition.
fn turned_bundles(list: &mut Vec<Work>) {
    for (size, k, count) in [
        ("3 constants, 2 constraints", 3, 2),
        ("16 constants, 32 constraints", 16, 32),
    ] {
        for edition in Edition::ALL {
            // Numbers that both editions hold.
            let (kinds, numbers) = lists(Edition::One, k, count);
            let mut file = vec![0; dulgaverk::WRITTEN_BUNDLE];
            let written = dulgaverk::write_bundle_into(
                edition.number().into(),
                k.into(),
                &kinds,
                &numbers,
                &mut file,
            );
            file.truncate(written.expect("a sound bundle"));
            let size = format!("edition {}, {size}", edition.number());
            list.push(read_and_write(
                format!("read and write a bundle: {size}"),
                file.clone(),
            ));
            list.push(turn(
                format!("turn a bundle: {size}"),
                file,
                usize::from(edition.other().number()),
                [dulgaverk::turn_bundle_into, rust_turn_bundle],
            ));
        }
    }
}

/// A bundle read, and what was read written again.
fn read_and_write(name: String, file: Vec<u8>) -> Work {
    let other = file.clone();
    Work {
        name,
        rattle: Box::new(move |times| {
            let (mut kinds, mut numbers) = ([0; 32], [0; 544]);
            let mut out = vec![0; dulgaverk::WRITTEN_BUNDLE];
            (0..times)
                .map(|_| {
                    let file = black_box(file.as_slice());
                    let read = dulgaverk::read_bundle_into(file, &mut kinds, &mut numbers);
                    read.and_then(|found| {
                        let (count, k) = (found.constraints, found.constants);
                        let (kinds, numbers) = (&kinds[..count], &numbers[..count * (k + 1)]);
                        let edition = usize::from(found.edition.number());
                        dulgaverk::write_bundle_into(edition, k, kinds, numbers, &mut out)
                    })
                    .unwrap_or(0)
                })
                .sum()
        }),
        rust: Box::new(move |times| {
            let (mut kinds, mut numbers) = ([0; 32], [0; 544]);
            let mut out = vec![0; dulgaverk::WRITTEN_BUNDLE];
            (0..times)
                .map(|_| {
                    let file = black_box(other.as_slice());
                    let found = reference::read_bundle(file, &mut kinds, &mut numbers);
                    let (count, k) = (found.count, found.k);
                    let (kinds, numbers) = (&kinds[..count], &numbers[..count * (k + 1)]);
                    rust_write(found.edition.into(), k, kinds, numbers, &mut out)
                })
                .sum()
        }),
        point: None,
    }
}

/// A proof turned up and down, each beside the check of it.
fn turned_proofs(list: &mut Vec<Work>) {
    for (size, stage) in [
        ("stage 1, 2 rows", stage_1()),
        ("32 rows", nested(32, false)),
        ("128 rows", nested(128, false)),
        ("1,024 rows", nested(1_024, false)),
        ("1,024 rows and claims", nested(1_024, true)),
    ] {
        for (edition, stage) in [(1, stage.clone()), (2, in_edition_2(stage))] {
            let [_, _, proof] = stage.clone();
            let name = format!("the proof turned next: edition {edition}, {size}");
            list.push(check(name, stage, None));
            list.push(turn(
                format!("turn a proof: edition {edition}, {size}"),
                proof,
                3 - edition,
                [dulgaverk::turn_proof_into, rust_turn_proof],
            ));
        }
    }
}

/// Turns a file into an edition, into an output.
type Turn = fn(&[u8], usize, &mut [u8]) -> Result<usize, dulgaverk::Refusal>;

fn turn(name: String, file: Vec<u8>, to: usize, sides: [Turn; 2]) -> Work {
    let [rattle, rust] = sides.map(|turn| {
        let file = file.clone();
        let side: Side = Box::new(move |times| {
            let mut out = vec![0; 65_536];
            (0..times)
                .map(|_| turn(black_box(file.as_slice()), to, &mut out).unwrap_or(0))
                .sum()
        });
        side
    });
    assert!(rattle(1) > 0, "{name}");
    Work {
        name,
        rattle,
        rust,
        point: None,
    }
}

/// So many comparisons and strides over K constants, joined by and/or as a check joins them. Numbers are of any size, or
/// of one digit.
fn formula(k: u8, parts: usize, small: bool) -> Vec<u8> {
    let mut rng = Rng::new(parts as u64);
    let mut file = build::header(k);
    let mut left = parts - 1;
    let mut levels = vec![0];
    while let Some(level) = levels.pop() {
        if left > 0 && level < 60 {
            left -= 1;
            file.extend(if left.is_multiple_of(2) {
                build::or()
            } else {
                build::and()
            });
            levels.extend([level + 1, level + 1]);
            continue;
        }
        let numbers: Vec<i32> = (0..=k)
            .map(|_| {
                if small {
                    rng.within(-9, 9) as i32
                } else {
                    rng.word() as i32
                }
            })
            .collect();
        file.extend(match rng.below(3) {
            0 => build::comparison(false, &numbers),
            1 => build::comparison(true, &numbers),
            _ => build::divides(rng.within(2, 65_535) as i32, &numbers),
        });
    }
    file
}

fn formulas(list: &mut Vec<Work>) {
    let small = build::file(3, &[build::divides(2, &[0, 1, 0, 0])]);
    let name = "\"2 divides y\" of stage 1";
    list.push(test(
        format!("{TEST}{name}"),
        small.clone(),
        vec![1, 4, -7],
        None,
    ));
    list.extend(prints(name, small));
    let deep = [
        vec![[build::and(), build::comparison(false, &[1, -7])].concat(); 600],
        vec![build::comparison(false, &[1, -7])],
    ];
    let deep = build::file(1, &deep.concat());
    let name = "600 levels of and, 601 parts over 1 constant";
    list.push(test(format!("{TEST}{name}"), deep.clone(), vec![7], None));
    list.extend(prints(name, deep));
    for parts in [8, 32, 128, 256, 512, 860] {
        let file = formula(16, parts, false);
        let values = (0..16).map(|i| i * 7_919 - 60_000).collect();
        let name = format!("{parts} parts over 16 constants, {} bytes", file.len());
        let point = Point {
            curve: "test a formula",
            unit: "parts",
            size: parts,
        };
        let printed = prints(&name, file.clone());
        list.push(test(format!("{TEST}{name}"), file, values, Some(point)));
        if matches!(parts, 8 | 128 | 860) {
            list.extend(printed);
        }
    }
    let file = formula(16, 128, true);
    let name = "128 parts over 16 constants, numbers of one digit";
    let values = (0..16).map(|i| i * 7_919 - 60_000).collect();
    list.push(test(format!("{TEST}{name}"), file.clone(), values, None));
    list.extend(prints(name, file));
}

/// How the rows of a test, and of the same formula printed, start.
pub const TEST: &str = "test a formula: ";
pub const PRINTS: [&str; 2] = ["print a formula: ", "print in words: "];

/// Prints a formula into an output.
type Print = fn(&[u8], &mut [u8]) -> Result<usize, dulgaverk::Refusal>;

/// A formula printed both ways.
fn prints(name: &str, formula: Vec<u8>) -> [Work; 2] {
    let ways: [[Print; 2]; 2] = [
        [dulgaverk::print_into, rust_print],
        [dulgaverk::print_words_into, rust_print_words],
    ];
    let [smt, words] = ways;
    [(PRINTS[0], smt), (PRINTS[1], words)].map(|(start, sides)| {
        let [rattle, rust] = sides.map(|print| {
            let formula = formula.clone();
            let side: Side = Box::new(move |times| {
                let mut out = vec![0; dulgaverk::TEXT];
                (0..times)
                    .map(|_| print(black_box(formula.as_slice()), &mut out).unwrap_or(0))
                    .sum()
            });
            side
        });
        assert!(rattle(1) > 0, "{name}");
        Work {
            name: format!("{start}{name}"),
            rattle,
            rust,
            point: None,
        }
    })
}

/// Writes the next short proof into an output.
type Next = fn(&[u8], &[u8], &[u8], &mut [u8]) -> Result<usize, dulgaverk::Refusal>;

/// One call that finds a proof at once, one that looks at every table and finds none, and all calls of a long list.
fn short_proofs(list: &mut Vec<Work>) {
    let sides: [Next; 2] = [dulgaverk::next_proof_into, rust_next_proof];
    let [a, b, proof] = stage_1();
    list.push(next(
        "the next short proof: stage 1, after its own".to_string(),
        [a, b, proof],
        sides,
    ));
    // Every stride divides all numbers, so that each close is looked at to its end.
    let numbers: Vec<i16> = (0..17).map(|i| 12 * (i + 1)).collect();
    let none = build::file(16, &vec![build::constraint(true, &numbers); 4]);
    let header = build::header(16);
    list.push(next(
        "the next short proof: none of four equalities, 16 constants".to_string(),
        [none, header.clone(), header],
        sides,
    ));
    let [rattle, rust] = sides.map(|next| {
        let one = build::constraint(true, &[0, 1]);
        let (a, b) = (build::file(1, &vec![one; 4]), build::header(1));
        let side: Side = Box::new(move |times| {
            let (mut tables, mut out) = (0, [0; dulgaverk::SHORT_PROOF]);
            for _ in 0..times {
                let mut table = b.clone();
                while let Ok(written) = next(&a, &b, &table, &mut out) {
                    table.clear();
                    table.extend_from_slice(&out[..written]);
                    tables += 1;
                }
            }
            tables
        });
        side
    });
    assert_eq!(rattle(1), 170_104);
    list.push(Work {
        name: "all 170,104 short proofs of four times 1 = 0".to_string(),
        rattle,
        rust,
        point: None,
    });
}

/// One call; a refusal counts as its number.
fn next(name: String, [a, b, table]: Stage, sides: [Next; 2]) -> Work {
    let [rattle, rust] = sides.map(|next| {
        let (a, b, table) = (a.clone(), b.clone(), table.clone());
        let side: Side = Box::new(move |times| {
            let mut out = [0; dulgaverk::SHORT_PROOF];
            (0..times)
                .map(|_| {
                    let found = next(black_box(&a), &b, &table, &mut out);
                    found.unwrap_or_else(|refusal| usize::from(refusal.number))
                })
                .sum()
        });
        side
    });
    Work {
        name,
        rattle,
        rust,
        point: None,
    }
}

fn test(name: String, file: Vec<u8>, values: Vec<i32>, point: Option<Point>) -> Work {
    assert!(dulgaverk::test_formula(&file, &values).is_ok(), "{name}");
    let (other, same) = (file.clone(), values.clone());
    Work {
        name,
        rattle: Box::new(move |times| {
            (0..times)
                .map(|_| {
                    let file = black_box(file.as_slice());
                    dulgaverk::test_formula(file, &values).map_or(0, usize::from)
                })
                .sum()
        }),
        rust: Box::new(move |times| {
            (0..times)
                .map(|_| rust_test(black_box(other.as_slice()), &same))
                .sum()
        }),
        point,
    }
}

/// Calls at the scheduler. The turn serves stage 1, and each starts from the same state.
fn jobs(list: &mut Vec<Work>) {
    let [a, b, proof] = stage_1();
    let (x, y) = (a.len(), a.len() + b.len());
    let buffer = [a, b, proof].concat();
    let parts = [(0, x), (x, y), (y, buffer.len())];
    let [a, b, proof] = parts.map(|(start, end)| start..end);
    let job = Job { a, b, proof };
    let mut waiting = Scheduler::new();
    waiting.submit(3, &job).expect("a free seat");
    let mut other = AtSeats::default();
    other.submit(3, parts);
    list.push(Work {
        name: "submit a job and cancel it".to_string(),
        rattle: Box::new(move |times| {
            let mut state = Scheduler::new();
            (0..times)
                .map(|_| {
                    let refused = state.submit(black_box(3), &job).is_err();
                    usize::from(refused | state.cancel(black_box(3)).is_err())
                })
                .sum()
        }),
        rust: Box::new(move |times| {
            let mut state = AtSeats::default();
            let mut refused = 0;
            for _ in 0..times {
                let (submitted, first) = rust_submit(state, black_box(3), parts);
                let (cancelled, second) = rust_cancel(submitted, black_box(3));
                state = cancelled;
                refused += usize::from(first | second);
            }
            refused
        }),
        point: None,
    });
    let lent = buffer.clone();
    list.push(Work {
        name: "a turn that serves stage 1, 2 rows".to_string(),
        rattle: Box::new(move |times| {
            let mut out = vec![0; 65_536];
            (0..times)
                .map(|_| {
                    let mut state = waiting;
                    let served = state.turn(black_box(buffer.as_slice()), &mut out);
                    black_box(state);
                    served.map_or(0, |served| served.result.unwrap_or(0))
                })
                .sum()
        }),
        rust: Box::new(move |times| {
            let mut out = vec![0; 65_536];
            (0..times)
                .map(|_| {
                    let state = other.clone();
                    let (left, written) = rust_turn(state, black_box(lent.as_slice()), &mut out);
                    black_box(left);
                    written
                })
                .sum()
        }),
        point: None,
    });
}
