//! Pairs of bundles with at most four constraints, and tables of them for the
//! next short proof.

use crate::build::{self, header};
use crate::case::Case;
use crate::damage::{damage, noise};
use crate::directed::{Aimed, Base};
use crate::other;
use crate::rng::Rng;
use crate::stream::near;
use crate::turn::turned_up;
use reference::Edition;

/// Most constraints of A and B together.
const MOST: usize = 4;

/// Two bundles over K constants.
pub struct Pair {
    pub k: u8,
    pub a: Vec<u8>,
    pub b: Vec<u8>,
}

/// Two bundles of so many constraints together, which often contradict each
/// other.
pub fn pair(rng: &mut Rng, constraints: usize) -> Pair {
    let k = match rng.below(12) {
        0 => 16,
        1 | 2 => 3,
        3..=5 => 2,
        _ => 1,
    };
    // Numbers near the ends of the range have room in edition 2 only.
    let far = rng.chance(1, 10);
    let form: Vec<i32> = (0..k).map(|_| rng.within(-2, 2) as i32).collect();
    let (mut kinds, mut numbers) = (Vec::new(), Vec::new());
    for _ in 0..constraints {
        kinds.push(*rng.pick(&[0, 0, 0, 1, 1, 1, 1, 2]));
        // A multiple of one form, or of 1.
        let times = *rng.pick(&[0, 0, 1, -1, 1, -1, 2, -2, 3]);
        numbers.extend(form.iter().map(|number| times * number));
        numbers.push(rng.within(-3, 4) as i32);
        if far {
            let place = numbers.len() - 1 - rng.below(k + 1);
            let ends = [
                1_073_741_823,
                1_073_741_824,
                -1_073_741_824,
                i32::MAX,
                -i32::MAX,
            ];
            numbers[place] = *rng.pick(&ends);
        }
    }
    let first = rng.below(constraints + 1);
    let bundle = |rng: &mut Rng, kinds: &[u8], numbers: &[i32]| {
        let edition = if far {
            Edition::Two
        } else {
            other::edition(rng)
        };
        other::bundle(rng, edition, k as u8, kinds, numbers)
    };
    let cut = first * (k + 1);
    Pair {
        k: k as u8,
        a: bundle(rng, &kinds[..first], &numbers[..cut]),
        b: bundle(rng, &kinds[first..], &numbers[cut..]),
    }
}

/// How many constraints: mostly one or two, as there are many tables of more.
fn few(rng: &mut Rng) -> usize {
    *rng.pick(&[0, 1, 1, 1, 1, 1, 2, 2, 2, 2, 2, 2, 3, 3, 3, MOST])
}

/// A pair with some constraints.
pub fn some_pair(rng: &mut Rng) -> Pair {
    let constraints = few(rng);
    pair(rng, constraints)
}

/// A table of the sort that is listed, over so many lines, without a look at
/// whether it is a proof.
fn candidate(rng: &mut Rng, k: u8, mut lines: usize) -> Vec<u8> {
    let mut table = header(k);
    let line = |rng: &mut Rng, lines: usize| rng.below(lines) as u8;
    for _ in 0..rng.below(3) {
        let (s, t) = (line(rng, lines), line(rng, lines));
        let (alpha, beta) = (1 + rng.below(2) as u16, 1 + rng.below(2) as u16);
        table.extend(match rng.below(5) {
            0 | 1 => build::combine(s, t, alpha, beta),
            2 | 3 => build::reduce(s, t, *rng.pick(&[1, 2, -1, -2])),
            _ => build::scale(t, alpha),
        });
        lines += 1;
    }
    // The newest line is closed most often.
    let t = if rng.chance(1, 2) {
        lines.saturating_sub(1) as u8
    } else {
        line(rng, lines)
    };
    table.extend(if rng.chance(1, 2) {
        build::close(t)
    } else {
        build::stride(t, 2 + rng.below(3) as u16)
    });
    table
}

/// A short proof of a pair, if one is met soon.
fn member(rng: &mut Rng, pair: &Pair) -> Option<Vec<u8>> {
    let lines = constraints(&pair.a) + constraints(&pair.b);
    (0..60)
        .map(|_| candidate(rng, pair.k, lines))
        .find(|table| {
            reference::check(&pair.a, &pair.b, table, &mut [0; 83])
                .answer
                .number
                == 0
        })
}

/// How many constraints a bundle has that is right.
fn constraints(file: &[u8]) -> usize {
    let parts = crate::damage::fields(file).into_iter();
    parts
        .filter(|part| matches!(file[part.start], 0x03..=0x05))
        .count()
}

fn next(pair: &Pair, table: Vec<u8>, out: usize) -> Case {
    Case::NextProof {
        a: pair.a.clone(),
        b: pair.b.clone(),
        table,
        out,
    }
}

/// The header or a short proof, with more or less room than the next one needs.
pub fn sound(rng: &mut Rng) -> Case {
    let pair = some_pair(rng);
    let mut table = header(pair.k);
    if rng.chance(5, 6) {
        table = member(rng, &pair).unwrap_or(table);
    }
    let answer = next(&pair, table.clone(), 0).outcome().answer;
    let needed = if answer.number == 21 {
        answer.place
    } else {
        32
    };
    let out = if rng.chance(1, 8) {
        0
    } else {
        near(rng, needed)
    };
    next(&pair, table, out)
}

/// Damages a call in one place.
pub fn damaged(rng: &mut Rng, [a, b, table]: [&mut Vec<u8>; 3], out: &mut usize, k: usize) {
    match rng.below(16) {
        0 => *out = rng.below(*out + 1),
        1 => damage(rng, a, k),
        2 => damage(rng, b, k),
        3 => std::mem::swap(a, b),
        4 => table.extend(other::note(rng)),
        5 => table.extend(build::close(0)),
        6 => *table = turned_up(table),
        7 => table.truncate(rng.below(table.len() + 1)),
        8 => *table = candidate(rng, k as u8, MOST),
        // Any one byte: a line, a multiplier, a stride, a length.
        9..=12 => {
            let place = rng.below(table.len());
            if let Some(byte) = table.get_mut(place) {
                *byte = match rng.below(3) {
                    0 => rng.byte(),
                    1 => byte.wrapping_add(1),
                    _ => rng.below(6) as u8,
                };
            }
        }
        _ => damage(rng, table, k),
    }
}

/// Bytes without plan.
pub fn random(rng: &mut Rng, k: usize) -> Case {
    let pair = some_pair(rng);
    let mut files = [pair.a, pair.b, header(pair.k)];
    for file in &mut files {
        if rng.chance(1, 3) {
            *file = noise(rng, k);
        }
    }
    let [a, b, table] = files;
    let out = rng.below(40);
    Case::NextProof { a, b, table, out }
}

/// Calls that were made as shows for an answer, where that is A's or B's.
pub fn from_shows(shows: Vec<Aimed>) -> Vec<Aimed> {
    let mut cases = Vec::new();
    for (number, case) in shows {
        if let Case::Show { a, b, .. } = case {
            if !matches!(number, 0 | 10) {
                let (table, out) = (Vec::new(), 32);
                cases.push((number, Case::NextProof { a, b, table, out }));
            }
        }
    }
    cases
}

/// One of each refusal that only this operation has, each before those that
/// follow it.
pub fn directed(rng: &mut Rng) -> Vec<Aimed> {
    let base = Base::new(rng);
    let k = base.k;
    // "1 ≤ 0", with nothing, or with a constraint that says nothing.
    let one = base.inequality(0, 1);
    let bundle = |fields: &[Vec<u8>]| build::file(k, fields);
    let mut a = bundle(&[one.clone()]);
    let mut b = bundle(&[]);
    if rng.chance(1, 2) {
        std::mem::swap(&mut a, &mut b);
    }
    let pair = Pair { k, a, b };
    let alone = bundle(&[build::close(0)]);
    let twice = bundle(&[build::scale(0, 2), build::scale(0, 1), build::close(2)]);
    let open = bundle(&[build::scale(0, 2)]);
    let mut cases = Vec::new();
    let mut push = |number: u8, table: &[u8], out: usize| {
        cases.push((number, next(&pair, table.to_vec(), out)));
    };
    push(0, &header(k), 12);
    push(0, &header(k), 12 + rng.below(9));
    push(21, &header(k), 11);
    push(21, &header(k), 0);
    push(0, &alone, 21);
    push(21, &alone, 20);
    push(0, &twice, 32);
    // A table that is none, before the output.
    let other_k = if k == 1 { 2 } else { k - 1 };
    for table in [
        Vec::new(),
        header(k)[..7].to_vec(),
        header(other_k),
        build::header_of(Edition::Two, k),
        [header(k), build::note()].concat(),
        [build::note(), alone.clone()].concat(),
        [alone.clone(), build::note()].concat(),
        [alone.clone(), build::close(0)].concat(),
        turned_up(&alone),
        open,
        bundle(&[build::close(1)]),
        bundle(&[build::stride(0, 2)]),
        bundle(&[build::scale(0, 3), build::close(0)]),
        bundle(&[build::scale(0, 257), build::close(0)]),
        bundle(&[build::scale(0, 0), build::close(0)]),
        bundle(&[build::reduce(0, 0, 1), build::close(0)]),
        bundle(&[build::strengthen(0), build::close(0), build::close(0)]),
        bundle(&[
            build::scale(0, 1),
            base.claim((0, 1), (0, 1)),
            build::close(0),
        ]),
        bundle(&[vec![build::scale(0, 1); 3].concat(), build::close(0)]),
        rng.bytes(40),
    ] {
        push(32, &table, *rng.pick(&[0, 32]));
    }
    let mut long = alone;
    build::fill(&mut long, 65_537);
    push(32, &long, 0);
    // The last of them, and none at all.
    let end = bundle(&[build::scale(0, 2), build::scale(1, 2), build::close(2)]);
    push(33, &end, 0);
    let empty = Pair {
        k,
        a: header(k),
        b: header(k),
    };
    cases.push((33, next(&empty, header(k), 0)));
    cases.push((32, next(&empty, Vec::new(), 0)));
    // A fifth constraint, before the table.
    for first in 0..=5 {
        let part = |count| bundle(&vec![one.clone(); count]);
        let pair = Pair {
            k,
            a: part(first),
            b: part(5 - first),
        };
        cases.push((8, next(&pair, Vec::new(), 0)));
        cases.push((8, next(&pair, header(k), 32)));
    }
    cases
}

/// Four constraints and five, in every way between A and B.
pub fn light(rng: &mut Rng) -> Vec<Aimed> {
    let k = 1 + rng.below(16) as u8;
    let mut cases = Vec::new();
    for (number, count) in [(33, MOST), (8, MOST + 1), (8, 8)] {
        for first in 0..=count {
            let pair = distinct(rng, k, first, count - first);
            cases.push((number, next(&pair, header(k), 32)));
        }
    }
    cases
}

/// At most four constraints, or more, some of which may be "1 ≤ 0".
pub fn edge(rng: &mut Rng, over: bool) -> Aimed {
    let k = 1 + rng.below(16) as u8;
    let count = if over {
        5 + rng.below(4)
    } else {
        3 + rng.below(2)
    };
    let first = rng.below(count + 1);
    let mut pair = distinct(rng, k, first, count - first);
    let (mut number, mut table) = (33, header(k));
    if rng.chance(1, 2) && first > 0 {
        // The first of them may be closed.
        let mut numbers = vec![0; usize::from(k) + 1];
        numbers[usize::from(k)] = 1;
        let one = build::Layout(crate::damage::edition_of(&pair.a)).constraint(0, &numbers);
        let length = one.len();
        pair.a[8..8 + length].copy_from_slice(&one);
        number = 0;
        if rng.chance(1, 2) {
            table.extend(build::close(0));
        }
    }
    if over {
        number = 8;
    }
    (number, next(&pair, table, 32))
}

/// So many constraints "t ≠ 0" in A and in B, of which no row but a split takes
/// one.
fn distinct(rng: &mut Rng, k: u8, first: usize, second: usize) -> Pair {
    let mut bundle = |count: usize| {
        let edition = other::edition(rng);
        let layout = build::Layout(edition);
        let mut some = || {
            let numbers: Vec<i32> = (0..=k).map(|_| other::number(rng, edition)).collect();
            layout.constraint(2, &numbers)
        };
        let fields: Vec<Vec<u8>> = (0..count).map(|_| some()).collect();
        build::file_of(edition, k, &fields)
    };
    Pair {
        k,
        a: bundle(first),
        b: bundle(second),
    }
}
