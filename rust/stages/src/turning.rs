//! Files to be turned into the other edition, and editions asked for.

use crate::build::*;
use crate::case::{Case, Operation};
use crate::damage::{edition_of, fields, noise};
use crate::directed::{broken_bundles, Aimed, Base};
use crate::edge::filled;
use crate::editions::lines_on_a_branch;
use crate::other;
use crate::rng::Rng;
use crate::stream::{near, some_table};
use crate::table::Size;
use reference::limits::{BUNDLE_BYTES, PROOF_BYTES};
use reference::Edition;

/// Line numbers at both ends of one byte and of two.
const LINES: [usize; 8] = [0, 1, 255, 256, 257, 511, 65_280, 65_535];
/// Numbers at both ends of two bytes and of four, which two bytes can hold, and
/// which not.
const SHORT: [i32; 6] = [-32_768, -32_767, -1, 0, 32_766, 32_767];
const LONG: [i32; 8] = [
    -32_769,
    32_768,
    65_535,
    65_536,
    -65_536,
    8_388_608,
    -i32::MAX,
    i32::MAX,
];
/// Numbers that are no edition; a byte of the last four would be one.
const NONE: [usize; 8] = [0, 3, 128, 255, 257, 258, 65_537, 1 << 32 | 2];

/// A call with room for any result.
pub fn turn(operation: Operation, file: Vec<u8>, edition: impl Into<usize>) -> Case {
    turn_into(operation, file, edition, PROOF_BYTES)
}

/// A call of turning a proof, or else a bundle.
fn turn_into(operation: Operation, file: Vec<u8>, edition: impl Into<usize>, out: usize) -> Case {
    let edition = edition.into();
    if operation == Operation::TurnProof {
        Case::TurnProof { file, edition, out }
    } else {
        Case::TurnBundle { file, edition, out }
    }
}

/// A call that asks for the edition that the file does not have.
fn other_way(operation: Operation, file: Vec<u8>) -> Case {
    let to = edition_of(&file).other();
    turn(operation, file, to.number())
}

/// The bytes that come of a right file: notes dropped, numbers and line numbers
/// in the other width.
fn needed(operation: Operation, file: &[u8]) -> usize {
    let from = edition_of(file);
    let (old, new) = match operation {
        Operation::TurnProof => (from.line_bytes(), from.other().line_bytes()),
        _ => (from.number_bytes(), from.other().number_bytes()),
    };
    let size = |tag: u8, length: usize| match (operation, tag) {
        (Operation::TurnProof, 0x10 | 0x11) => length - 2 * old + 2 * new,
        (Operation::TurnProof, 0x12..=0x17) => length - old + new,
        (Operation::TurnBundle, 0x03..=0x05) => 3 + (length - 3) / old * new,
        _ => length,
    };
    let parts = fields(file).into_iter();
    let kept = parts.filter(|part| file[part.start] < 0x80);
    kept.map(|part| size(file[part.start], part.len())).sum()
}

/// A row of an edition with these line numbers, and any numbers behind them. The
/// second line number is for combine and reduce only.
fn row(rng: &mut Rng, edition: Edition, tag: u8, s: usize, t: usize) -> Vec<u8> {
    let rows = Layout(edition);
    let mut number = || *rng.pick(&[0, 1, 2, 255, 256, 32_768, 65_535]);
    match tag {
        0x10 => rows.combine(s, t, number(), number()),
        0x11 => rows.reduce(s, t, number() as i16),
        0x12 => rows.scale(s, number()),
        0x13 => rows.strengthen(s),
        0x14 => rows.close(s),
        0x15 => rows.stride(s, number()),
        0x16 => rows.rounding(s, number(), number()),
        _ => rows.split(s),
    }
}

fn some_claim(rng: &mut Rng, k: u8) -> Vec<u8> {
    let mut form = || -> Vec<i32> { (0..=k).map(|_| other::long(rng)).collect() };
    let (t, partial) = (form(), form());
    claim(&t, &partial)
}

/// Rows of every sort in any order, so that the root may be closed early, often or
/// never: claims where they may stand, and the header before. One field each.
fn rows(rng: &mut Rng, edition: Edition, k: u8, count: usize, most: usize) -> Vec<Vec<u8>> {
    let mut list = vec![field(0x01, &[edition.number()]), field(0x02, &[k])];
    let line = |rng: &mut Rng| match rng.below(4) {
        0 => rng.below(most + 1),
        1 => most - rng.below(2),
        _ => rng.below(9),
    };
    for _ in 0..count {
        let tag = 0x10 + rng.below(8) as u8;
        let (s, t) = (line(rng), line(rng));
        list.push(row(rng, edition, tag, s, t));
        if tag <= 0x12 && rng.chance(1, 3) {
            list.push(some_claim(rng, k));
        }
    }
    list
}

/// The fields with some notes between, before and behind them.
fn noted(rng: &mut Rng, fields: Vec<Vec<u8>>) -> Vec<u8> {
    let notes = rng.below(3);
    let mut file = Vec::new();
    for part in fields {
        if rng.chance(notes, 8) {
            file.extend(other::note(rng));
        }
        file.extend(part);
    }
    if rng.chance(notes, 4) {
        file.extend(other::note(rng));
    }
    file
}

/// A file that can be turned, the output of which may be too short.
pub fn sound(rng: &mut Rng, operation: Operation, size: &Size) -> Case {
    let from = other::edition(rng);
    let file = if operation == Operation::TurnBundle {
        let (k, kinds, numbers) = other::lists(rng, Edition::One, size.constants, size.others + 2);
        other::bundle(rng, from, k, &kinds, &numbers)
    } else if rng.chance(1, 2) {
        some_table(rng, size).proof
    } else {
        let (k, count) = (1 + rng.below(size.constants), rng.below(size.others + 9));
        let fields = rows(rng, from, k as u8, count, 255);
        noted(rng, fields)
    };
    let to = edition_of(&file).other().number();
    let out = near(rng, needed(operation, &file));
    turn_into(operation, file, to, out)
}

/// A file of edition 2 to be turned down, in which any numbers and line numbers
/// stand that four bytes and two can hold.
pub fn large(rng: &mut Rng, operation: Operation, size: &Size) -> Case {
    let file = if operation == Operation::TurnBundle {
        let (k, kinds, numbers) = other::lists(rng, Edition::Two, size.constants, size.others + 2);
        other::bundle(rng, Edition::Two, k, &kinds, &numbers)
    } else {
        let (k, count) = (1 + rng.below(size.constants), 1 + rng.below(6));
        let most = *rng.pick(&[256, 257, 1_000, 65_535]);
        let fields = rows(rng, Edition::Two, k as u8, count, most);
        noted(rng, fields)
    };
    let out = near(rng, file.len());
    turn_into(operation, file, 1_usize, out)
}

/// A check of an edition 2 proof that can be turned down, as no line above 255 is
/// named: one has more lines on a branch than edition 1 allows, one has not.
pub fn many_lines(rng: &mut Rng) -> Case {
    let most = match rng.below(4) {
        0 => 127 + rng.below(4),
        _ => 100 + rng.below(200),
    };
    lines_on_a_branch(rng, most, 256)
}

/// Bytes without plan.
pub fn random(rng: &mut Rng, operation: Operation, k: usize) -> Case {
    let file = noise(rng, k);
    let to = match rng.below(3) {
        0 => rng.below(4) as u8,
        _ => edition_of(&file).other().number(),
    };
    let out = rng.below(100);
    turn_into(operation, file, to, out)
}

/// What both sorts of files share: the edition asked for, and that of the file.
fn editions(rng: &mut Rng, operation: Operation) -> Vec<Aimed> {
    let k = 1 + rng.below(16) as u8;
    let mut cases = Vec::new();
    for asked in [0_usize, 1, 2, 3, 255, 257] {
        for own in [0, 1, 2, 3, 255] {
            let start = [field(0x01, &[own]), field(0x02, &[k])].concat();
            let right = matches!((asked, own), (1, 2) | (2, 1));
            for file in [start.clone(), [other::note(rng), start, note()].concat()] {
                let number = if right { 0 } else { 5 };
                cases.push((number, turn(operation, file, asked)));
            }
        }
    }
    for asked in NONE {
        let file = noise(rng, 1);
        cases.push((5, turn_into(operation, file, asked, 0)));
        cases.push((5, turn(operation, vec![0x06; 9], asked)));
    }
    for edition in Edition::ALL {
        let (own, other) = (edition.number(), edition.other().number());
        let header = header_of(edition, k);
        // Behind 0x01 nothing comes before 5, and in front of it everything.
        for rest in [vec![], vec![9], field(0x06, &[]), field(0x02, &[0])] {
            let file = [field(0x01, &[own]), rest.clone()].concat();
            cases.push((5, turn(operation, file, own)));
        }
        for (number, first) in [
            (2, vec![0x80, 0]),
            (3, field(0x7F, &[])),
            (4, field(0x02, &[k])),
            (6, field(0x01, &[own, own])),
            (6, field(0x01, &[])),
        ] {
            for asked in [own, other] {
                let file = [first.clone(), field(0x01, &[own])].concat();
                cases.push((number, turn(operation, file, asked)));
            }
        }
        for out in [7, 0] {
            cases.push((21, turn_into(operation, header.clone(), other, out)));
        }
        cases.push((0, turn_into(operation, header.clone(), other, 8)));
        for k in [0, 17, 255] {
            let file = header_of(edition, k);
            cases.push((7, turn(operation, file, other)));
        }
        for end in [4, 5, 7] {
            let file = header[..end].to_vec();
            cases.push((2, turn(operation, file, other)));
        }
    }
    cases.push((2, turn(operation, Vec::new(), 1_usize)));
    cases.push((2, turn(operation, note(), 2_usize)));
    cases
}

/// The cases for each refusal.
pub fn directed(rng: &mut Rng, operation: Operation) -> Vec<Aimed> {
    let mut cases = editions(rng, operation);
    if operation == Operation::TurnBundle {
        let base = Base::new(rng);
        for (number, file) in broken_bundles(rng, &base) {
            cases.push((number, other_way(operation, file)));
        }
        let mut late = base.a.clone();
        fill(&mut late, 4_097 + rng.below(4_096));
        cases.push((5, turn(operation, late, 1_usize)));
        cases.extend(large_numbers(rng));
        cases.push((0, other_way(operation, base.a.clone())));
    } else {
        for edition in Edition::ALL {
            for (number, file) in broken_proofs(rng, edition) {
                cases.push((number, other_way(operation, file)));
            }
        }
        cases.push((1, other_way(operation, vec![0x7F; 65_537])));
        let over = 65_537 + rng.below(200);
        cases.push((1, other_way(operation, long_result(rng, over))));
        cases.extend(large_lines(rng, &[256, 65_535]));
    }
    cases
}

/// Numbers that two bytes cannot hold, with a fault behind them that comes first,
/// and without.
fn large_numbers(rng: &mut Rng) -> Vec<Aimed> {
    let operation = Operation::TurnBundle;
    let k = 1 + rng.below(4) as u8;
    let rows = Layout(Edition::Two);
    let constraint = |rng: &mut Rng, number: i32| {
        let mut numbers = vec![0; usize::from(k) + 1];
        let place = rng.below(numbers.len());
        numbers[place] = number;
        rows.constraint(rng.below(3) as u8, &numbers)
    };
    let mut cases = Vec::new();
    for number in LONG {
        let (small, last) = (*rng.pick(&SHORT), *rng.pick(&LONG));
        let large = constraint(rng, number);
        let (small, last) = (constraint(rng, small), constraint(rng, last));
        let lowest = constraint(rng, i32::MIN);
        for (aim, rest) in [
            (13, vec![]),
            (13, vec![small.clone()]),
            (13, vec![last]),
            (13, vec![lowest]),
            (2, vec![vec![0x80, 0, 1]]),
            (3, vec![small.clone(), field(0x10, &[])]),
            (4, vec![note(), field(0x02, &[k])]),
            (6, vec![field(0x04, &[0; 5])]),
            (8, vec![small.clone(); 32]),
        ] {
            let fields = [vec![small.clone(), note(), large.clone()], rest].concat();
            let file = file_of(Edition::Two, k, &fields);
            cases.push((aim, turn(operation, file.clone(), 1_usize)));
            if aim == 13 {
                cases.push((13, turn_into(operation, file, 1_usize, 0)));
            }
        }
    }
    cases
}

/// Proofs of an edition that are refused, whatever a check would say of them.
fn broken_proofs(rng: &mut Rng, edition: Edition) -> Vec<(u8, Vec<u8>)> {
    let k = 1 + rng.below(3) as u8;
    let rows = Layout(edition);
    let with = |fields: &[Vec<u8>]| file_of(edition, k, fields);
    let (whole, made) = (rows.close(0), rows.scale(0, 1));
    let stated = some_claim(rng, k);
    let other_tag = *rng.pick(&[0x00, 0x03, 0x05, 0x0F, 0x18, 0x1F, 0x21, 0x31, 0x7F]);
    let mut list = vec![
        (2, with(&[vec![*rng.pick(&[0x14, 0x80, 0x06])]])),
        (2, with(&[whole.clone(), whole[..whole.len() - 1].to_vec()])),
        (2, with(&[made.clone(), vec![0x20, 0, 16]])),
        (3, with(&[field(other_tag, &[1])])),
        (3, with(&[whole.clone(), field(other_tag, &[])])),
        (4, with(&[field(0x01, &[edition.number()])])),
        (4, with(&[whole.clone(), field(0x02, &[k])])),
        (4, [header_of(edition, k), header_of(edition, k)].concat()),
        (
            4,
            [field(0x01, &[edition.number()]), whole.clone()].concat(),
        ),
        // Claims behind what is no row 0x10 to 0x12, and a second one.
        (4, with(&[stated.clone()])),
        (4, with(&[whole.clone(), stated.clone()])),
        (4, with(&[made.clone(), stated.clone(), stated.clone()])),
        (
            4,
            with(&[made.clone(), stated.clone(), note(), stated.clone()]),
        ),
        (4, with(&[made.clone(), rows.split(0), field(0x20, &[])])),
        (6, with(&[made.clone(), field(0x20, &[])])),
        (6, with(&[made.clone(), some_claim(rng, k + 1)])),
    ];
    for tag in 0x10..=0x17 {
        let right = row(rng, edition, tag, 0, 0).len() - 3;
        let wrong = row(rng, edition.other(), tag, 0, 0).len() - 3;
        for length in [0, right - 1, right + 1, wrong] {
            if length != right {
                list.push((6, with(&[field(tag, &vec![0; length])])));
            }
        }
        if !(0x10..=0x12).contains(&tag) {
            let fields = [row(rng, edition, tag, 0, 0), note(), stated.clone()];
            list.push((4, with(&fields)));
        }
    }
    list
}

/// Each row with each of its line numbers in turn, and behind some a fault that
/// comes first.
fn large_lines(rng: &mut Rng, lines: &[usize]) -> Vec<Aimed> {
    let operation = Operation::TurnProof;
    let mut cases = Vec::new();
    for &line in lines {
        for tag in 0x10..=0x17 {
            let places = if tag <= 0x11 { 2 } else { 1 };
            for place in 0..places {
                let (s, t) = if place == 0 { (line, 7) } else { (7, line) };
                let large = row(rng, Edition::Two, tag, s, t);
                let number = if line > 255 { 10 } else { 0 };
                let start = [Layout(Edition::Two).close(1), note(), large];
                let file = file_of(Edition::Two, 1, &start);
                cases.push((number, turn(operation, file.clone(), 1_usize)));
                if line <= 255 {
                    let narrow = row(rng, Edition::One, tag, s, t);
                    let file = file_of(Edition::One, 1, &[narrow]);
                    cases.push((0, turn(operation, file, 2_usize)));
                    continue;
                }
                cases.push((10, turn_into(operation, file.clone(), 1_usize, 0)));
                let (number, rest) = rng
                    .pick(&[
                        (2, vec![0x14, 0]),
                        (3, field(0x7F, &[])),
                        (4, field(0x01, &[2])),
                        (6, field(0x14, &[0])),
                        (10, field(0x14, &[0, 0])),
                        (10, field(0x14, &[255, 255])),
                    ])
                    .clone();
                let file = [file, rest].concat();
                cases.push((number, turn(operation, file, 1_usize)));
            }
        }
    }
    cases
}

/// A proof of edition 1 of which so many bytes come, some thousands at least: some
/// rows again and again, and others to fill it up.
fn long_result(rng: &mut Rng, bytes: usize) -> Vec<u8> {
    let k = 1 + rng.below(16) as u8;
    let mut file = header_of(Edition::One, k);
    // In edition 2.
    let mut left = bytes - 8;
    let any = |rng: &mut Rng, tag: u8| {
        let (s, t) = (rng.below(256), rng.below(256));
        row(rng, Edition::One, tag, s, t)
    };
    let common = 0x10 + rng.below(8) as u8;
    let count = 1 + rng.below(40);
    let mut block = Vec::new();
    for _ in 0..count {
        let tag = match rng.below(4) {
            0 => 0x10 + rng.below(8) as u8,
            _ => common,
        };
        block.extend(any(rng, tag));
        if tag <= 0x12 && rng.chance(1, 40) {
            block.extend(some_claim(rng, k));
        }
    }
    let size = needed(Operation::TurnProof, &block);
    let times = (left - 50) / size;
    file.extend(block.repeat(times));
    left -= times * size;
    // Rows of 7 bytes, until the rest is rows of 5.
    while !left.is_multiple_of(5) {
        file.extend(any(rng, 0x15));
        left -= 7;
    }
    while left > 0 {
        let tag = *rng.pick(&[0x13, 0x14, 0x17]);
        file.extend(any(rng, tag));
        left -= 5;
    }
    file
}

/// Limits with short files.
pub fn light(rng: &mut Rng, operation: Operation) -> Vec<Aimed> {
    let mut cases = Vec::new();
    if operation == Operation::TurnBundle {
        for edition in Edition::ALL {
            let rows = Layout(edition);
            for (number, count) in [(0, 31), (0, 32), (8, 33)] {
                let fields = vec![rows.constraint(rng.below(3) as u8, &[-1, 1]); count];
                let file = file_of(edition, 1, &fields);
                cases.push((number, other_way(operation, file)));
            }
            for number in SHORT {
                for place in 0..3 {
                    let mut numbers = [0; 3];
                    numbers[place] = number;
                    let file = file_of(edition, 2, &[rows.constraint(2, &numbers)]);
                    let out = needed(operation, &file);
                    let to = edition.other().number();
                    cases.push((0, turn_into(operation, file.clone(), to, out)));
                    cases.push((21, turn_into(operation, file, to, out - 1)));
                }
            }
        }
        for number in LONG {
            for place in 0..3 {
                let mut numbers = [0; 3];
                numbers[place] = number;
                let fields = [Layout(Edition::Two).constraint(0, &numbers)];
                let file = file_of(Edition::Two, 2, &fields);
                cases.push((13, other_way(operation, file)));
            }
        }
    } else {
        cases.extend(large_lines(rng, &LINES));
        for edition in Edition::ALL {
            for k in [1, 15, 16] {
                let fields = [Layout(edition).scale(255, 65_535), some_claim(rng, k)];
                let file = file_of(edition, k, &fields);
                let out = needed(operation, &file);
                let to = edition.other().number();
                cases.push((0, turn_into(operation, file.clone(), to, out)));
                cases.push((21, turn_into(operation, file, to, out - 1)));
            }
            // Behind the root's close, where a check would say 19.
            let rows = Layout(edition);
            let (end, stated) = (rows.close(0), some_claim(rng, 1));
            for (number, rest) in [
                (
                    0,
                    vec![rows.combine(0, 1, 1, 1), stated.clone(), end.clone()],
                ),
                (0, vec![rows.rounding(0, 2, 1), rows.split(9)]),
                (4, vec![stated]),
            ] {
                let file = file_of(edition, 1, &[vec![end.clone()], rest].concat());
                cases.push((number, other_way(operation, file)));
            }
        }
    }
    cases
}

/// Limits with long files.
pub fn heavy(rng: &mut Rng, operation: Operation) -> Vec<Aimed> {
    let mut cases = Vec::new();
    for edition in Edition::ALL {
        let (own, to) = (edition.number(), edition.other().number());
        let most = match operation {
            Operation::TurnProof => PROOF_BYTES,
            _ => edition.bundle_bytes(),
        };
        for (number, length) in [(0, most - 1), (0, most), (1, most + 1)] {
            let mut file = header_of(edition, 2);
            fill(&mut file, length);
            cases.push((number, turn_into(operation, file.clone(), to, 8)));
            // An edition 1 bundle is known to be too long only at 0x01, behind 5.
            let first =
                length > PROOF_BYTES || operation == Operation::TurnBundle && length > BUNDLE_BYTES;
            let number = if first { 1 } else { 5 };
            cases.push((number, turn(operation, file, own)));
        }
        if operation == Operation::TurnBundle {
            let numbers: Vec<i32> = (0..17).map(|_| *rng.pick(&SHORT)).collect();
            let constraint = Layout(edition).constraint(1, &numbers);
            for (number, count) in [(0, 32), (8, 33)] {
                let file = file_of(edition, 16, &vec![constraint.clone(); count]);
                cases.push((number, other_way(operation, file)));
            }
        } else {
            // Rows are not counted.
            for count in [1_024, 1_025, 4_000] {
                let fields = rows(rng, edition, 1, count, 255);
                cases.push((0, other_way(operation, noted(rng, fields))));
            }
        }
    }
    if operation == Operation::TurnProof {
        for bytes in 65_530..65_545 {
            let file = long_result(rng, bytes);
            let (over, out) = (bytes > PROOF_BYTES, *rng.pick(&[PROOF_BYTES, bytes + 9]));
            cases.push((
                u8::from(over),
                turn_into(operation, file.clone(), 2_usize, out),
            ));
            let (number, out) = (if over { 1 } else { 21 }, *rng.pick(&[0, bytes - 1]));
            cases.push((number, turn_into(operation, file, 2_usize, out)));
        }
    }
    cases
}

/// At a limit or just past it, in a random way.
pub fn edge(rng: &mut Rng, operation: Operation, over: bool) -> Aimed {
    let from = other::edition(rng);
    let (number, file) = if operation == Operation::TurnBundle {
        edge_bundle(rng, from, over)
    } else {
        edge_proof(rng, from, over)
    };
    (number, other_way(operation, file))
}

/// A bundle of 32 constraints or 33, as long as it may be or longer, or with one
/// number that two bytes cannot hold.
fn edge_bundle(rng: &mut Rng, from: Edition, over: bool) -> (u8, Vec<u8>) {
    let k = 1 + rng.below(16) as u8;
    let constraint = |rng: &mut Rng| {
        let numbers: Vec<i32> = (0..=k).map(|_| *rng.pick(&SHORT)).collect();
        numbers
    };
    let (many, long) = (rng.chance(1, 2), rng.chance(1, 2));
    let count = if many { 32 } else { 1 + rng.below(31) };
    let mut numbers: Vec<Vec<i32>> = (0..count).map(|_| constraint(rng)).collect();
    let mut length = None;
    let number = match (over, many, from) {
        (false, ..) => {
            length = long.then_some(from.bundle_bytes());
            0
        }
        (true, true, _) => {
            numbers.push(constraint(rng));
            8
        }
        (true, false, Edition::Two) if long => {
            let (line, place) = (rng.below(count), rng.below(usize::from(k) + 1));
            numbers[line][place] = *rng.pick(&LONG);
            13
        }
        (true, false, _) => {
            length = Some(from.bundle_bytes() + 1);
            1
        }
    };
    let mut fields = vec![field(0x01, &[from.number()]), field(0x02, &[k])];
    for row in &numbers {
        fields.push(Layout(from).constraint(rng.below(3) as u8, row));
    }
    let used: usize = fields.iter().map(Vec::len).sum();
    let length = length.unwrap_or(used + 3 * rng.below(60));
    (number, filled(rng, fields, length))
}

/// A proof as long as it may be or longer, one of which as much comes, or with one
/// line number that one byte cannot hold.
fn edge_proof(rng: &mut Rng, from: Edition, over: bool) -> (u8, Vec<u8>) {
    let k = 1 + rng.below(16) as u8;
    let count = rng.below(200);
    let mut fields = rows(rng, from, k, count, 255);
    match (rng.below(3), from) {
        (0, Edition::One) => {
            let past = rng.below(8);
            let bytes = if over {
                PROOF_BYTES + 1 + past
            } else {
                PROOF_BYTES - past
            };
            (u8::from(over), long_result(rng, bytes))
        }
        (0 | 1, Edition::Two) => {
            let line = if over { 256 + rng.below(9) } else { 255 };
            let tag = 0x10 + rng.below(8) as u8;
            let (s, t) = match rng.below(2) {
                0 if tag <= 0x11 => (3, line),
                _ => (line, 3),
            };
            fields.push(row(rng, from, tag, s, t));
            let used: usize = fields.iter().map(Vec::len).sum();
            let length = used + 3 * rng.below(60);
            let number = if over { 10 } else { 0 };
            (number, filled(rng, fields, length))
        }
        _ => {
            let length = PROOF_BYTES + usize::from(over);
            (u8::from(over), filled(rng, fields, length))
        }
    }
}
