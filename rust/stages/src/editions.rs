//! What goes by a file's edition: faults that only one edition has, and both
//! sides of each limit that the editions set differently.

use crate::build::*;
use crate::case::{Case, Operation};
use crate::damage::edition_of;
use crate::directed::{check, Aimed};
use crate::other;
use crate::rng::Rng;
use crate::table::{closed_table_in, random_editions, Size, Table};
use crate::turning::turn;
use reference::limits::BUNDLE_BYTES;
use reference::Edition;

/// Numbers at the ends of two bytes and of four, and beside them.
const ENDS: [i32; 8] = [
    -32_768,
    32_767,
    -32_769,
    32_768,
    -i32::MAX,
    i32::MAX,
    1 - i32::MAX,
    i32::MAX - 1,
];

const SECOND: Layout = Layout(Edition::Two);

/// A constraint of edition 2 with one number in a random place.
fn with_number(rng: &mut Rng, k: u8, number: i32) -> Vec<u8> {
    let mut numbers = vec![0; usize::from(k) + 1];
    let place = rng.below(numbers.len());
    numbers[place] = number;
    SECOND.constraint(rng.below(3) as u8, &numbers)
}

/// A constraint of random numbers that the edition holds.
pub fn some_constraint(rng: &mut Rng, edition: Edition, k: u8) -> Vec<u8> {
    let numbers: Vec<i32> = (0..=k).map(|_| other::number(rng, edition)).collect();
    Layout(edition).constraint(rng.below(3) as u8, &numbers)
}

/// Short bundles over K constants that are refused for their edition, or for a
/// number that no line may hold.
pub fn broken_bundles(rng: &mut Rng, k: u8) -> Vec<(u8, Vec<u8>)> {
    let first = some_constraint(rng, Edition::One, k);
    let second = some_constraint(rng, Edition::Two, k);
    let lowest = with_number(rng, k, i32::MIN);
    // The lowest number first, and a number too few.
    let short = field(
        0x03,
        &[vec![0x80], vec![0; 4 * usize::from(k) - 1]].concat(),
    );
    let two = |fields: &[Vec<u8>]| file_of(Edition::Two, k, fields);
    vec![
        (5, file_numbered(*rng.pick(&[0, 3, 4, 255]), 0)),
        // The layout of the other edition.
        (6, two(&[note(), first])),
        (6, file(k, &[second.clone()])),
        (6, two(&[short])),
        // The lowest number at its field, whatever comes next.
        (13, two(&[lowest.clone()])),
        (13, two(&[second.clone(), lowest.clone(), vec![0x03]])),
        (13, two(&[note(), lowest.clone(), field(0x06, &[])])),
        (8, two(&[second.repeat(32), lowest])),
    ]
}

/// The header of an edition that may not be there.
fn file_numbered(number: u8, k: u8) -> Vec<u8> {
    [field(0x01, &[number]), field(0x02, &[k])].concat()
}

/// Notes that make a file as long as asked for, in front of it.
fn filled_in_front(file: &[u8], length: usize) -> Vec<u8> {
    let mut bytes = Vec::new();
    fill(&mut bytes, length - file.len());
    bytes.extend_from_slice(file);
    bytes
}

/// Long bundles over K constants, with the number that they are answered with:
/// lengths, and which fault comes before a length.
fn long_bundles(rng: &mut Rng, k: u8) -> Vec<(u8, Vec<u8>)> {
    let mut found = Vec::new();
    for edition in Edition::ALL {
        let most = edition.bundle_bytes();
        let start = file_of(edition, k, &[some_constraint(rng, edition, k)]);
        for (number, length) in [(0, most - 1), (0, most), (1, most + 1)] {
            let mut behind = start.clone();
            fill(&mut behind, length);
            found.push((number, behind));
            found.push((number, filled_in_front(&start, length)));
        }
    }
    let length = rng.within(4_097, BUNDLE_BYTES as i64) as usize;
    let long = |fields: &[Vec<u8>]| {
        let mut bytes = fields.concat();
        fill(&mut bytes, length);
        bytes
    };
    // In front of 0x01 and of it: these come before the late 1.
    for (number, fault) in [
        (5, field(0x01, &[3])),
        (6, field(0x01, &[1, 1])),
        (4, field(0x02, &[k])),
        (3, field(0x06, &[])),
    ] {
        found.push((number, long(&[note(), fault.clone()])));
        found.push((number, long(&[fault, field(0x01, &[1])])));
    }
    found.push((2, long(&[note()])));
    // Behind it: in edition 1 the late 1 comes first.
    let lowest = with_number(rng, k, i32::MIN);
    for (number, fields) in [
        (7, vec![field(0x02, &[17])]),
        (6, vec![field(0x02, &[])]),
        (4, vec![field(0x01, &[1])]),
        (3, vec![field(0x06, &[])]),
        (13, vec![field(0x02, &[k]), lowest]),
        (2, vec![]),
    ] {
        for (number, edition) in [(1, 1), (number, 2)] {
            found.push((
                number,
                long(&[field(0x01, &[edition]), note(), fields.concat()]),
            ));
        }
    }
    found
}

/// Both sides of the limits of bundles, by every operation that reads them.
pub fn heavy(rng: &mut Rng, operation: Operation) -> Vec<Aimed> {
    let k = 1 + rng.below(4) as u8;
    let mut cases = Vec::new();
    // "1 = 0" closes any branch; a bundle of either edition beside the long one.
    let mut one = vec![0; usize::from(k) + 1];
    one[usize::from(k)] = 1;
    for (number, long) in long_bundles(rng, k) {
        let edition = other::edition(rng);
        let small = file_of(edition, k, &[Layout(edition).constraint(1, &one)]);
        match operation {
            Operation::Read => cases.push((number, read(long))),
            Operation::Check => {
                // The long one has one constraint where it is accepted.
                let proof = file(k, &[close(1)]);
                cases.push((number, check(long.clone(), small.clone(), proof)));
                let proof = file(k, &[close(0)]);
                cases.push((number, check(small, long, proof)));
            }
            Operation::Show => {
                let line = rng.below(2);
                let (a, b) = (long.clone(), small.clone());
                cases.push((number, Case::Show { a, b, line }));
                cases.push((
                    number,
                    Case::Show {
                        a: small,
                        b: long,
                        line,
                    },
                ));
            }
            // Refused as in reading.
            Operation::TurnBundle => {
                let to = edition_of(&long).other().number();
                // One that is accepted may have numbers that two bytes cannot hold.
                if (number, to) != (0, 1) {
                    cases.push((number, turn(operation, long, to)));
                }
            }
            _ => {}
        }
    }
    if operation == Operation::Check {
        cases.extend(first_lengths(k));
        cases.extend(line_limits(rng));
        for _ in 0..4 {
            let [a, b, _] = random_editions(rng);
            let Table { a, b, proof, .. } = closed_table_in(rng, &Size::LONG, [a, b, Edition::Two]);
            cases.push((0, check(a, b, proof)));
        }
    }
    cases
}

fn read(file: Vec<u8>) -> Case {
    Case::Read {
        file,
        kinds: 32,
        numbers: 544,
    }
}

/// 1 for the length of any file comes before A's late 1, and that before a fault
/// of B and of the proof; a fault of A comes before B's.
fn first_lengths(k: u8) -> Vec<Aimed> {
    let mut late = header(k);
    fill(&mut late, 5_000);
    let unknown = file(k, &[field(0x06, &[])]);
    let (over, longest) = (vec![0x80; BUNDLE_BYTES + 1], vec![0x80; 65_537]);
    vec![
        (1, check(late.clone(), over.clone(), longest.clone())),
        (1, check(unknown.clone(), over, Vec::new())),
        (1, check(late.clone(), Vec::new(), longest)),
        (1, check(late.clone(), Vec::new(), Vec::new())),
        (3, check(unknown, late.clone(), Vec::new())),
        (1, check(header(k), late, Vec::new())),
    ]
}

/// The last line that may stand and the next, by the proof's edition; with the
/// bundles in every mix.
fn line_limits(rng: &mut Rng) -> Vec<Aimed> {
    let mut cases = Vec::new();
    for edition in Edition::ALL {
        let (rows, most) = (Layout(edition), edition.lines());
        for of_a in Edition::ALL {
            let lines = [
                Layout(of_a).constraint(0, &[17, 1]),
                Layout(of_a).constraint(1, &[0, 1]),
                Layout(of_a).constraint(2, &[1, 0]),
            ];
            let a = file_of(of_a, 1, &lines);
            let b = file_of(other::edition(rng), 1, &[]);
            let last = most - 1;
            for (number, row) in [
                (0, rows.close(1)),
                (15, rows.close(last)),
                (10, rows.close(most)),
                (16, rows.scale(last, 1)),
                (16, rows.combine(last, 0, 1, 1)),
                (16, rows.reduce(0, 1, 1)),
                (16, rows.strengthen(last)),
                (16, rows.split(2)),
                (16, rows.rounding(0, 17, 16)),
            ] {
                let full = rows.scale(0, 1).repeat(most - 3);
                let proof = file_of(edition, 1, &[full, row]);
                cases.push((number, check(a.clone(), b.clone(), proof)));
            }
            for (step, branches) in [
                (rows.strengthen(0), 3),
                (rows.split(2), 2),
                (rows.rounding(0, 17, 4), 5),
            ] {
                let start = [rows.scale(0, 1).repeat(most - 4), step].concat();
                let closed = [start.clone(), rows.close(1).repeat(branches)];
                let proof = file_of(edition, 1, &closed);
                cases.push((0, check(a.clone(), b.clone(), proof)));
                // The line after that, in a random branch.
                let branch = rng.below(branches);
                let over = [start, rows.close(1).repeat(branch), rows.scale(1, 1)];
                let proof = file_of(edition, 1, &over);
                cases.push((16, check(a.clone(), b.clone(), proof)));
            }
        }
    }
    cases
}

/// The ends of two bytes and of four in a bundle, by every operation.
pub fn light(rng: &mut Rng, operation: Operation) -> Vec<Aimed> {
    let mut cases = Vec::new();
    let k = 1 + rng.below(3) as u8;
    for number in ENDS.into_iter().chain([i32::MIN]) {
        let aim = if number == i32::MIN { 13 } else { 0 };
        let bundle = file_of(Edition::Two, k, &[with_number(rng, k, number)]);
        let other = file_of(other::edition(rng), k, &[]);
        match operation {
            Operation::Read => cases.push((aim, read(bundle))),
            Operation::Show => {
                let (a, b, line) = (bundle.clone(), other.clone(), 0);
                cases.push((aim, Case::Show { a, b, line }));
                let (a, b) = (other, bundle);
                cases.push((aim, Case::Show { a, b, line }));
            }
            Operation::Check => {
                // Unfinished, where the bundle stands.
                let (aim, proof) = (if aim == 0 { 20 } else { aim }, file(k, &[]));
                cases.push((aim, check(bundle.clone(), other.clone(), proof.clone())));
                cases.push((aim, check(other, bundle, proof)));
            }
            Operation::Write => {
                for edition in Edition::ALL {
                    let aim = if edition.holds(number) { 0 } else { 13 };
                    cases.push((aim, write_with(rng, edition, number)));
                }
            }
            Operation::TurnBundle => {
                let aim = if Edition::One.holds(number) { 0 } else { 13 };
                cases.push((aim, turn(operation, bundle, 1_usize)));
            }
            _ => {}
        }
    }
    match operation {
        Operation::Check => cases.extend(ranges()),
        Operation::Write => {
            for edition in [0, 3, 255] {
                let mut case = write_with(rng, Edition::Two, 1);
                if let Case::Write { edition: slot, .. } = &mut case {
                    *slot = edition;
                }
                cases.push((5, case));
            }
        }
        _ => {}
    }
    cases
}

/// A write of some constraints with one number in a random place.
fn write_with(rng: &mut Rng, edition: Edition, number: i32) -> Case {
    let (k, mut kinds, mut numbers) = other::lists(rng, edition, 16, 8);
    if kinds.is_empty() {
        kinds.push(1);
        numbers = vec![0; usize::from(k) + 1];
    }
    let place = rng.below(numbers.len());
    numbers[place] = number;
    let out = 8 + 3 * kinds.len() + edition.number_bytes() * numbers.len();
    Case::Write {
        edition: usize::from(edition.number()),
        k: usize::from(k),
        kinds,
        numbers,
        out,
    }
}

/// Each row on lines whose numbers stand at the ends of the range already.
fn ranges() -> Vec<Aimed> {
    const MOST: i32 = i32::MAX;
    let mut cases = Vec::new();
    let lines = [
        SECOND.constraint(1, &[0, 1]),
        SECOND.constraint(0, &[MOST, -MOST]),
        SECOND.constraint(0, &[0, MOST]),
        SECOND.constraint(0, &[1, MOST - 1]),
        SECOND.constraint(2, &[MOST, MOST]),
        SECOND.constraint(2, &[1, -MOST]),
        SECOND.constraint(2, &[-MOST, MOST - 1]),
        SECOND.constraint(2, &[-1, 1 - MOST]),
    ];
    let rows = SECOND;
    for of_a in [0, lines.len()] {
        let (a, b) = lines.split_at(of_a);
        let (a, b) = (file_of(Edition::Two, 1, a), file_of(Edition::Two, 1, b));
        for (number, row, branches) in [
            (0, rows.scale(1, 1), 1),
            (13, rows.scale(1, 2), 1),
            (0, rows.combine(1, 2, 1, 1), 1),
            (13, rows.combine(2, 3, 1, 1), 1),
            (13, rows.combine(2, 2, 65_535, 65_535), 1),
            (0, rows.reduce(3, 0, 1), 1),
            (13, rows.reduce(3, 0, 2), 1),
            (13, rows.reduce(2, 0, 1), 1),
            (0, rows.reduce(2, 0, -32_768), 1),
            (0, rows.strengthen(1), 3),
            (13, rows.strengthen(2), 3),
            (0, rows.strengthen(3), 3),
            (13, rows.split(4), 2),
            (13, rows.split(5), 2),
            (0, rows.split(6), 2),
            (0, rows.split(7), 2),
        ] {
            let proof = file_of(Edition::Two, 1, &[row, rows.close(0).repeat(branches)]);
            cases.push((number, check(a.clone(), b.clone(), proof)));
        }
    }
    cases
}

/// 1,000 lines on a branch of edition 2 or one more, some of them from steps.
pub fn many_lines(rng: &mut Rng, over: bool) -> Aimed {
    let number = if over { 16 } else { 0 };
    let most = 1_000 + usize::from(over);
    (number, lines_on_a_branch(rng, most, most))
}

/// A check of an edition 2 proof with so many lines on a branch, which names only
/// lines below a number.
pub fn lines_on_a_branch(rng: &mut Rng, most: usize, below: usize) -> Case {
    let rows = SECOND;
    let [of_a, of_b, _] = random_editions(rng);
    let lines = [(0, [1, 0]), (1, [0, 1]), (2, [1, 0])];
    let own = rng.below(4);
    let bundle = |edition: Edition, lines: &[(u8, [i32; 2])]| {
        let fields: Vec<Vec<u8>> = lines
            .iter()
            .map(|(kind, numbers)| Layout(edition).constraint(*kind, numbers))
            .collect();
        file_of(edition, 1, &fields)
    };
    let (a, b) = (bundle(of_a, &lines[..own]), bundle(of_b, &lines[own..]));
    let mut fields = Vec::new();
    // Rows are scarce: so many closes of branches beside the last are left.
    let mut closes = 24;
    let mut waiting = 0;
    let mut count = 3;
    while count < most {
        let (step, branches) = match rng.below(2) {
            0 => (rows.strengthen(0), 3),
            _ => (rows.split(2), 2),
        };
        if closes >= branches - 1 && rng.chance(1, 60) {
            closes -= branches - 1;
            fields.push(step);
            let branch = rng.below(branches);
            fields.push(rows.close(1).repeat(branch));
            waiting += branches - 1 - branch;
        } else {
            // Any line but the disequality.
            let line = match rng.below(count.min(below)) {
                2 => 0,
                line => line,
            };
            fields.push(match rng.below(3) {
                0 => rows.reduce(line, 1, if rng.chance(1, 2) { 1 } else { -1 }),
                _ => rows.scale(line, 1),
            });
        }
        count += 1;
    }
    fields.push(rows.close(1).repeat(1 + waiting));
    check(a, b, file_of(Edition::Two, 1, &fields))
}

/// A table with long branches in edition 2.
pub fn long_branches(rng: &mut Rng) -> Aimed {
    let [a, b, _] = random_editions(rng);
    let Table { a, b, proof, .. } = closed_table_in(rng, &Size::LONG, [a, b, Edition::Two]);
    (0, check(a, b, proof))
}

/// A bundle of edition 2 whose numbers stand at the ends, or one of them past
/// them.
pub fn end_numbers(rng: &mut Rng, k: u8, over: bool) -> (u8, Vec<u8>) {
    let count = 1 + rng.below(31);
    let mut fields: Vec<Vec<u8>> = Vec::new();
    for _ in 0..count {
        let numbers: Vec<i32> = (0..=k).map(|_| *rng.pick(&ENDS)).collect();
        fields.push(SECOND.constraint(rng.below(3) as u8, &numbers));
        if rng.chance(1, 4) {
            fields.push(other::note(rng));
        }
    }
    if over {
        let place = rng.below(fields.len() + 1);
        fields.insert(place, with_number(rng, k, i32::MIN));
    }
    let number = if over { 13 } else { 0 };
    (number, file_of(Edition::Two, k, &fields))
}
