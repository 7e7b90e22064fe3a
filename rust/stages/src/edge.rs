//! Random cases at the limits: as many as allowed, or one more, reached in a random way.

use crate::build::*;
use crate::case::{Case, Operation};
use crate::deep::roundable;
use crate::directed::{check, Aimed};
use crate::editions::{end_numbers, long_branches, many_lines, some_constraint};
use crate::other;
use crate::rng::Rng;
use crate::rounding::{exact, random_by, rounded};
use crate::turn::mix_aimed;
use crate::turning;
use crate::vectors;
use crate::{printing, short};
use reference::Edition;

/// A case of an operation at one of its limits, with the number that it is made to be answered with, in every mix of
/// editions.
pub fn edge(rng: &mut Rng, operation: Operation) -> Aimed {
    let mut aimed = some_edge(rng, operation);
    mix_aimed(rng, &mut aimed);
    aimed
}

fn some_edge(rng: &mut Rng, operation: Operation) -> Aimed {
    let over = rng.chance(1, 2);
    match operation {
        Operation::Check => match rng.below(14) {
            0..=3 => rows(rng, over),
            4 => lines(rng, over),
            5 => open(rng, over),
            6 => numbers(rng, over),
            7 => bundles(rng, over),
            8 => rounds(rng, over),
            9 => {
                let lengths = if over {
                    [65_537, 65_539]
                } else {
                    [65_533, 65_535]
                };
                let length = *rng.pick(&lengths);
                (u8::from(over), exact(rng, length))
            }
            10 => many_lines(rng, over),
            11 => long_branches(rng),
            12 => {
                let k = 1 + rng.below(16) as u8;
                let (number, full) = end_numbers(rng, k, over);
                let number = if number == 0 { 20 } else { number };
                let (a, b) = if rng.chance(1, 2) {
                    (full, header(k))
                } else {
                    (header(k), full)
                };
                (number, check(a, b, header(k)))
            }
            _ => lengths(rng, over),
        },
        Operation::Read => {
            let (number, file) = bundle(rng, over);
            let case = Case::Read {
                file,
                kinds: 32,
                numbers: 544,
            };
            (number, case)
        }
        Operation::Write => write(rng, over),
        Operation::Show => show(rng, over),
        Operation::Test => match rng.below(3) {
            0 => levels(rng, over),
            1 => long_formula(rng, over),
            _ => large_values(rng, over),
        },
        Operation::TurnBundle | Operation::TurnProof => turning::edge(rng, operation, over),
        Operation::List => {
            let test = some_edge(rng, Operation::Test);
            vectors::from_tests(rng, vec![test]).remove(0)
        }
        Operation::Print | Operation::PrintWords => loop {
            // One that is the formula's, not the values'.
            let test = some_edge(rng, Operation::Test);
            if let Some(aimed) = printing::from_tests(operation, vec![test]).pop() {
                break aimed;
            }
        },
        Operation::NextProof => short::edge(rng, over),
    }
}

/// Whole notes with so many bytes in all, not 1 or 2, each of a random length.
fn notes(rng: &mut Rng, bytes: usize) -> Vec<Vec<u8>> {
    let mut list = Vec::new();
    let mut left = bytes;
    while left >= 3 {
        let most = *rng.pick(&[0, 4, 100, 3_000, 65_535]);
        let mut length = rng.below(most.min(left - 3) + 1);
        if left - 3 - length < 3 {
            length = left - 3;
        }
        let byte = rng.byte();
        list.push(field(0x80 | rng.byte(), &vec![byte; length]));
        left -= 3 + length;
    }
    list
}

/// The fields with notes in random places, so many bytes in all.
pub(crate) fn filled(rng: &mut Rng, fields: Vec<Vec<u8>>, length: usize) -> Vec<u8> {
    let used: usize = fields.iter().map(Vec::len).sum();
    let mut places: Vec<Vec<Vec<u8>>> = vec![Vec::new(); fields.len() + 1];
    for note in notes(rng, length - used) {
        let place = rng.below(places.len());
        places[place].push(note);
    }
    let mut file = Vec::with_capacity(length);
    let mut fields = fields.into_iter();
    for before in places {
        file.extend(before.concat());
        file.extend(fields.next().unwrap_or_default());
    }
    file
}

/// K constants, "x ≤ 0" for some form x, "1 = 0" or "1 ≤ 0", and "x ≠ 0": line 0 may be strengthened, or rounded by its
/// stride and any amount, line 1 closes any branch, and line 2 may be split. They stand in A and B by chance.
struct Ground {
    k: u8,
    stride: u16,
    /// Whether line 1 is an equality.
    equality: bool,
    a: Vec<u8>,
    b: Vec<u8>,
    /// The rows so far, and the bytes of the formula's file that come of them.
    fields: Vec<Vec<u8>>,
    bytes: usize,
}

impl Ground {
    fn new(rng: &mut Rng) -> Ground {
        let k = 1 + rng.below(16) as u8;
        let equality = rng.chance(1, 2);
        let (stride, form) = roundable(rng, usize::from(k));
        let mut one = vec![0; usize::from(k) + 1];
        one[usize::from(k)] = 1;
        let lines = [
            constraint(false, &form),
            constraint(equality, &one),
            disequality(&form),
        ];
        let (of_a, of_b) = lines.split_at(rng.below(4));
        let (a, b) = (file(k, of_a), file(k, of_b));
        Ground {
            k,
            stride,
            equality,
            a,
            b,
            fields: Vec::new(),
            bytes: 8,
        }
    }

    /// The bytes of a form in a formula, with its field's tag and length.
    fn form(&self) -> usize {
        3 + 4 * (usize::from(self.k) + 1)
    }

    /// A row that closes any branch.
    fn end(&mut self, rng: &mut Rng) {
        self.bytes += self.form();
        self.fields.push(if self.equality && rng.chance(1, 2) {
            self.bytes += 4;
            stride(1, rng.within(2, 65_535) as u16)
        } else {
            close(1)
        });
    }

    /// A step with at most so many branches, two at least; gives their number.
    fn step(&mut self, rng: &mut Rng, most: usize) -> usize {
        match rng.below(3) {
            0 if most >= 3 => {
                self.bytes += 6;
                self.fields.push(strengthen(0));
                return 3;
            }
            1 => {
                self.bytes += 3;
                self.fields.push(split(2));
                return 2;
            }
            _ => {}
        }
        let by = random_by(rng).min(most - 1);
        self.bytes += by * (6 + 4 + self.form());
        self.fields.push(rounding(0, self.stride, by as u16));
        by + 1
    }

    /// The check of the rows. They are refused with the number, if it is not 0, or else if the formula is too long.
    fn aimed(self, number: u8) -> Aimed {
        let number = match number {
            0 => u8::from(self.bytes > 65_536),
            _ => number,
        };
        let proof = file(self.k, &self.fields);
        (number, check(self.a, self.b, proof))
    }
}

/// 1,024 rows or 1,025 in a random tree.
fn rows(rng: &mut Rng, over: bool) -> Aimed {
    let mut ground = Ground::new(rng);
    // Rows of steps and of the ends that they add; the others, but for the root's end, make lines.
    let mut left = 690 + rng.below(334);
    let mut extra = 1_023 + usize::from(over) - left;
    // Each branch still to come: how many steps are open there, and how many lines it has.
    let mut branches = vec![(0, 3)];
    while let Some((depth, mut lines)) = branches.pop() {
        // The last branch takes all rows that are left, if there is room.
        let last = branches.is_empty() && left == 0;
        while extra > 0 && lines < 100 && (last || rng.chance(2, 5)) {
            ground.fields.push(scale(rng.below(2) as u8, 1));
            lines += 1;
            extra -= 1;
        }
        // A branch ends early only if others are left to split.
        let may_end = !branches.is_empty() && rng.chance(1, 4);
        if left > 0 && depth < 32 && !may_end {
            let count = ground.step(rng, left);
            left -= count;
            // No step has one branch.
            if left == 1 {
                (left, extra) = (0, extra + 1);
            }
            branches.extend(vec![(depth + 1, lines + 1); count]);
        } else {
            ground.end(rng);
        }
    }
    // Where room for all of them was not found it is a smaller table.
    let full = left == 0 && extra == 0;
    ground.aimed(if over && full { 18 } else { 0 })
}

/// 128 lines on a branch or 129, some of them from steps.
fn lines(rng: &mut Rng, over: bool) -> Aimed {
    let mut ground = Ground::new(rng);
    let mut count = 3;
    let mut depth = 0;
    // Branches that are still to be closed, beside the one at hand.
    let mut waiting = 0;
    let goal = 128 + usize::from(over);
    while count < goal {
        if depth < 32 && rng.chance(1, 6) {
            waiting += go_in(rng, &mut ground);
            depth += 1;
        } else {
            let line = rng.below(2) as u8;
            let row = match rng.below(3) {
                0 if !ground.equality => combine(0, 1, 1, 1),
                1 if ground.equality => reduce(line, 1, 1),
                _ => scale(line, 1),
            };
            ground.fields.push(row);
        }
        count += 1;
    }
    for _ in 0..=waiting {
        ground.end(rng);
    }
    ground.aimed(if over { 16 } else { 0 })
}

/// A new step and on to a random branch of it; gives how many come after that one.
fn go_in(rng: &mut Rng, ground: &mut Ground) -> usize {
    let count = ground.step(rng, 17);
    let branch = rng.below(count);
    for _ in 0..branch {
        ground.end(rng);
    }
    count - 1 - branch
}

/// 32 open steps or 33, each in a random branch of the one before.
fn open(rng: &mut Rng, over: bool) -> Aimed {
    let mut ground = Ground::new(rng);
    let mut waiting = 0;
    for _ in 0..32 + usize::from(over) {
        waiting += go_in(rng, &mut ground);
    }
    for _ in 0..=waiting {
        ground.end(rng);
    }
    ground.aimed(if over { 17 } else { 0 })
}

/// A rounding just as far as it may go, or one further.
fn rounds(rng: &mut Rng, over: bool) -> Aimed {
    let table = loop {
        let table = rounded(rng, 16);
        // A rounding by 17 would be refused for its k.
        if table.k < 16 {
            break table;
        }
    };
    let least = (-table.t[table.constants]).rem_euclid(i32::from(table.g));
    let k = (least as u16).min(16);
    let number = match (over, least) {
        (false, _) => 20,
        (true, ..=15) => 15,
        (true, _) => 12,
    };
    let fields = [
        combine(0, 2, 1, 1),
        combine(1, 3, 1, 1),
        rounding(4, table.g, k + u16::from(over)),
    ];
    let proof = file(table.constants as u8, &fields);
    (number, check(table.a, table.b, proof))
}

/// A number of t or tA at an end of the range, or past it, in a random place and by a random row.
fn numbers(rng: &mut Rng, over: bool) -> Aimed {
    let k = 1 + rng.below(16);
    let place = rng.below(k);
    let sign: i16 = if rng.chance(1, 2) { 1 } else { -1 };
    let with = |number: i16| {
        let mut form = vec![0; k + 1];
        form[place] = number;
        form
    };
    // 65,535 · 32,767 + 32,767 · 1 + 65,535 · 1 = 2,147,483,647.
    let mut constraints = vec![
        constraint(false, &with(sign * 32_767)),
        constraint(false, &with(sign)),
        constraint(true, &with(sign)),
    ];
    let mut closing = vec![0; k + 1];
    closing[k] = 1;
    constraints.push(constraint(false, &closing));
    let own = rng.chance(1, 2);
    let (a, b) = if own {
        (file(k as u8, &constraints), file(k as u8, &[]))
    } else {
        (file(k as u8, &[]), file(k as u8, &constraints))
    };
    let mut fields = vec![combine(0, 1, 65_535, 32_767), combine(4, 1, 1, 65_535)];
    if rng.chance(1, 2) {
        let mut form = vec![0; k + 1];
        form[place] = i32::from(sign) * i32::MAX;
        let partial = if own { form.clone() } else { vec![0; k + 1] };
        fields.push(claim(&form, &partial));
    }
    if over {
        fields.push(match rng.below(4) {
            0 => combine(5, 1, 1, 1 + rng.below(3) as u16),
            1 => scale(5, 2 + rng.below(60_000) as u16),
            2 => reduce(5, 2, 1 + rng.below(300) as i16),
            _ => combine(1, 5, 1 + rng.below(60_000) as u16, 1),
        });
    } else {
        fields.push(match rng.below(4) {
            0 => combine(5, 3, 1, 1),
            1 => scale(5, 1),
            2 => reduce(5, 2, -1 - rng.below(300) as i16),
            _ => strengthen(5),
        });
        let branches = if fields.last().is_some_and(|row| row[0] == 0x13) {
            3
        } else {
            1
        };
        fields.extend(vec![close(3); branches]);
    }
    let number = if over { 13 } else { 0 };
    (number, check(a, b, file(k as u8, &fields)))
}

/// The fields of a bundle with random constraints.
fn random_fields(rng: &mut Rng, edition: Edition, k: u8, count: usize) -> Vec<Vec<u8>> {
    let mut fields = vec![field(0x01, &[edition.number()]), field(0x02, &[k])];
    for _ in 0..count {
        fields.push(some_constraint(rng, edition, k));
    }
    fields
}

/// A length above the most of a bundle of the edition; in edition 1 up to the most of any.
fn too_long(rng: &mut Rng, edition: Edition) -> usize {
    match edition {
        Edition::One if rng.chance(1, 2) => rng.within(4_097, 8_192) as usize,
        _ => edition.bundle_bytes() + 1,
    }
}

/// A bundle of 32 constraints or 33, as long as its edition allows or longer, or of the largest numbers and one past them.
fn bundle(rng: &mut Rng, over: bool) -> (u8, Vec<u8>) {
    let k = 1 + rng.below(16) as u8;
    let edition = other::edition(rng);
    if rng.chance(1, 3) {
        return end_numbers(rng, k, over);
    }
    if rng.chance(1, 2) {
        let fields = random_fields(rng, edition, k, 32 + usize::from(over));
        let used: usize = fields.iter().map(Vec::len).sum();
        let length = used + 3 * rng.below(60);
        let file = filled(rng, fields, length);
        return (if over { 8 } else { 0 }, file);
    }
    let count = rng.below(33);
    let fields = random_fields(rng, edition, k, count);
    let length = if over {
        too_long(rng, edition)
    } else {
        edition.bundle_bytes()
    };
    (u8::from(over), filled(rng, fields, length))
}

/// A or B at the limits of a bundle, with a table that closes at once where that can be.
fn bundles(rng: &mut Rng, over: bool) -> Aimed {
    let k = 1 + rng.below(16) as u8;
    let mut one = vec![0; usize::from(k) + 1];
    one[usize::from(k)] = 1;
    let small = file(k, &[constraint(false, &one)]);
    let edition = other::edition(rng);
    let count = 32 + usize::from(over);
    let mut fields = random_fields(rng, edition, k, count);
    let used: usize = fields.iter().map(Vec::len).sum();
    let (number, length) = match over {
        // Notes up to the longest file, or a few.
        false if rng.chance(1, 2) => (0, edition.bundle_bytes()),
        false => (0, used + 3 * rng.below(50)),
        true if rng.chance(1, 2) => {
            fields.pop();
            (1, too_long(rng, edition))
        }
        true => (8, used + 3 * rng.below(50)),
    };
    let full = filled(rng, fields, length);
    if rng.chance(1, 2) {
        (number, check(full, small, file(k, &[close(32)])))
    } else {
        (number, check(small, full, file(k, &[close(0)])))
    }
}

/// A proof of 65,536 bytes or 65,537, notes everywhere.
fn lengths(rng: &mut Rng, over: bool) -> Aimed {
    let mut ground = Ground::new(rng);
    ground.fields = vec![field(0x01, &[1]), field(0x02, &[ground.k])];
    for _ in 0..rng.below(40) {
        let row = scale(rng.below(2) as u8, 1 + rng.below(2) as u16);
        ground.fields.push(row);
    }
    ground.end(rng);
    let proof = filled(rng, ground.fields, 65_536 + usize::from(over));
    (u8::from(over), check(ground.a, ground.b, proof))
}

/// 32 kinds or 33, a number past the ends, outputs as needed or one byte short.
fn write(rng: &mut Rng, over: bool) -> Aimed {
    let k = 1 + rng.below(16) as u8;
    let many = rng.chance(1, 2);
    let count = if many {
        32 + usize::from(over)
    } else {
        rng.below(33)
    };
    let width = usize::from(k) + 1;
    let edition = other::edition(rng);
    let needed = 8 + count * (3 + edition.number_bytes() * width);
    let mut numbers: Vec<i32> = (0..count * width)
        .map(|_| other::number(rng, edition))
        .collect();
    let place = rng.below(numbers.len());
    // A number past the ends, with the output short or not.
    let past = over && !many && !numbers.is_empty() && rng.chance(1, 2);
    if past {
        numbers[place] = match edition {
            Edition::One => *rng.pick(&[-32_769, 32_768, i32::MIN, i32::MAX]),
            Edition::Two => i32::MIN,
        };
    }
    let case = Case::Write {
        edition: usize::from(edition.number()),
        k: usize::from(k),
        kinds: (0..count).map(|_| rng.below(3) as u8).collect(),
        numbers,
        out: needed - usize::from(over && !many),
    };
    let number = match (over, many) {
        _ if past => 13,
        (false, _) => 0,
        (true, true) => 8,
        (true, false) => 21,
    };
    (number, case)
}

/// The last line or the one after it, of bundles with up to 32 constraints and notes up to the most bytes.
fn show(rng: &mut Rng, over: bool) -> Aimed {
    let k = 1 + rng.below(16) as u8;
    let bundle = |rng: &mut Rng| {
        let count = if rng.chance(1, 2) { 32 } else { rng.below(33) };
        let edition = other::edition(rng);
        let fields = random_fields(rng, edition, k, count);
        (count, filled(rng, fields, edition.bundle_bytes()))
    };
    let (first, a) = bundle(rng);
    let (second, b) = bundle(rng);
    let lines = first + second;
    if lines == 0 {
        return (10, Case::Show { a, b, line: 0 });
    }
    let line = if over { lines } else { lines - 1 };
    (if over { 10 } else { 0 }, Case::Show { a, b, line })
}

/// A part of a formula over K constants.
fn leaf(rng: &mut Rng, k: usize) -> Vec<u8> {
    let numbers: Vec<i32> = (0..=k).map(|_| other::long(rng)).collect();
    match rng.below(3) {
        0 => comparison(true, &numbers),
        1 => divides(rng.within(2, 65_535) as i32, &numbers),
        _ => comparison(false, &numbers),
    }
}

/// 600 levels of and/or or 601, down a random path.
fn levels(rng: &mut Rng, over: bool) -> Aimed {
    let k = 1 + rng.below(16);
    let mut fields = Vec::new();
    // Second parts that are still to come.
    let mut waiting = 0;
    for _ in 0..600 + usize::from(over) {
        fields.push(if rng.chance(1, 2) { or() } else { and() });
        if rng.chance(1, 2) {
            fields.push(leaf(rng, k));
        } else {
            waiting += 1;
        }
    }
    for _ in 0..=waiting {
        fields.push(leaf(rng, k));
    }
    let values = (0..k).map(|_| other::value(rng)).collect();
    let case = Case::Test {
        formula: file(k as u8, &fields),
        values,
    };
    (if over { 17 } else { 0 }, case)
}

/// A formula of 65,536 bytes or 65,537, with many parts and notes.
fn long_formula(rng: &mut Rng, over: bool) -> Aimed {
    let k = 1 + rng.below(16);
    let mut fields = vec![field(0x01, &[1]), field(0x02, &[k as u8])];
    let mut left = rng.below(700);
    let mut parts = vec![0];
    while let Some(level) = parts.pop() {
        if left > 0 && level < 600 && (parts.is_empty() || rng.chance(2, 3)) {
            left -= 1;
            fields.push(if rng.chance(1, 2) { or() } else { and() });
            parts.extend([level + 1; 2]);
        } else {
            fields.push(leaf(rng, k));
        }
    }
    let formula = filled(rng, fields, 65_536 + usize::from(over));
    let values = (0..k).map(|_| other::value(rng)).collect();
    (u8::from(over), Case::Test { formula, values })
}

/// Values at the ends of their range, or one past them, and the largest sums.
fn large_values(rng: &mut Rng, over: bool) -> Aimed {
    let k = 1 + rng.below(16);
    let mut values: Vec<i32> = (0..k)
        .map(|_| *rng.pick(&[-1_000_000, 1_000_000]))
        .collect();
    if over {
        let place = rng.below(k);
        values[place] += values[place].signum();
    }
    let numbers: Vec<i32> = (0..=k)
        .map(|_| *rng.pick(&[i32::MIN, i32::MAX, -i32::MAX]))
        .collect();
    let part = match rng.below(3) {
        0 => comparison(false, &numbers),
        1 => comparison(true, &numbers),
        _ => divides(*rng.pick(&[2, 3, 65_536, i32::MAX]), &numbers),
    };
    let case = Case::Test {
        formula: file(k as u8, &[part]),
        values,
    };
    (if over { 23 } else { 0 }, case)
}
