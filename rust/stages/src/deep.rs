//! Faults inside branches: a table down to a random branch, mostly two or
//! three deep, and there one fault of a random sort.

use crate::build::*;
use crate::directed::{check, Aimed};
use crate::rng::Rng;
use crate::rounding::{random_by, MOST};

/// The refusals that a field or the end can meet inside any branch.
const SORTS: [u8; 13] = [2, 3, 4, 6, 10, 11, 12, 13, 14, 15, 16, 17, 20];

/// A table as far as it is made. Line 0 is "form ≤ 0", with a constant, and may
/// be rounded by the stride and any amount; line 1 closes any branch; line 2 is
/// "form ≠ 0" and may be split.
struct Maker {
    k: usize,
    form: Vec<i16>,
    stride: u16,
    /// Whether line 0 is of A.
    own: bool,
    /// Whether line 1 is "1 = 0", not "1 ≤ 0".
    equality: bool,
    /// Lines on the branch.
    lines: usize,
    fields: Vec<Vec<u8>>,
}

/// A check that is refused inside a branch, with the number that it is made
/// for, over at most so many constants.
pub fn deep(rng: &mut Rng, constants: usize) -> Aimed {
    let k = 1 + rng.below(constants);
    let (g, form) = roundable(rng, k);
    let mut maker = Maker {
        k,
        form,
        stride: g,
        own: rng.chance(1, 2),
        equality: rng.chance(1, 2),
        lines: 3,
        fields: Vec::new(),
    };
    let number = *rng.pick(&SORTS);
    let depth = match number {
        17 => 32,
        _ => *rng.pick(&[1, 2, 2, 2, 2, 3, 3, 3, 3, 4, 5, 8]),
    };
    for _ in 0..depth {
        maker.go_in(rng, depth <= 8);
    }
    if depth <= 8 {
        maker.some_rows(rng);
    }
    maker.fault(rng, number);
    // What comes after a fault does not matter; a cut field must be the last.
    if number != 2 && number != 20 {
        for _ in 0..rng.below(4) {
            let end = maker.end(rng);
            maker.fields.push(end);
        }
    }
    let (a, b) = maker.bundles(rng);
    let proof = noted(rng, k as u8, &maker.fields, number == 20);
    (number, check(a, b, proof))
}

/// An older row on a line that is a disequality, others right or wrong in what
/// is tested later. Line 0 is an inequality, and line 1 is there.
pub fn misused(rng: &mut Rng, line: u8) -> Vec<u8> {
    let times = rng.below(3) as u16;
    match rng.below(11) {
        0 => combine(0, line, times, 1),
        1 => combine(line, 0, 1, times),
        2 => combine(line, line, 1, 1),
        3 => reduce(line, 1, times as i16),
        4 => reduce(0, line, times as i16),
        5 => reduce(line, line, 1),
        6 => scale(line, times),
        7 => strengthen(line),
        8 => rounding(line, rng.below(20) as u16, rng.below(20) as u16),
        9 => close(line),
        _ => stride(line, rng.below(20) as u16),
    }
}

/// A stride, and a form over K constants, the first of them in it, that may be
/// rounded by that stride and any amount from 1 to 16.
pub fn roundable(rng: &mut Rng, k: usize) -> (u16, Vec<i16>) {
    let g = rng.within(17, 60);
    let mut form: Vec<i16> = (0..=k).map(|_| (g * rng.within(-9, 9)) as i16).collect();
    form[0] = (g * *rng.pick(&[-3, -1, 1, 2, 7])) as i16;
    form[k] += rng.within(1, g - 16) as i16;
    (g as u16, form)
}

/// A file of the fields, half of the time with notes in front of many of them,
/// and at the end too if that is asked for.
fn noted(rng: &mut Rng, k: u8, fields: &[Vec<u8>], at_the_end: bool) -> Vec<u8> {
    let share = *rng.pick(&[0, 0, 1, 3]);
    let mut notes = |out: &mut Vec<u8>| {
        while share > 0 && rng.chance(share, 6) {
            let length = rng.below(5);
            let contents = rng.bytes(length);
            push_field(out, 0x80 | rng.byte(), &contents);
        }
    };
    let mut proof = header(k);
    for part in fields {
        notes(&mut proof);
        proof.extend_from_slice(part);
    }
    if at_the_end {
        notes(&mut proof);
    }
    proof
}

impl Maker {
    /// The three lines in A and B by chance, but in order.
    fn bundles(&self, rng: &mut Rng) -> (Vec<u8>, Vec<u8>) {
        let mut one = vec![0; self.k + 1];
        one[self.k] = 1;
        let lines = [
            constraint(false, &self.form),
            constraint(self.equality, &one),
            disequality(&self.form),
        ];
        let k = self.k as u8;
        let of_a = if self.own { 1 + rng.below(3) } else { 0 };
        (file(k, &lines[..of_a]), file(k, &lines[of_a..]))
    }

    /// A row that closes any branch.
    fn end(&self, rng: &mut Rng) -> Vec<u8> {
        if self.equality && rng.chance(1, 2) {
            stride(1, rng.within(2, 65_535) as u16)
        } else {
            close(1)
        }
    }

    /// A claim of line 0 times a number, right if `off` is 0.
    fn stated(&self, times: u16, off: i32) -> Vec<u8> {
        let multiple = |&number: &i16| i32::from(number) * i32::from(times);
        let mut t: Vec<i32> = self.form.iter().map(multiple).collect();
        let partial = if self.own {
            t.clone()
        } else {
            vec![0; self.k + 1]
        };
        t[self.k] += off;
        claim(&t, &partial)
    }

    /// A new line, line 0 times a number.
    fn scaled(&mut self, times: u16) {
        self.fields.push(scale(0, times));
        self.lines += 1;
    }

    /// Up to two rows, some of them with a claim.
    fn some_rows(&mut self, rng: &mut Rng) {
        for _ in 0..rng.below(3) {
            let times = 1 + rng.below(5) as u16;
            self.scaled(times);
            if rng.chance(1, 2) {
                let claim = self.stated(times, 0);
                self.fields.push(claim);
            }
        }
    }

    /// Closes a branch: at once, or by a step of its own whose branches are
    /// closed one after the other.
    fn whole_branch(&mut self, rng: &mut Rng, depth: usize) {
        if depth > 0 && rng.chance(1, 4) {
            for _ in 0..self.step(rng, 3) {
                self.whole_branch(rng, depth - 1);
            }
        } else {
            let end = self.end(rng);
            self.fields.push(end);
        }
    }

    /// A step, if it is a rounding by at most so much. Gives the number of its
    /// branches.
    fn step(&mut self, rng: &mut Rng, most: usize) -> usize {
        let (row, branches) = match rng.below(3) {
            0 => (strengthen(0), 3),
            1 => (split(2), 2),
            _ => {
                let by = random_by(rng).min(most);
                (rounding(0, self.stride, by as u16), by + 1)
            }
        };
        self.fields.push(row);
        branches
    }

    /// A step, and on to a random branch of it. `rich`: with rows in front,
    /// and steps in the branches that are closed on the way.
    fn go_in(&mut self, rng: &mut Rng, rich: bool) {
        if rich {
            self.some_rows(rng);
        }
        let branches = self.step(rng, MOST);
        for _ in 0..rng.below(branches) {
            self.whole_branch(rng, if rich { 2 } else { 0 });
        }
        self.lines += 1;
    }

    /// The fields of a fault, the last of them refused with the number.
    fn fault(&mut self, rng: &mut Rng, number: u8) {
        let k = self.k as u8;
        let missing = (self.lines + rng.below(256 - self.lines)) as u8;
        let either = rng.chance(1, 2);
        let by = random_by(rng) as u16;
        let last = match number {
            2 => match rng.below(4) {
                0 => vec![0x80 | rng.byte(), 0],
                1 => vec![0x80 | rng.byte(), 0, 2, 7],
                2 => vec![0x12, 0, 3, 0],
                _ => {
                    self.scaled(2);
                    let mut claim = self.stated(2, 0);
                    claim.pop();
                    claim
                }
            },
            3 => field(*rng.pick(&[0x00, 0x03, 0x05, 0x18, 0x21, 0x31, 0x7F]), &[0]),
            4 => match rng.below(4) {
                0 => field(0x01, &[1]),
                1 => field(0x02, &[k]),
                2 => {
                    self.scaled(2);
                    let claim = self.stated(2, 0);
                    self.fields.push(claim.clone());
                    claim
                }
                // After a step or a close.
                _ => {
                    self.go_in(rng, false);
                    self.stated(1, 0)
                }
            },
            6 if either => field(0x10 + rng.below(8) as u8, &[0, 0]),
            6 => {
                self.scaled(2);
                field(0x20, &self.stated(2, 0)[4..])
            }
            10 => match rng.below(8) {
                0 => combine(0, missing, 0, 1),
                1 => reduce(missing, 0, 1),
                2 => scale(missing, 0),
                3 => strengthen(missing),
                4 => close(missing),
                5 => rounding(missing, 0, 0),
                6 => split(missing),
                _ => stride(missing, 0),
            },
            11 if either => match rng.below(6) {
                0 => stride(0, 1),
                1 => split(rng.below(2) as u8),
                2 if self.equality => strengthen(1),
                3 if self.equality => combine(0, 1, 0, 1),
                4 if self.equality => rounding(1, 1, 0),
                _ => reduce(1, 0, 0),
            },
            11 => misused(rng, 2),
            12 => match rng.below(4) {
                0 => scale(0, 0),
                1 => combine(0, 0, 1, 0),
                2 => rounding(0, rng.below(2) as u16, by),
                _ => rounding(0, self.stride, *rng.pick(&[0, 17, 256, 65_535])),
            },
            13 => {
                let made = self.lines as u8;
                self.scaled(65_535);
                if either {
                    scale(made, 65_535)
                } else {
                    combine(made, 0, 65_535, 1)
                }
            }
            14 => {
                self.scaled(3);
                self.stated(3, *rng.pick(&[-1, 1, 256]))
            }
            15 if either => close(0),
            // No number of line 0 is as large as that prime.
            15 => rounding(0, 65_521, by),
            16 => {
                while self.lines < 128 {
                    self.scaled(1);
                }
                match rng.below(4) {
                    0 => scale(0, 1),
                    1 => strengthen(0),
                    2 => split(2),
                    _ => rounding(0, self.stride, by),
                }
            }
            17 => match rng.below(3) {
                0 => strengthen(0),
                1 => split(2),
                _ => rounding(0, self.stride, by),
            },
            // 20: nothing more.
            _ => return,
        };
        self.fields.push(last);
    }
}
