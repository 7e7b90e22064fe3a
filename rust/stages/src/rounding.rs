//! Tables of roundings: a mixed line rounded as in section 6.1 of the source,
//! what can be wrong with one, and formulas of an exact length.

use crate::build::*;
use crate::case::Case;
use crate::directed::{check, Aimed};
use crate::rng::Rng;
use crate::stride::opposite;

/// The most that a rounding may round by.
pub const MOST: usize = 16;
/// The numbers of a bundle stay within this.
const SHORT: i64 = 32_767;

/// How much to round by: often little, and now and then the most.
pub fn random_by(rng: &mut Rng) -> usize {
    match rng.below(6) {
        0 => 1,
        1 => 2,
        2 => MOST,
        _ => 1 + rng.below(MOST),
    }
}

/// A table that rounds t ≤ 0 by g and k, and closes each branch by t + k and a
/// line u ≤ 0 with which it makes a number. Lines 0 and 1 are A's parts of t
/// and u, 2 and 3 are B's; 4 is t and 5 is u; each branch starts with 6.
pub struct Rounded {
    pub constants: usize,
    pub a: Vec<u8>,
    pub b: Vec<u8>,
    /// t and tA of the line that is rounded: K coefficients and d.
    pub t: Vec<i32>,
    pub partial: Vec<i32>,
    /// uA of the line that closes the branches.
    pub other: Vec<i32>,
    /// Whether each constant occurs in B.
    pub in_b: Vec<bool>,
    pub g: u16,
    /// What it rounds by.
    pub k: u16,
    /// Whether each new line is stated by a claim.
    claims: bool,
}

impl Rounded {
    /// The amounts j by which the branches raise tA, in file order.
    pub fn order(&self) -> Vec<u16> {
        let mut order = vec![self.k];
        order.extend(0..self.k);
        order
    }

    /// The rows up to the rounding.
    fn start(&self) -> Vec<Vec<u8>> {
        vec![combine(0, 2, 1, 1), combine(1, 3, 1, 1)]
    }

    /// The rows of the branch that raises tA by j.
    fn branch(&self, j: u16) -> Vec<Vec<u8>> {
        if !self.claims {
            return vec![combine(6, 5, 1, 1), close(7)];
        }
        let raised = |form: &[i32], by: u16| {
            let mut form = form.to_vec();
            form[self.constants] += i32::from(by);
            form
        };
        let stated = claim(&raised(&self.t, self.k), &raised(&self.partial, j));
        vec![scale(6, 1), stated, combine(7, 5, 1, 1), close(8)]
    }

    /// The proof with the branches in some order.
    fn proof_with(&self, rounding: Vec<u8>, order: &[u16]) -> Vec<u8> {
        let mut fields = self.start();
        fields.push(rounding);
        for &j in order {
            fields.extend(self.branch(j));
        }
        file(self.constants as u8, &fields)
    }

    pub fn proof(&self) -> Vec<u8> {
        self.proof_with(rounding(4, self.g, self.k), &self.order())
    }

    fn case_of(&self, proof: Vec<u8>) -> Case {
        check(self.a.clone(), self.b.clone(), proof)
    }

    pub fn case(&self) -> Case {
        self.case_of(self.proof())
    }
}

/// Two numbers of a bundle with a sum within twice their range.
fn parts(rng: &mut Rng, sum: i64) -> (i64, i64) {
    let (low, high) = ((sum - SHORT).max(-SHORT), (sum + SHORT).min(SHORT));
    let first = (sum / 2 + rng.within(-9, 9)).clamp(low, high);
    (first, sum - first)
}

/// A random table that is accepted, over at most so many constants.
pub fn rounded(rng: &mut Rng, constants: usize) -> Rounded {
    let k = random_by(rng) as i64;
    let g = k + match rng.below(6) {
        0 => 1,
        1..=3 => rng.within(1, 9),
        4 => rng.within(1, 300),
        _ => rng.within(1, 65_535 - k),
    };
    rounded_by(rng, constants, g, k)
}

fn rounded_by(rng: &mut Rng, constants: usize, g: i64, k: i64) -> Rounded {
    let count = 1 + rng.below(constants);
    // A's parts of t and u, then B's.
    let mut numbers = [const { Vec::new() }; 4];
    for _ in 0..count {
        let own = match rng.below(4) {
            0 => 0,
            1 if g <= SHORT => g * rng.within(-1, 1),
            _ => rng.within(-9, 9),
        };
        let theirs = if own % g == 0 && rng.chance(1, 2) {
            0
        } else {
            opposite(rng, own, g).unwrap_or(-own)
        };
        // What u leaves of the constant in A, and takes away in B.
        let left = if own != 0 && theirs != 0 && own.abs() < 1_000 && theirs.abs() < SHORT - 9 {
            rng.within(-3, 3)
        } else {
            0
        };
        let column = [own, left - own, theirs, -theirs - left];
        for (list, number) in numbers.iter_mut().zip(column) {
            list.push(number as i16);
        }
    }
    // g divides d + k + m, and no sum in between; often m is 0.
    let m = match rng.below(2) {
        0 => 0,
        _ => rng.within(0, g - 1 - k),
    };
    let d = -(k + m);
    let positive = rng.within(1, 3);
    let (own, theirs) = parts(rng, d);
    let (other, rest) = parts(rng, positive - k - d);
    for (list, number) in numbers.iter_mut().zip([own, other, theirs, rest]) {
        list.push(number as i16);
    }
    let [own, other, theirs, rest] = numbers;
    let longs = |list: &[i16]| -> Vec<i32> { list.iter().map(|&n| i32::from(n)).collect() };
    let t = longs(&own)
        .iter()
        .zip(longs(&theirs))
        .map(|(n, m)| n + m)
        .collect();
    let in_b = (0..count).map(|i| theirs[i] != 0 || rest[i] != 0).collect();
    Rounded {
        constants: count,
        a: file(
            count as u8,
            &[constraint(false, &own), constraint(false, &other)],
        ),
        b: file(
            count as u8,
            &[constraint(false, &theirs), constraint(false, &rest)],
        ),
        t,
        partial: longs(&own),
        other: longs(&other),
        in_b,
        g: g as u16,
        k: k as u16,
        claims: rng.chance(1, 2),
    }
}

/// A rounding with one thing wrong, and the number that it is refused with.
pub fn damaged(rng: &mut Rng, constants: usize) -> Aimed {
    let mut table = rounded(rng, constants);
    let (g, k, order) = (table.g, table.k, table.order());
    let with = |table: &Rounded, row: Vec<u8>| table.case_of(table.proof_with(row, &order));
    match rng.below(12) {
        0 => (10, with(&table, rounding(6 + rng.below(250) as u8, 0, 0))),
        1 => (12, with(&table, rounding(4, rng.below(2) as u16, k))),
        2 => {
            let wrong = *rng.pick(&[0, 17, 18, 32, 256, 257, 4_096, 65_535]);
            (12, with(&table, rounding(4, g, wrong)))
        }
        3 => {
            // Too far by one or more: g divides d + k - 1 then.
            let k = 2 + rng.below(MOST - 1) as i64;
            let g = k + rng.within(0, 9);
            let table = rounded_by(rng, constants, g, k - 1);
            let least = (-table.t[table.constants]).rem_euclid(i32::from(table.g));
            let over = least as u16 + 1;
            if over > MOST as u16 {
                return (0, table.case());
            }
            (
                15,
                table.case_of(table.proof_with(rounding(4, table.g, over), &order)),
            )
        }
        4 => {
            let wrong = (2..=65_535)
                .find(|&other| table.t[..table.constants].iter().any(|n| n % other != 0));
            match wrong {
                Some(wrong) => (15, with(&table, rounding(4, wrong as u16, k))),
                None => (0, table.case()),
            }
        }
        5 => {
            // From 0 up to k, or the last two exchanged: the claims tell.
            table.claims = true;
            let mut other: Vec<u16> = (0..=k).collect();
            if k > 1 && rng.chance(1, 2) {
                other = table.order();
                other.swap(usize::from(k) - 1, usize::from(k));
            }
            let proof = table.proof_with(rounding(4, g, k), &other);
            (14, table.case_of(proof))
        }
        6 => {
            let kept = rng.below(order.len());
            let proof = table.proof_with(rounding(4, g, k), &order[..kept]);
            (20, table.case_of(proof))
        }
        7 => {
            let proof = [table.proof(), close(7)].concat();
            (19, table.case_of(proof))
        }
        8 => {
            // A claim directly after the row, of what its first line is.
            let raised = |form: &[i32]| {
                let mut form = form.to_vec();
                form[table.constants] += i32::from(k);
                form
            };
            let stated = claim(&raised(&table.t), &raised(&table.partial));
            let row = [rounding(4, g, k), stated].concat();
            (4, with(&table, row))
        }
        9 => {
            let length = *rng.pick(&[0, 1, 3, 4, 6, 8]);
            let mut contents = rounding(4, g, k)[3..].to_vec();
            contents.resize(length, 0);
            (6, with(&table, field(0x16, &contents)))
        }
        // g and k exchanged, where that cannot be right.
        _ if g > MOST as u16 || k < 2 => (12, with(&table, rounding(4, k, g))),
        _ => (0, table.case()),
    }
}

/// A table whose formula's file has exactly so many bytes, an odd number: a
/// random tree of strengthens, roundings and splits over 8 to 16 constants, its
/// branches closed by number or, for four bytes more, by stride. From 50,000
/// bytes to some 70,000.
pub fn exact(rng: &mut Rng, bytes: usize) -> Case {
    loop {
        let constants = 8 + rng.below(9);
        if let Some(fields) = exact_fields(rng, constants, bytes) {
            let mut one = vec![0; constants + 1];
            one[constants] = 1;
            // 1 ≤ 0 is strengthened and rounded, 1 = 0 closes, 1 ≠ 0 is split.
            let lines = [0, 1, 2].map(|kind| constraint_of(kind, &one));
            let (with, without) = (file(constants as u8, &lines), file(constants as u8, &[]));
            let proof = file(constants as u8, &fields);
            return if rng.chance(1, 2) {
                check(with, without, proof)
            } else {
                check(without, with, proof)
            };
        }
    }
}

/// The rows of such a table, unless chance has led where there is none.
fn exact_fields(rng: &mut Rng, constants: usize, bytes: usize) -> Option<Vec<Vec<u8>>> {
    let form = 4 * (constants + 1);
    // With all branches closed by number.
    let (mut length, mut closes) = (8 + 3 + form, 1);
    let mut steps = Vec::new();
    // Every field has 3 bytes more than a multiple of 4. A split adds two
    // fields, any other step a multiple of four: so the splits are odd in number
    // where the length is 1 more than a multiple of 4.
    let mut splits = 2 * rng.below(8) + usize::from(bytes % 4 == 1);
    while length + 4 * closes < bytes {
        let most = if length + 6_000 < bytes { MOST } else { 2 };
        let step = if splits > 0 {
            splits -= 1;
            Step::Split
        } else {
            match rng.below(most + 1) {
                0 => Step::Strengthen,
                by => Step::Round(by),
            }
        };
        let (added, more) = match step {
            Step::Split => (3, 1),
            Step::Strengthen => (6, 2),
            Step::Round(by) => (by * (13 + form), by),
        };
        length += added + more * (3 + form);
        closes += more;
        steps.push(step);
    }
    if length > bytes || steps.len() + closes > 1_024 {
        return None;
    }
    let mut ends = vec![close(1); closes];
    for end in ends.iter_mut().take((bytes - length) / 4) {
        *end = stride(1, rng.within(2, 65_535) as u16);
    }
    rng.shuffle(&mut ends);
    rng.shuffle(&mut steps);
    tree(rng, steps, ends)
}

/// A step of such a table.
enum Step {
    Strengthen,
    Round(usize),
    Split,
}

/// A random tree of steps on lines 0 and 2, with these ends of its branches in
/// file order.
fn tree(rng: &mut Rng, mut steps: Vec<Step>, ends: Vec<Vec<u8>>) -> Option<Vec<Vec<u8>>> {
    let mut ends = ends.into_iter();
    let mut fields = Vec::new();
    // How many steps are open around each branch that is still to come.
    let mut branches = vec![0];
    while let Some(open) = branches.pop() {
        let may_end = !branches.is_empty() && rng.chance(1, 2);
        if open == 32 || may_end || steps.is_empty() {
            fields.push(ends.next()?);
            continue;
        }
        let count = match steps.pop()? {
            Step::Strengthen => {
                fields.push(strengthen(0));
                3
            }
            Step::Split => {
                fields.push(split(2));
                2
            }
            Step::Round(by) => {
                fields.push(rounding(
                    0,
                    rng.within(by as i64 + 1, 65_535) as u16,
                    by as u16,
                ));
                by + 1
            }
        };
        branches.extend(vec![open + 1; count]);
    }
    steps.is_empty().then_some(fields)
}
