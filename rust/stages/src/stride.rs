//! Tables whose branches are closed by stride, with numbers of either sign
//! up to the ends of the range: what stride formulas are reduced from.

use crate::build::*;
use crate::case::Case;
use crate::directed::check;
use crate::rng::Rng;
use crate::table::MOST;

/// What 65,535 p + q reaches upwards for p and q up to 32,767; downwards, with
/// p down to -32,768, it reaches -2,147,483,647.
const REACH: i64 = 65_535 * 32_767 + 32_767;
/// B's numbers stay within this, so that a sum with -2,147,450,880 can stand.
const SHORT: i64 = 32_767;

/// A table that closes one line by stride, in each of its branches.
pub struct Closes {
    pub k: usize,
    pub a: Vec<u8>,
    pub b: Vec<u8>,
    pub proof: Vec<u8>,
    /// The closed line's tA: K coefficients and d.
    pub partial: Vec<i32>,
    /// Whether each constant occurs in B.
    pub in_b: Vec<bool>,
    /// The strides in the order of the closes: one, or after a strengthen three.
    pub strides: Vec<u16>,
}

impl Closes {
    pub fn case(&self) -> Case {
        check(self.a.clone(), self.b.clone(), self.proof.clone())
    }
}

/// A table that is accepted.
pub fn closes(rng: &mut Rng) -> Closes {
    table(rng, false)
}

/// A table whose close is refused with 15: g divides d too, or one
/// coefficient not.
pub fn near_miss(rng: &mut Rng) -> Closes {
    table(rng, true)
}

fn random_stride(rng: &mut Rng) -> i64 {
    match rng.below(8) {
        0..=1 => rng.within(2, 9),
        2 => 1 << rng.within(1, 15),
        3 => rng.within(2, 300),
        4 => rng.within(2, 32_767),
        5 => rng.within(32_768, 65_535),
        6 => *rng.pick(&[2, 5, 255, 256, 32_767, 32_768, 65_521, 65_534]),
        _ => 65_535,
    }
}

/// A number for tA: small, next to a multiple of g, a large multiple, or large.
fn random_number(rng: &mut Rng, g: i64) -> i64 {
    match rng.below(8) {
        0 => 0,
        1 => rng.within(-9, 9),
        2 => g * rng.within(-3, 3) + rng.within(-1, 1),
        3 => -rng.within(1, g),
        4 => rng.within(-32_768, 32_767),
        5 => g * rng.within(-REACH / g, REACH / g),
        6 => rng.within(-REACH, REACH),
        _ => *rng.pick(&[REACH, -REACH, MOST, -MOST]),
    }
}

/// A number of B that makes a multiple of g together with the given one.
pub(crate) fn opposite(rng: &mut Rng, number: i64, g: i64) -> Option<i64> {
    let first = (-number).rem_euclid(g);
    let (low, high) = ((SHORT + first).div_euclid(g), (SHORT - first).div_euclid(g));
    (0..4)
        .map(|_| first + g * rng.within(-low, high))
        .find(|other| (number + other).abs() <= MOST)
}

/// A number of B that makes no multiple of g together with the given one.
fn no_opposite(rng: &mut Rng, number: i64, g: i64) -> i64 {
    let mut other = rng.within(-SHORT, SHORT);
    if (number + other).abs() > MOST {
        other = -other;
    }
    if (number + other) % g != 0 {
        other
    } else {
        beside(number, other)
    }
}

/// The number of B one beside the given one that keeps it short and the sum
/// in range.
fn beside(number: i64, other: i64) -> i64 {
    match other.signum() {
        0 if number > 0 => -1,
        0 => 1,
        sign => other - sign,
    }
}

/// A divisor of g, 2 or more, that does not divide d, as g does not.
fn divisor(rng: &mut Rng, g: i64, d: i64) -> i64 {
    let mut found = vec![g];
    for small in (1..).take_while(|small| small * small <= g) {
        if g % small == 0 {
            found.extend([small, g / small]);
        }
    }
    found.retain(|&divisor| divisor >= 2 && d % divisor != 0);
    *rng.pick(&found)
}

fn table(rng: &mut Rng, missed: bool) -> Closes {
    let k = 1 + rng.below(16);
    let g = random_stride(rng);
    let sign = if rng.chance(1, 2) { 1 } else { -1 };
    // tA is the sign times c, and c is 65,535 p + q with p and q of A.
    let mut partial = vec![0; k + 1];
    let mut other = vec![0; k + 1];
    for place in 0..k {
        let number = sign * (sign * random_number(rng, g)).min(REACH);
        // One that A alone has, where g divides it; else B has its opposite.
        if number % g == 0 && rng.chance(1, 2) {
            partial[place] = number;
        } else if let Some(found) = opposite(rng, number, g) {
            (partial[place], other[place]) = (number, found);
        }
    }
    partial[k] = sign * (sign * random_number(rng, g)).min(REACH);
    other[k] = no_opposite(rng, partial[k], g);
    if missed {
        let whole = opposite(rng, partial[k], g);
        match whole.filter(|_| rng.chance(1, 2)) {
            Some(found) => other[k] = found,
            None => {
                let place = rng.below(k);
                other[place] = beside(partial[place], other[place]);
            }
        }
    }
    let shorts = |numbers: Vec<i64>| -> Vec<i16> { numbers.iter().map(|&n| n as i16).collect() };
    let longs = |numbers: &[i64]| -> Vec<i32> { numbers.iter().map(|&n| n as i32).collect() };
    let c = |n: &i64| sign * n + 32_767;
    let large = shorts(partial.iter().map(|n| c(n).div_euclid(65_535)).collect());
    let rest = shorts(
        partial
            .iter()
            .map(|n| c(n).rem_euclid(65_535) - 32_767)
            .collect(),
    );
    let some = |rng: &mut Rng| -> Vec<i16> { (0..=k).map(|_| rng.within(-1, 1) as i16).collect() };

    // Lines 0 to 2 of A, the last to be strengthened; 3, perhaps 4, of B.
    let bundle_a = file(
        k as u8,
        &[
            constraint(true, &large),
            constraint(true, &rest),
            constraint(false, &some(rng)),
        ],
    );
    let other_b = shorts(other.clone());
    let mut in_b: Vec<bool> = other_b[..k].iter().map(|&n| n != 0).collect();
    let mut constraints = vec![constraint(true, &other_b)];
    if rng.chance(1, 3) {
        let more = some(rng);
        for (occurs, number) in in_b.iter_mut().zip(&more) {
            *occurs |= *number != 0;
        }
        constraints.push(constraint(false, &more));
    }
    let made = 3 + constraints.len() as u8;
    let mut rows = vec![scale(0, 65_535), reduce(made, 1, 1)];
    rows.push(if sign == 1 && rng.chance(1, 2) {
        reduce(made + 1, 3, 1)
    } else {
        reduce(3, made + 1, sign as i16)
    });
    let sum: Vec<i64> = partial.iter().zip(&other).map(|(n, m)| n + m).collect();
    if rng.chance(1, 2) {
        rows.push(claim(&longs(&sum), &longs(&partial)));
    }
    let line = made + 2;
    let strides: Vec<u16> = if missed || rng.chance(1, 2) {
        vec![g as u16]
    } else {
        rows.push(strengthen(2));
        (0..3).map(|_| divisor(rng, g, sum[k]) as u16).collect()
    };
    rows.extend(strides.iter().map(|&g| stride(line, g)));
    Closes {
        k,
        a: bundle_a,
        b: file(k as u8, &constraints),
        proof: file(k as u8, &rows),
        partial: longs(&partial),
        in_b,
        strides,
    }
}
