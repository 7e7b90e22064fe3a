//! Random bundles, lists and formulas that are right.

use crate::build::{self, Layout};
use crate::rng::Rng;
use reference::Edition;

/// A number of two bytes, often small, sometimes at the ends of the range.
pub fn short(rng: &mut Rng) -> i16 {
    match rng.below(8) {
        0..=2 => 0,
        3..=5 => rng.within(-9, 9) as i16,
        6 => rng.word() as i16,
        _ => *rng.pick(&[-32_768, -32_767, 32_767, -1, 256, -256]),
    }
}

/// A number of four bytes, as above.
pub fn long(rng: &mut Rng) -> i32 {
    match rng.below(8) {
        0..=2 => 0,
        3..=5 => rng.within(-9, 9) as i32,
        6 => rng.word() as i32,
        _ => *rng.pick(&[i32::MIN, -i32::MAX, i32::MAX, -1, 65_536, -65_536]),
    }
}

/// A register value within the range of a test.
pub fn value(rng: &mut Rng) -> i32 {
    match rng.below(6) {
        0 => 0,
        1..=3 => rng.within(-9, 9) as i32,
        4 => rng.within(-1_000_000, 1_000_000) as i32,
        _ => *rng.pick(&[-1_000_000, 1_000_000, 999_999]),
    }
}

pub fn note(rng: &mut Rng) -> Vec<u8> {
    let length = rng.below(4);
    let contents = rng.bytes(length);
    build::field(0x80 | rng.byte(), &contents)
}

pub fn edition(rng: &mut Rng) -> Edition {
    *rng.pick(&Edition::ALL)
}

/// A number that bundles of the edition hold; of four bytes often the ends of
/// two.
pub fn number(rng: &mut Rng, edition: Edition) -> i32 {
    match edition {
        Edition::One => i32::from(short(rng)),
        Edition::Two if rng.chance(1, 6) => {
            *rng.pick(&[-32_768, -32_769, 32_767, 32_768, 65_535, 65_536])
        }
        Edition::Two => long(rng).max(-i32::MAX),
    }
}

/// K, kinds and numbers of a bundle of an edition.
pub fn lists(
    rng: &mut Rng,
    edition: Edition,
    constants: usize,
    most: usize,
) -> (u8, Vec<u8>, Vec<i32>) {
    let k = 1 + rng.below(constants);
    let count = rng.below(most + 1);
    let kinds = (0..count).map(|_| rng.below(3) as u8).collect();
    let numbers = (0..count * (k + 1)).map(|_| number(rng, edition)).collect();
    (k as u8, kinds, numbers)
}

/// The file of a bundle, with notes now and then.
pub fn bundle(rng: &mut Rng, edition: Edition, k: u8, kinds: &[u8], numbers: &[i32]) -> Vec<u8> {
    let notes = rng.below(3);
    let mut file = Vec::new();
    let mut push = |rng: &mut Rng, part: Vec<u8>| {
        if rng.chance(notes, 8) {
            file.extend(note(rng));
        }
        file.extend(part);
    };
    push(rng, build::field(0x01, &[edition.number()]));
    push(rng, build::field(0x02, &[k]));
    for (kind, row) in kinds.iter().zip(numbers.chunks(usize::from(k) + 1)) {
        push(rng, Layout(edition).constraint(*kind, row));
    }
    push(rng, Vec::new());
    file
}

/// A formula's file with at most so many and/ors, with notes now and then.
pub fn formula(rng: &mut Rng, k: usize, junctions: usize) -> Vec<u8> {
    let notes = rng.below(2);
    let mut file = build::header(k as u8);
    let mut left = rng.below(junctions + 1);
    let mut level = vec![0];
    // Each entry is a part still to come, with the levels above it.
    while let Some(above) = level.pop() {
        if rng.chance(notes, 6) {
            file.extend(note(rng));
        }
        if left > 0 && above < 600 && rng.chance(2, 3) {
            left -= 1;
            file.extend(if rng.chance(1, 2) {
                build::or()
            } else {
                build::and()
            });
            level.extend([above + 1, above + 1]);
            continue;
        }
        let numbers: Vec<i32> = (0..=k).map(|_| long(rng)).collect();
        let g = match rng.below(8) {
            0..=3 => rng.within(2, 9) as i32,
            4 => rng.within(2, 65_535) as i32,
            5 => *rng.pick(&[i32::MAX, (1 << 30) - 2, (1 << 30) + 2, 3 << 29]),
            // A power of two, up to the largest that four signed bytes hold.
            _ => 1 << rng.within(1, 30),
        };
        file.extend(match rng.below(4) {
            0 => build::comparison(true, &numbers),
            1 => build::divides(g, &numbers),
            _ => build::comparison(false, &numbers),
        });
    }
    file
}
