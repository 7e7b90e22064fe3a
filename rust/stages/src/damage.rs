//! Damaging files: single bytes, whole fields, lengths, ends, parameters.

use crate::build::{field, header_of, push_field};
use crate::rng::Rng;
use reference::Edition;
use std::ops::Range;

/// Every tag below 0x80 that some kind of file has, and some that none has.
const TAGS: [u8; 26] = [
    0x01, 0x02, 0x03, 0x04, 0x05, 0x10, 0x11, 0x12, 0x13, 0x14, 0x15, 0x16, 0x17, 0x20, 0x31, 0x32,
    0x33, 0x34, 0x35, 0x00, 0x06, 0x0F, 0x18, 0x21, 0x36, 0x7F,
];

/// Where the whole fields at the start of a file stand.
pub fn fields(file: &[u8]) -> Vec<Range<usize>> {
    let mut found = Vec::new();
    let mut place = 0;
    while let Some(&[_, high, low]) = file.get(place..place + 3) {
        let end = place + 3 + usize::from(high) * 256 + usize::from(low);
        if end > file.len() {
            break;
        }
        found.push(place..end);
        place = end;
    }
    found
}

/// The edition that a file's first field, notes aside, tells; the first if it
/// tells none.
pub fn edition_of(file: &[u8]) -> Edition {
    let parts = fields(file).into_iter().map(|part| &file[part]);
    let first = parts.into_iter().find(|part| part[0] < 0x80);
    match first {
        Some(&[0x01, 0, 1, number]) => Edition::numbered(number).unwrap_or(Edition::One),
        _ => Edition::One,
    }
}

/// How many line numbers a row has, and how many numbers of two bytes.
fn parameters(tag: u8) -> (usize, usize) {
    match tag {
        0x10 => (2, 2),
        0x11 => (2, 1),
        0x12 | 0x15 => (1, 1),
        0x16 => (1, 2),
        _ => (1, 0),
    }
}

/// A field with a random tag and contents; often one that could stand in a file
/// of the edition.
pub fn random_field(rng: &mut Rng, edition: Edition, k: usize) -> Vec<u8> {
    let tag = if rng.chance(1, 10) {
        rng.byte()
    } else {
        *rng.pick(&TAGS)
    };
    let (number_bytes, line_bytes) = (edition.number_bytes(), edition.line_bytes());
    let (lines, numbers) = parameters(tag);
    let right = match tag {
        0x01 | 0x02 => 1,
        0x03..=0x05 => number_bytes * (k + 1),
        0x10..=0x17 => lines * line_bytes + numbers * 2,
        0x20 => 8 * (k + 1),
        0x33 | 0x34 => 4 * (k + 1),
        0x35 => 4 + 4 * (k + 1),
        0x31 | 0x32 => 0,
        _ => rng.below(8),
    };
    let length = if rng.chance(1, 8) {
        rng.below(12)
    } else {
        right
    };
    let mut contents = rng.bytes(length);
    match tag {
        // Mostly the edition, a K, line numbers that are there.
        0x01 if rng.chance(3, 4) => contents.fill(edition.number()),
        0x02 if rng.chance(3, 4) => contents.fill(k as u8),
        0x10..=0x17 if rng.chance(7, 8) => {
            let (of_lines, of_numbers) = contents.split_at_mut(length.min(lines * line_bytes));
            small_numbers(rng, of_lines, line_bytes, 0, 4);
            small_numbers(rng, of_numbers, 2, 0, 4);
        }
        0x03..=0x05 if rng.chance(3, 4) => small_numbers(rng, &mut contents, number_bytes, -4, 4),
        0x33..=0x35 if rng.chance(3, 4) => small_numbers(rng, &mut contents, 4, -4, 4),
        _ => {}
    }
    field(tag, &contents)
}

/// Fills the contents with numbers of so many bytes between two small ones.
fn small_numbers(rng: &mut Rng, contents: &mut [u8], bytes: usize, low: i64, high: i64) {
    for number in contents.chunks_mut(bytes) {
        let small = rng.within(low, high) as i32;
        let length = number.len();
        number.copy_from_slice(&small.to_be_bytes()[4 - length..]);
    }
}

/// Changes a file in one of many ways. K is for the fields that are put in.
pub fn damage(rng: &mut Rng, file: &mut Vec<u8>, k: usize) {
    let found = fields(file);
    if found.is_empty() {
        let length = 1 + rng.below(8);
        *file = rng.bytes(length);
        return;
    }
    let edition = edition_of(file);
    let one = rng.pick(&found).clone();
    let contents = one.start + 3..one.end;
    match rng.below(22) {
        0 => {
            let place = rng.below(file.len());
            file[place] ^= 1 << rng.below(8);
        }
        1 => {
            let place = rng.below(file.len());
            file[place] = *rng.pick(&[0x00, 0x01, 0x7F, 0x80, 0xFF]);
        }
        2 => {
            file.drain(one);
        }
        3 => {
            let copy = file[one.clone()].to_vec();
            let other = rng.pick(&found).end;
            let place = if rng.chance(1, 2) { one.end } else { other };
            file.splice(place..place, copy);
        }
        4 => {
            let other = rng.pick(&found).clone();
            let (first, second) = if one.start <= other.start {
                (one, other)
            } else {
                (other, one)
            };
            if first.end <= second.start {
                let swapped = [
                    &file[second.clone()],
                    &file[first.end..second.start],
                    &file[first.clone()],
                ]
                .concat();
                file.splice(first.start..second.end, swapped);
            }
        }
        5 => {
            // The length alone: what follows is read as other fields.
            let length = contents.len() as i64 + rng.within(-3, 3);
            let length = length.clamp(0, 0xFFFF) as u16;
            file[one.start + 1..one.start + 3].copy_from_slice(&length.to_be_bytes());
        }
        6 => {
            let more = 1 + rng.below(4);
            let mut longer = file[contents].to_vec();
            longer.extend(rng.bytes(more));
            let new = field(file[one.start], &longer);
            file.splice(one, new);
        }
        7 => {
            let kept = rng.below(contents.len() + 1);
            let shorter = file[contents.start..contents.start + kept].to_vec();
            let new = field(file[one.start], &shorter);
            file.splice(one, new);
        }
        8 => {
            let length = rng.below(file.len());
            file.truncate(length);
        }
        9 => {
            // At a field's border.
            file.truncate(one.start);
        }
        10 => {
            let more = 1 + rng.below(5);
            file.extend(rng.bytes(more));
        }
        11 => {
            let new = random_field(rng, edition, k);
            file.extend(new);
        }
        12 => file[one.start] = *rng.pick(&TAGS),
        13 => file[one.start] = rng.byte(),
        14 => {
            let new = random_field(rng, edition, k);
            file.splice(one.start..one.start, new);
        }
        15 => {
            let mut note = Vec::new();
            push_field(&mut note, 0x80 | rng.byte(), &[1, 2, 3]);
            file.splice(one.start..one.start, note);
        }
        // Another edition over the same fields.
        20 => {
            if let Some(first) = found.iter().find(|part| file[part.start] == 0x01) {
                let last = first.end - 1;
                file[last] = rng.below(4) as u8;
            }
        }
        // The lowest number of two bytes or of four, in some place.
        21 => {
            let width = *rng.pick(&[2, 4]);
            if let Some(last) = contents.len().checked_sub(width) {
                let place = contents.start + rng.below(last / width + 1) * width;
                file[place..place + width].fill(0);
                file[place] = 0x80;
            }
        }
        // Parameters, multipliers, claims: a byte of the contents.
        16..=18 if !contents.is_empty() => {
            let place = contents.start + rng.below(contents.len());
            file[place] = match rng.below(5) {
                0 => file[place].wrapping_add(1),
                1 => file[place].wrapping_sub(1),
                2 => 0,
                3 => file[place] ^ 0x80,
                _ => rng.below(8) as u8,
            };
        }
        _ => file[contents].fill(0),
    }
}

/// Bytes without plan: from quite random ones to fields in random order.
pub fn noise(rng: &mut Rng, k: usize) -> Vec<u8> {
    let edition = *rng.pick(&Edition::ALL);
    noise_in(rng, edition, k)
}

/// The same, where it has a header one of the edition.
pub fn noise_in(rng: &mut Rng, edition: Edition, k: usize) -> Vec<u8> {
    match rng.below(4) {
        0 => {
            let length = rng.below(40);
            rng.bytes(length)
        }
        1 => {
            let mut bytes = header_of(edition, k as u8);
            let more = rng.below(30);
            bytes.extend(rng.bytes(more));
            bytes
        }
        2 => {
            let mut bytes = Vec::new();
            for _ in 0..rng.below(6) {
                bytes.extend(random_field(rng, edition, k));
            }
            bytes
        }
        _ => {
            let mut bytes = header_of(edition, k as u8);
            for _ in 0..rng.below(8) {
                bytes.extend(random_field(rng, edition, k));
            }
            bytes
        }
    }
}
