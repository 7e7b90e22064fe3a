//! Files of edition 1 turned to edition 2, so that every generator gives every
//! mix of editions.

use crate::build::push_field;
use crate::case::Case;
use crate::damage::fields;
use crate::directed::Aimed;
use crate::rng::Rng;
use reference::limits::{BUNDLE_BYTES, PROOF_BYTES};

/// A bundle or proof of edition 1 in edition 2. Its constraints and rows of the
/// right length, notes aside, become wider; what is no such field stays, and so
/// does a file that does not say edition 1.
pub fn turned_up(file: &[u8]) -> Vec<u8> {
    let parts = fields(file);
    let first = parts.iter().find(|part| file[part.start] < 0x80);
    if first.is_none_or(|part| file[part.clone()] != [1, 0, 1, 1]) {
        return file.to_vec();
    }
    let mut out = Vec::with_capacity(2 * file.len());
    for part in &parts {
        let (tag, contents) = (file[part.start], &file[part.start + 3..part.end]);
        match (tag, contents) {
            (0x01, [1]) => push_field(&mut out, tag, &[2]),
            (0x03..=0x05, _) if contents.len() % 2 == 0 => {
                push_field(&mut out, tag, &widened(contents));
            }
            (0x10..=0x17, _) if contents.len() == row_bytes(tag) => {
                let (lines, rest) = contents.split_at(line_numbers(tag));
                let mut wide: Vec<u8> = lines.iter().flat_map(|&line| [0, line]).collect();
                wide.extend_from_slice(rest);
                push_field(&mut out, tag, &wide);
            }
            _ => out.extend_from_slice(&file[part.clone()]),
        }
    }
    // What is no whole field.
    let end = parts.last().map_or(0, |part| part.end);
    out.extend_from_slice(&file[end..]);
    out
}

/// Numbers of two bytes in four.
fn widened(numbers: &[u8]) -> Vec<u8> {
    numbers
        .chunks_exact(2)
        .flat_map(|bytes| i32::from(i16::from_be_bytes([bytes[0], bytes[1]])).to_be_bytes())
        .collect()
}

/// How many line numbers a row has.
fn line_numbers(tag: u8) -> usize {
    match tag {
        0x10 | 0x11 => 2,
        _ => 1,
    }
}

/// The bytes of a row in edition 1.
fn row_bytes(tag: u8) -> usize {
    match tag {
        0x10 => 6,
        0x11 => 4,
        0x12 | 0x15 => 3,
        0x16 => 5,
        _ => 1,
    }
}

/// Turns each bundle and the proof up by chance, where that is not too long.
pub fn mix(rng: &mut Rng, case: &mut Case) {
    let mut turn = |file: &mut Vec<u8>, most: usize| {
        if rng.chance(1, 2) {
            let wide = turned_up(file);
            if wide.len() <= most {
                *file = wide;
            }
        }
    };
    match case {
        Case::Check { a, b, proof, .. } => {
            turn(a, BUNDLE_BYTES);
            turn(b, BUNDLE_BYTES);
            turn(proof, PROOF_BYTES);
        }
        Case::Read { file, .. } => turn(file, BUNDLE_BYTES),
        Case::Show { a, b, .. } | Case::NextProof { a, b, .. } => {
            turn(a, BUNDLE_BYTES);
            turn(b, BUNDLE_BYTES);
        }
        // A file that is turned has its edition for that.
        Case::Write { .. }
        | Case::Test { .. }
        | Case::TurnBundle { .. }
        | Case::TurnProof { .. }
        | Case::List { .. }
        | Case::Print { .. }
        | Case::PrintWords { .. } => {}
    }
}

/// The same for a case made for an answer, which must stay: limits of lengths
/// and lines go by the edition, and a wrong length of one edition may be the
/// right one of the other.
pub fn mix_aimed(rng: &mut Rng, aimed: &mut Aimed) {
    if !matches!(aimed.0, 1 | 6 | 16) {
        mix(rng, &mut aimed.1);
    }
}
