//! Turning a bundle or a proof into the other edition: document 02's point 4.
//!
//! The file is gone over once, and what comes of it is put down on the way; a
//! number that the new edition cannot hold is remembered until the whole file is
//! found right.

use crate::answer::*;
use crate::bundle::{length_within, put_numbers, Bundle, WriteResult, TAG_INEQUALITY};
use crate::check::{
    is_known, CLAIM, CLOSE_BY_NUMBER, CLOSE_BY_STRIDE, COMBINE, REDUCE, ROUND, SCALE, SPLIT,
    STRENGTHEN,
};
use crate::edition::Edition;
use crate::field::{push_field_header, unsigned, Fields, Unfinished};
use crate::header::{header_bytes, read_constants, read_edition, HeaderFault};
use crate::limits;

/// Turns a bundle into the edition of this number.
pub fn turn_bundle(file: &[u8], edition: usize, out: &mut [u8]) -> WriteResult {
    turn(edition, out, Edition::bundle_bytes, |to| {
        turned_bundle(file, to)
    })
}

/// Turns a proof into the edition of this number.
pub fn turn_proof(file: &[u8], edition: usize, out: &mut [u8]) -> WriteResult {
    turn(
        edition,
        out,
        |_| limits::PROOF_BYTES,
        |to| turned_proof(file, to),
    )
}

/// The edition asked for comes first, and what concerns the output last.
fn turn(
    edition: usize,
    out: &mut [u8],
    most: impl Fn(Edition) -> usize,
    turned: impl Fn(Edition) -> Result<Vec<u8>, Answer>,
) -> WriteResult {
    let output = |number, place| WriteResult::refused(Answer::refused(number, FILE_OUTPUT, place));
    let Some(to) = Edition::ALL
        .into_iter()
        .find(|e| usize::from(e.number()) == edition)
    else {
        return output(WRONG_EDITION, 0);
    };
    let bytes = match turned(to) {
        Ok(bytes) => bytes,
        Err(answer) => return WriteResult::refused(answer),
    };
    let needed = bytes.len();
    if needed > most(to) {
        return output(TOO_LONG, needed);
    }
    match out.get_mut(..needed) {
        Some(part) => {
            part.copy_from_slice(&bytes);
            WriteResult::accepted(needed)
        }
        None => output(OUTPUT_TOO_SHORT, needed),
    }
}

/// The bundle in the edition, however long.
fn turned_bundle(file: &[u8], to: Edition) -> Result<Vec<u8>, Answer> {
    length_within(file, limits::BUNDLE_BYTES, FILE_A)?;
    // A file that has the edition already is of a wrong one.
    let bundle = Bundle::read_in(file, FILE_A, &[to.other()], None)?;
    let length = to.number_bytes() * (bundle.k + 1);
    // K is at most 16, and so the length at most 68.
    let mut turned = header_bytes(to, bundle.k as u8).to_vec();
    let mut numbers = Vec::new();
    for (constraint, place) in bundle.constraints().zip(bundle.places()) {
        numbers.clear();
        constraint.push_to(&mut numbers);
        if to.first_outside(&numbers).is_some() {
            return Err(Answer::refused(OUT_OF_RANGE, FILE_A, place));
        }
        let tag = TAG_INEQUALITY + constraint.kind as u8;
        push_field_header(&mut turned, tag, length as u16);
        let start = turned.len();
        turned.resize(start + length, 0);
        put_numbers(to, &numbers, &mut turned[start..]);
    }
    Ok(turned)
}

/// How many line numbers a row has, and how many bytes behind them. Nothing else
/// is a row.
fn row(tag: u8) -> Option<(usize, usize)> {
    match tag {
        COMBINE => Some((2, 4)),
        REDUCE => Some((2, 2)),
        SCALE | CLOSE_BY_STRIDE => Some((1, 2)),
        STRENGTHEN | CLOSE_BY_NUMBER | SPLIT => Some((1, 0)),
        ROUND => Some((1, 4)),
        _ => None,
    }
}

/// The proof in the edition, however long.
fn turned_proof(file: &[u8], to: Edition) -> Result<Vec<u8>, Answer> {
    length_within(file, limits::PROOF_BYTES, FILE_PROOF)?;
    let header_fault =
        |HeaderFault(number, place): HeaderFault| Answer::refused(number, FILE_PROOF, place);
    let from = to.other();
    let mut fields = Fields::of(file);
    read_edition(&mut fields, is_known, &[from]).map_err(header_fault)?;
    let k = read_constants(&mut fields, is_known, None).map_err(header_fault)?;
    let mut turned = Vec::with_capacity(2 * file.len());
    turned.extend_from_slice(&header_bytes(to, k as u8));
    // The first row with a line number that one byte cannot hold.
    let mut too_large = None;
    let mut claim_in_place = false;
    loop {
        let field = match fields.take() {
            Ok(Some(field)) => field,
            Ok(None) => break,
            Err(Unfinished(place)) => return Err(Answer::refused(NOT_WHOLE, FILE_PROOF, place)),
        };
        let refuse = |number| Err(Answer::refused(number, FILE_PROOF, field.place));
        if !is_known(field.tag) {
            return refuse(UNKNOWN_TAG);
        }
        match row(field.tag) {
            Some((lines, rest)) => {
                let width = from.line_bytes();
                if field.contents.len() != lines * width + rest {
                    return refuse(WRONG_LENGTH);
                }
                // At most 12 bytes.
                let length = lines * to.line_bytes() + rest;
                push_field_header(&mut turned, field.tag, length as u16);
                let (lines, rest) = field.contents.split_at(lines * width);
                for line in lines.chunks_exact(width) {
                    match from {
                        Edition::One => turned.extend_from_slice(&[0, line[0]]),
                        Edition::Two if unsigned(line) <= 255 => turned.push(line[1]),
                        Edition::Two => too_large = too_large.or(Some(field.place)),
                    }
                }
                turned.extend_from_slice(rest);
                claim_in_place = matches!(field.tag, COMBINE | REDUCE | SCALE);
            }
            None if field.tag == CLAIM && claim_in_place => {
                if field.contents.len() != 2 * 4 * (k + 1) {
                    return refuse(WRONG_LENGTH);
                }
                push_field_header(&mut turned, CLAIM, field.contents.len() as u16);
                turned.extend_from_slice(field.contents);
                claim_in_place = false;
            }
            // A claim elsewhere, or a field of the header again.
            None => return refuse(OUT_OF_PLACE),
        }
    }
    match too_large {
        Some(place) => Err(Answer::refused(NO_SUCH_LINE, FILE_PROOF, place)),
        None => Ok(turned),
    }
}
