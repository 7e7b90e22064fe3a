//! Formulas: the parts that a check writes, and testing one at register values.

use crate::answer::*;
use crate::bundle::length_within;
use crate::edition::Edition;
use crate::field::{push_field_header, signed_long, Fields, Unfinished};
use crate::header::{read_constants, read_edition, HeaderFault, TAG_CONSTANTS, TAG_EDITION};
use crate::limits;

pub(crate) const TAG_OR: u8 = 0x31;
pub(crate) const TAG_AND: u8 = 0x32;
pub(crate) const TAG_INEQUALITY: u8 = 0x33;
pub(crate) const TAG_EQUALITY: u8 = 0x34;
pub(crate) const TAG_STRIDE: u8 = 0x35;

/// Appends "or" or "and"; its two formulas follow.
pub(crate) fn push_junction(out: &mut Vec<u8>, tag: u8) {
    push_field_header(out, tag, 0);
}

/// Appends "form = 0" or "form ≤ 0". The form is K coefficients and d.
pub(crate) fn push_comparison(out: &mut Vec<u8>, equality: bool, form: &[i32]) {
    let tag = if equality {
        TAG_EQUALITY
    } else {
        TAG_INEQUALITY
    };
    push_field_header(out, tag, 4 * form.len() as u16);
    push_form(out, form);
}

/// Appends the numbers of a form, at most 17, at one stroke.
fn push_form(out: &mut Vec<u8>, form: &[i32]) {
    let mut bytes = [0; 4 * (limits::CONSTANTS + 1)];
    for (slot, number) in bytes.chunks_exact_mut(4).zip(form) {
        slot.copy_from_slice(&number.to_be_bytes());
    }
    out.extend_from_slice(&bytes[..4 * form.len()]);
}

/// The bytes of "g divides the form", for a form of so many numbers.
pub(crate) fn stride_bytes(numbers: usize) -> usize {
    3 + 4 + 4 * numbers
}

/// Appends "g divides the form", given as its numbers.
pub(crate) fn push_stride(out: &mut Vec<u8>, g: u16, form: &[i32]) {
    push_field_header(out, TAG_STRIDE, 4 + 4 * form.len() as u16);
    out.extend_from_slice(&i32::from(g).to_be_bytes());
    push_form(out, form);
}

/// What testing a formula gives; `holds` is false on refusal.
#[derive(Clone, Copy, PartialEq, Eq, Debug)]
pub struct TestResult {
    pub answer: Answer,
    pub holds: bool,
}

/// Tests a formula at K register values.
pub fn test_formula(formula: &[u8], values: &[i32]) -> TestResult {
    match judge(formula, values) {
        Ok(holds) => TestResult {
            answer: Answer::ACCEPTED,
            holds,
        },
        Err(answer) => TestResult {
            answer,
            holds: false,
        },
    }
}

/// An and/or some of whose two parts are still to come, in one byte, as there
/// are many levels to make room for.
#[derive(Clone, Copy)]
struct Junction(u8);

impl Junction {
    const AND: u8 = 1;
    /// The first part is read; was it true?
    const READ: u8 = 2;
    const TRUE: u8 = 4;

    fn new(and: bool) -> Junction {
        Junction(if and { Junction::AND } else { 0 })
    }

    fn has(self, bit: u8) -> bool {
        self.0 & bit != 0
    }
}

/// The and/ors around the place that has been reached. Their number is the
/// level there, since each goes as soon as its second part is complete.
struct Junctions {
    open: [Junction; limits::LEVELS],
    level: usize,
}

impl Junctions {
    fn none() -> Junctions {
        Junctions {
            open: [Junction(0); limits::LEVELS],
            level: 0,
        }
    }

    /// Goes one level down; not possible at the last level.
    fn enter(&mut self, and: bool) -> bool {
        match self.open.get_mut(self.level) {
            Some(slot) => {
                *slot = Junction::new(and);
                self.level += 1;
                true
            }
            None => false,
        }
    }

    /// Takes the value of a complete part. Gives the whole formula's value if
    /// this completes it.
    fn complete(&mut self, mut value: bool) -> Option<bool> {
        while self.level > 0 {
            let junction = &mut self.open[self.level - 1];
            if !junction.has(Junction::READ) {
                let first = if value { Junction::TRUE } else { 0 };
                junction.0 |= Junction::READ | first;
                return None;
            }
            let first = junction.has(Junction::TRUE);
            value = if junction.has(Junction::AND) {
                value & first
            } else {
                value | first
            };
            self.level -= 1;
        }
        Some(value)
    }
}

fn judge(formula: &[u8], values: &[i32]) -> Result<bool, Answer> {
    let k = values.len();
    if k == 0 || k > limits::CONSTANTS {
        return Err(Answer::refused(WRONG_K, FILE_OUTPUT, 0));
    }
    let outside = |value: &i32| !(-limits::VALUE..=limits::VALUE).contains(value);
    if let Some(index) = values.iter().position(outside) {
        return Err(Answer::refused(VALUE_OUT_OF_RANGE, FILE_OUTPUT, index));
    }
    length_within(formula, limits::FORMULA_BYTES, FILE_PROOF)?;

    let header_fault =
        |HeaderFault(number, place): HeaderFault| Answer::refused(number, FILE_PROOF, place);
    let mut fields = Fields::of(formula);
    // A formula is written in the first edition, whatever its proof is in.
    read_edition(&mut fields, is_known, &[Edition::One]).map_err(header_fault)?;
    // Its K is the number of values, or it is refused.
    read_constants(&mut fields, is_known, Some(k)).map_err(header_fault)?;
    // Their room is made when the first comes: a formula of one part needs none.
    let mut junctions: Option<Junctions> = None;
    // The whole formula's value, once it is complete.
    let mut verdict = None;
    loop {
        let field = match fields.take() {
            Ok(Some(field)) => field,
            Ok(None) => break,
            Err(Unfinished(place)) => return Err(Answer::refused(NOT_WHOLE, FILE_PROOF, place)),
        };
        let refuse = |number| Err(Answer::refused(number, FILE_PROOF, field.place));
        let form_bytes = 4 * (k + 1);
        let length = match field.tag {
            TAG_EDITION | TAG_CONSTANTS => None,
            TAG_OR | TAG_AND => Some(0),
            TAG_INEQUALITY | TAG_EQUALITY => Some(form_bytes),
            TAG_STRIDE => Some(4 + form_bytes),
            _ => return refuse(UNKNOWN_TAG),
        };
        if verdict.is_some() {
            return refuse(AFTER_THE_END);
        }
        // The header is read.
        let Some(length) = length else {
            return refuse(OUT_OF_PLACE);
        };
        if field.contents.len() != length {
            return refuse(WRONG_LENGTH);
        }
        let part = match field.tag {
            TAG_OR | TAG_AND => {
                let junctions = junctions.get_or_insert_with(Junctions::none);
                if !junctions.enter(field.tag == TAG_AND) {
                    return refuse(TOO_DEEP);
                }
                continue;
            }
            TAG_INEQUALITY => value_of(field.contents, values) <= 0,
            TAG_EQUALITY => value_of(field.contents, values) == 0,
            _ => {
                let (g, form) = field.contents.split_at(4);
                let g = i64::from(signed_long(g));
                if g < 2 {
                    return refuse(WRONG_MULTIPLIER);
                }
                value_of(form, values) % g == 0
            }
        };
        verdict = match &mut junctions {
            Some(junctions) => junctions.complete(part),
            None => Some(part),
        };
    }
    // A file that ends before its formula is complete.
    verdict.ok_or(Answer::refused(NOT_WHOLE, FILE_PROOF, formula.len()))
}

/// Whether formulas have the tag.
pub(crate) fn is_known(tag: u8) -> bool {
    matches!(tag, TAG_EDITION | TAG_CONSTANTS | TAG_OR..=TAG_STRIDE)
}

/// The value of a form, given as K coefficients and d of four bytes each.
///
/// Nothing overflows: a coefficient is within ±2^31 and a value within
/// ±2^20, so 16 products and d stay within ±2^56.
fn value_of(form: &[u8], values: &[i32]) -> i64 {
    let mut numbers = form
        .chunks_exact(4)
        .map(|bytes| i64::from(signed_long(bytes)));
    let sum: i64 = values
        .iter()
        .zip(numbers.by_ref())
        .map(|(&value, coefficient)| i64::from(value) * coefficient)
        .sum();
    sum + numbers.next().unwrap_or(0)
}
