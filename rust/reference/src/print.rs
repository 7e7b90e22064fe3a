//! Printing a formula: as a term of SMT-LIB 2 over the integer constants r0,
//! r1, .., and in words.
//!
//! The file has each part before the parts that it is made of, so the text only
//! ever grows: the and/ors around the place that has been reached are kept, and
//! what stands between and behind their parts is put down when they are due.

use crate::answer::*;
use crate::bundle::{length_within, WriteResult};
use crate::edition::Edition;
use crate::field::{signed_long, Fields};
use crate::formula::{
    is_known, test_formula, TAG_AND, TAG_EQUALITY, TAG_INEQUALITY, TAG_OR, TAG_STRIDE,
};
use crate::header::{read_constants, read_edition, HeaderFault};
use crate::limits;

/// Writes a formula as a term of SMT-LIB 2.
pub fn print(formula: &[u8], out: &mut [u8]) -> WriteResult {
    write(formula, &SmtLib, out)
}

/// Writes a formula in words.
pub fn print_words(formula: &[u8], out: &mut [u8]) -> WriteResult {
    write(formula, &Words, out)
}

fn write(formula: &[u8], style: &impl Style, out: &mut [u8]) -> WriteResult {
    let text = match text(formula, style) {
        Ok(text) => text,
        Err(answer) => return WriteResult::refused(answer),
    };
    let needed = text.len();
    match out.get_mut(..needed) {
        Some(part) => {
            part.copy_from_slice(&text);
            WriteResult::accepted(needed)
        }
        None => WriteResult::refused(Answer::refused(OUTPUT_TOO_SHORT, FILE_OUTPUT, needed)),
    }
}

/// The text of a formula, however long.
fn text(formula: &[u8], style: &impl Style) -> Result<Vec<u8>, Answer> {
    length_within(formula, limits::FORMULA_BYTES, FILE_PROOF)?;
    let header_fault =
        |HeaderFault(number, place): HeaderFault| Answer::refused(number, FILE_PROOF, place);
    let mut fields = Fields::of(formula);
    read_edition(&mut fields, is_known, &[Edition::One]).map_err(header_fault)?;
    let k = read_constants(&mut fields, is_known, None).map_err(header_fault)?;
    // What else is wrong with it is wrong in a test at any K values.
    let tested = test_formula(formula, &[0; limits::CONSTANTS][..k]).answer;
    if tested != Answer::ACCEPTED {
        return Err(tested);
    }
    let mut text = Vec::with_capacity(6 * formula.len());
    // The and/ors around this place, each with whether its first part is there.
    let mut around: Vec<(Junction, bool)> = Vec::new();
    while let Ok(Some(field)) = fields.take() {
        // At most a stride, 16 coefficients and d.
        let mut numbers = [0; limits::CONSTANTS + 2];
        for (slot, bytes) in numbers.iter_mut().zip(field.contents.chunks_exact(4)) {
            *slot = signed_long(bytes);
        }
        match (field.tag, &numbers[..field.contents.len() / 4]) {
            (TAG_OR, _) => {
                style.open(&mut text, Junction::Or, around.len());
                around.push((Junction::Or, false));
                continue;
            }
            (TAG_AND, _) => {
                style.open(&mut text, Junction::And, around.len());
                around.push((Junction::And, false));
                continue;
            }
            (TAG_INEQUALITY, form) => style.comparison(&mut text, "<=", form),
            (TAG_EQUALITY, form) => style.comparison(&mut text, "=", form),
            (TAG_STRIDE, [g, form @ ..]) => style.stride(&mut text, *g, form),
            // The test lets nothing else through.
            _ => {}
        }
        // A part is complete, and perhaps those that it is the last of.
        while let Some((junction, first_is_there)) = around.last_mut() {
            if !*first_is_there {
                *first_is_there = true;
                style.between(&mut text, *junction);
                break;
            }
            around.pop();
            style.close(&mut text, around.len());
        }
    }
    Ok(text)
}

#[derive(Clone, Copy)]
enum Junction {
    Or,
    And,
}

impl Junction {
    fn word(self) -> &'static str {
        match self {
            Junction::Or => "or",
            Junction::And => "and",
        }
    }
}

/// How the parts of a formula are written. `level` is the number of and/ors
/// around one.
trait Style {
    /// Before the first part of an and/or.
    fn open(&self, text: &mut Vec<u8>, junction: Junction, level: usize);
    /// Between its two parts.
    fn between(&self, text: &mut Vec<u8>, junction: Junction);
    /// Behind the second.
    fn close(&self, text: &mut Vec<u8>, level: usize);
    /// "form ≤ 0" or "form = 0". The form is K coefficients and d.
    fn comparison(&self, text: &mut Vec<u8>, sign: &str, form: &[i32]);
    /// "g divides the form".
    fn stride(&self, text: &mut Vec<u8>, g: i32, form: &[i32]);
}

/// A term: each operator in front of its operands, in parentheses.
struct SmtLib;

impl Style for SmtLib {
    fn open(&self, text: &mut Vec<u8>, junction: Junction, _: usize) {
        text.push(b'(');
        text.extend_from_slice(junction.word().as_bytes());
        text.push(b' ');
    }

    fn between(&self, text: &mut Vec<u8>, _: Junction) {
        text.push(b' ');
    }

    fn close(&self, text: &mut Vec<u8>, _: usize) {
        text.push(b')');
    }

    fn comparison(&self, text: &mut Vec<u8>, sign: &str, form: &[i32]) {
        text.push(b'(');
        text.extend_from_slice(sign.as_bytes());
        text.push(b' ');
        push_term(text, form);
        text.extend_from_slice(b" 0)");
    }

    fn stride(&self, text: &mut Vec<u8>, g: i32, form: &[i32]) {
        text.extend_from_slice(b"(= (mod ");
        push_term(text, form);
        text.push(b' ');
        push_integer(text, g);
        text.extend_from_slice(b") 0)");
    }
}

/// A form as a sum: each coefficient that is not 0 with its constant, then d; d
/// alone where all are 0.
fn push_term(text: &mut Vec<u8>, form: &[i32]) {
    let Some((&d, coefficients)) = form.split_last() else {
        return;
    };
    if coefficients.iter().all(|&c| c == 0) {
        push_integer(text, d);
        return;
    }
    text.extend_from_slice(b"(+ ");
    for (constant, &coefficient) in coefficients.iter().enumerate() {
        if coefficient != 0 {
            text.extend_from_slice(b"(* ");
            push_integer(text, coefficient);
            text.push(b' ');
            push_constant(text, constant);
            text.extend_from_slice(b") ");
        }
    }
    push_integer(text, d);
    text.push(b')');
}

/// A number as a term: SMT-LIB has no numerals below 0, only their negation.
fn push_integer(text: &mut Vec<u8>, number: i32) {
    if number < 0 {
        text.extend_from_slice(b"(- ");
        push_natural(text, number.unsigned_abs());
        text.push(b')');
    } else {
        push_natural(text, number.unsigned_abs());
    }
}

/// Operators between their operands, and parentheses around each and/or that is
/// a part of another.
struct Words;

impl Style for Words {
    fn open(&self, text: &mut Vec<u8>, _: Junction, level: usize) {
        if level > 0 {
            text.push(b'(');
        }
    }

    fn between(&self, text: &mut Vec<u8>, junction: Junction) {
        text.push(b' ');
        text.extend_from_slice(junction.word().as_bytes());
        text.push(b' ');
    }

    fn close(&self, text: &mut Vec<u8>, level: usize) {
        if level > 0 {
            text.push(b')');
        }
    }

    fn comparison(&self, text: &mut Vec<u8>, sign: &str, form: &[i32]) {
        push_sum(text, form);
        text.push(b' ');
        text.extend_from_slice(sign.as_bytes());
        text.extend_from_slice(b" 0");
    }

    fn stride(&self, text: &mut Vec<u8>, g: i32, form: &[i32]) {
        push_natural(text, g.unsigned_abs());
        text.extend_from_slice(b" divides ");
        push_sum(text, form);
    }
}

/// A form as a sum: what is 0 is left out, unless all is.
fn push_sum(text: &mut Vec<u8>, form: &[i32]) {
    let start = text.len();
    let d = form.len().saturating_sub(1);
    for (place, &number) in form.iter().enumerate() {
        if number == 0 && (place < d || text.len() > start) {
            continue;
        }
        let sign = match (text.len() > start, number < 0) {
            (false, false) => "",
            (false, true) => "-",
            (true, false) => " + ",
            (true, true) => " - ",
        };
        text.extend_from_slice(sign.as_bytes());
        push_natural(text, number.unsigned_abs());
        if place < d {
            text.push(b'*');
            push_constant(text, place);
        }
    }
}

/// The name of a constant.
fn push_constant(text: &mut Vec<u8>, constant: usize) {
    text.push(b'r');
    // At most 15.
    push_natural(text, constant as u32);
}

/// Decimal digits.
fn push_natural(text: &mut Vec<u8>, mut number: u32) {
    let mut digits = [0; 10];
    let mut first = digits.len();
    loop {
        first -= 1;
        digits[first] = b'0' + (number % 10) as u8;
        number /= 10;
        if number == 0 {
            break;
        }
    }
    text.extend_from_slice(&digits[first..]);
}
