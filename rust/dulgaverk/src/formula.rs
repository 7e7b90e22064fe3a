//! A formula as a tree.

use crate::{print_words, Refusal};
use std::fmt;

/// A formula's file, read. It is shown in the library's own words, those of [`print_words`].
///
/// ```
/// use dulgaverk::{Form, Formula, Part};
/// // Stage 5: 2x ≤ 0, or 2 divides 1 and 2x - 1 ≤ 0.
/// let file = b"\x01\0\x01\x01\x02\0\x01\x01\x31\0\0\x33\0\x08\0\0\0\x02\0\0\0\0\
///     \x32\0\0\x35\0\x0C\0\0\0\x02\0\0\0\0\0\0\0\x01\x33\0\x08\0\0\0\x02\xFF\xFF\xFF\xFF";
/// let formula = Formula::read(file)?;
/// assert_eq!(formula.to_string(), "2*r0 <= 0 or (2 divides 1 and 2*r0 - 1 <= 0)");
/// let Part::Or(left, _) = formula.root() else { panic!() };
/// assert_eq!(**left, Part::AtMost(Form { coefficients: vec![2], d: 0 }));
///
/// // A stride of 1.
/// let file = b"\x01\0\x01\x01\x02\0\x01\x01\x35\0\x0C\0\0\0\x01\0\0\0\x01\0\0\0\0";
/// assert_eq!(Formula::read(file), Err(dulgaverk::Refusal::outside(12, 3, 8)));
/// # Ok::<(), dulgaverk::Refusal>(())
/// ```
#[derive(Clone, PartialEq, Eq, Debug)]
pub struct Formula {
    constants: usize,
    root: Part,
    words: String,
}

/// A part of a formula.
#[derive(Clone, PartialEq, Eq, Debug)]
pub enum Part {
    /// 0x31: true where one of them is.
    Or(Box<Part>, Box<Part>),
    /// 0x32: true where both are.
    And(Box<Part>, Box<Part>),
    /// 0x33: t ≤ 0
    AtMost(Form),
    /// 0x34: t = 0
    Equal(Form),
    /// 0x35: the number, at least 2, divides t.
    Divides(i32, Form),
}

/// The sum of each coefficient times its constant, and d.
#[derive(Clone, PartialEq, Eq, Debug)]
pub struct Form {
    pub coefficients: Vec<i32>,
    pub d: i32,
}

impl Formula {
    /// Reads a formula that testing accepts at as many values as it has constants; every other is refused as
    /// [`print_words`] refuses it.
    pub fn read(file: &[u8]) -> Result<Formula, Refusal> {
        let words = print_words(file)?;
        // The library accepts nothing that has no tree; if it did, that would be a refusal.
        let mut fields = Fields(file).filter(|field| field.0 < 0x80);
        let read = header(&mut fields).and_then(|constants| Some((constants, part(&mut fields)?)));
        let (constants, root) = read.ok_or(Refusal::outside(2, 4, 0))?;
        Ok(Formula {
            constants,
            root,
            words,
        })
    }

    /// The number of constants, 1 to 16.
    pub fn constants(&self) -> usize {
        self.constants
    }

    /// The whole formula's part. At most 600 levels of and/or are below it.
    pub fn root(&self) -> &Part {
        &self.root
    }
}

impl fmt::Display for Formula {
    fn fmt(&self, f: &mut fmt::Formatter<'_>) -> fmt::Result {
        f.write_str(&self.words)
    }
}

/// The tag and contents of one field after the other, as long as they are whole.
struct Fields<'a>(&'a [u8]);

impl<'a> Iterator for Fields<'a> {
    type Item = (u8, &'a [u8]);

    fn next(&mut self) -> Option<(u8, &'a [u8])> {
        let (&[tag, high, low], rest) = self.0.split_first_chunk()?;
        let (contents, rest) = rest.split_at_checked(u16::from_be_bytes([high, low]).into())?;
        self.0 = rest;
        Some((tag, contents))
    }
}

fn header<'a>(fields: &mut impl Iterator<Item = (u8, &'a [u8])>) -> Option<usize> {
    match (fields.next()?, fields.next()?) {
        ((1, [_]), (2, &[k])) => Some(k.into()),
        _ => None,
    }
}

/// Each part stands before the parts that it is made of.
fn part<'a>(fields: &mut impl Iterator<Item = (u8, &'a [u8])>) -> Option<Part> {
    let (tag, contents) = fields.next()?;
    let mut two = || Some((Box::new(part(fields)?), Box::new(part(fields)?)));
    let numbers = numbers(contents);
    match tag {
        0x31 => two().map(|(left, right)| Part::Or(left, right)),
        0x32 => two().map(|(left, right)| Part::And(left, right)),
        0x33 => Some(Part::AtMost(form(&numbers)?)),
        0x34 => Some(Part::Equal(form(&numbers)?)),
        0x35 => {
            let (&g, numbers) = numbers.split_first()?;
            Some(Part::Divides(g, form(numbers)?))
        }
        _ => None,
    }
}

fn numbers(contents: &[u8]) -> Vec<i32> {
    let number = |bytes: &[u8]| bytes.iter().fold(0, |n, &byte| n << 8 | i32::from(byte));
    contents.chunks(4).map(number).collect()
}

fn form(numbers: &[i32]) -> Option<Form> {
    let (&d, coefficients) = numbers.split_last()?;
    let coefficients = coefficients.to_vec();
    Some(Form { coefficients, d })
}
