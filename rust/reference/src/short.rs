//! All short proofs of two bundles: document 02's point 14.
//!
//! Every table that could be one is put to the checker, and those that it
//! accepts are sorted. (`search` finds the next one without making them all.)

use crate::answer::*;
use crate::bundle::{length_within, Bundle, WriteResult};
use crate::check::{check, CLOSE_BY_NUMBER, CLOSE_BY_STRIDE, COMBINE, REDUCE, SCALE, STRENGTHEN};
use crate::edition::Edition;
use crate::field::push_field_header;
use crate::header::header_bytes;
use crate::limits;

/// Most constraints of A and B together.
pub(crate) const CONSTRAINTS: usize = 4;
/// Most rows of a short proof.
pub(crate) const ROWS: usize = 3;
/// The multipliers of a combine and a scale, and those of a reduce.
const MULTIPLIERS: [i16; 2] = [1, 2];
const SIGNED_MULTIPLIERS: [i16; 4] = [1, 2, -1, -2];
/// The strides of a close.
const STRIDES: [i16; 3] = [2, 3, 4];

/// The short proofs of two bundles.
#[derive(Clone, PartialEq, Eq, Debug)]
pub struct ShortProofs {
    header: [u8; 8],
    /// By number of rows, and then by bytes.
    tables: Vec<Vec<u8>>,
}

impl ShortProofs {
    /// All of them, or what check refuses of A and B, or 8 for a fifth
    /// constraint in both.
    pub fn of(a: &[u8], b: &[u8]) -> Result<ShortProofs, Answer> {
        let (first, second) = pair(a, b)?;
        let lines = first.count() + second.count();
        // K is at most 16.
        let header = header_bytes(Edition::One, first.k as u8);
        let mut out = vec![0; limits::FORMULA_BYTES];
        let mut tables = Vec::new();
        let mut open = vec![header.to_vec()];
        for before in 0..ROWS {
            // Each row before made one line at most, and a row that names a line
            // that is not there is refused.
            let rows = rows(lines + before);
            let (mut closed, mut longer) = (Vec::new(), Vec::new());
            for table in &open {
                for row in &rows {
                    let next = [table.as_slice(), row].concat();
                    match check(a, b, &next, &mut out).answer.number {
                        0 => closed.push(next),
                        STILL_OPEN => longer.push(next),
                        // Its last row is refused, in whatever longer table too.
                        _ => {}
                    }
                }
            }
            closed.sort();
            tables.append(&mut closed);
            open = longer;
        }
        Ok(ShortProofs { header, tables })
    }

    /// By number of rows, and then by bytes.
    pub fn tables(&self) -> &[Vec<u8>] {
        &self.tables
    }

    /// Writes the one after the given, or the first if only the header is given.
    pub fn next(&self, table: &[u8], out: &mut [u8]) -> WriteResult {
        let next = if table == self.header {
            Some(0)
        } else {
            let place = self.tables.iter().position(|one| one == table);
            place.map(|place| place + 1)
        };
        let output = |number, place| Answer::refused(number, FILE_OUTPUT, place);
        let Some(next) = next else {
            return WriteResult::refused(output(NO_SHORT_PROOF, 0));
        };
        let Some(next) = self.tables.get(next) else {
            return WriteResult::refused(output(NO_NEXT, 0));
        };
        match out.get_mut(..next.len()) {
            Some(part) => {
                part.copy_from_slice(next);
                WriteResult::accepted(next.len())
            }
            None => WriteResult::refused(output(OUTPUT_TOO_SHORT, next.len())),
        }
    }
}

/// Writes the short proof after the given one, or the first if only the header
/// is given.
pub fn next_proof(a: &[u8], b: &[u8], table: &[u8], out: &mut [u8]) -> WriteResult {
    match ShortProofs::of(a, b) {
        Ok(proofs) => proofs.next(table, out),
        Err(answer) => WriteResult::refused(answer),
    }
}

/// The two bundles, if check takes them and they have at most four constraints
/// together.
pub(crate) fn pair<'a>(a: &'a [u8], b: &'a [u8]) -> Result<(Bundle<'a>, Bundle<'a>), Answer> {
    length_within(a, limits::BUNDLE_BYTES, FILE_A)?;
    length_within(b, limits::BUNDLE_BYTES, FILE_B)?;
    let a = Bundle::read(a, FILE_A, None)?;
    let b = Bundle::read(b, FILE_B, Some(a.k))?;
    if a.count() + b.count() > CONSTRAINTS {
        return Err(Answer::refused(TOO_MANY_CONSTRAINTS, FILE_OUTPUT, 0));
    }
    Ok((a, b))
}

/// Every row of document 01 with these multipliers and strides that names lines
/// below a number.
fn rows(lines: usize) -> Vec<Vec<u8>> {
    let mut rows = Vec::new();
    let mut push = |tag, lines: &[usize], numbers: &[i16]| {
        let mut row = Vec::new();
        push_field_header(&mut row, tag, (lines.len() + 2 * numbers.len()) as u16);
        // Below six.
        row.extend(lines.iter().map(|&line| line as u8));
        row.extend(numbers.iter().flat_map(|number| number.to_be_bytes()));
        rows.push(row);
    };
    for t in 0..lines {
        for s in 0..lines {
            for alpha in MULTIPLIERS {
                for beta in MULTIPLIERS {
                    push(COMBINE, &[s, t], &[alpha, beta]);
                }
            }
            for alpha in SIGNED_MULTIPLIERS {
                push(REDUCE, &[s, t], &[alpha]);
            }
        }
        for alpha in MULTIPLIERS {
            push(SCALE, &[t], &[alpha]);
        }
        push(STRENGTHEN, &[t], &[]);
        push(CLOSE_BY_NUMBER, &[t], &[]);
        for g in STRIDES {
            push(CLOSE_BY_STRIDE, &[t], &[g]);
        }
    }
    rows
}
