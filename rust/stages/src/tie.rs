//! The tie between a strengthen and a rounding by 1: where the strengthen's
//! middle branch is only the close of its new line by a stride, the rounding
//! by that stride may stand in its place, with the rows of the other two.

use crate::build::field;
use crate::damage::fields;
use crate::tree::branches;
use std::ops::Range;

/// The proof with a rounding by 1 in the place of every such strengthen, and
/// how many there are. The bundles have so many lines.
pub fn tied(proof: &[u8], lines: usize) -> (Vec<u8>, usize) {
    let mut walk = Walk {
        proof,
        fields: fields(proof),
        next: 0,
        out: Vec::with_capacity(proof.len()),
        ties: 0,
    };
    walk.branch(lines);
    // What comes after the root: notes.
    while walk.copy().is_some() {}
    (walk.out, walk.ties)
}

struct Walk<'a> {
    proof: &'a [u8],
    fields: Vec<Range<usize>>,
    /// The next field to be read.
    next: usize,
    out: Vec<u8>,
    ties: usize,
}

impl<'a> Walk<'a> {
    fn take(&mut self) -> Option<&'a [u8]> {
        let field = &self.proof[self.fields.get(self.next)?.clone()];
        self.next += 1;
        Some(field)
    }

    fn copy(&mut self) -> Option<&'a [u8]> {
        let field = self.take()?;
        self.out.extend_from_slice(field);
        Some(field)
    }

    /// Goes through a branch that starts from so many lines.
    fn branch(&mut self, mut lines: usize) {
        loop {
            let start = self.out.len();
            let Some(row) = self.copy() else {
                return;
            };
            match row[0] {
                0x10..=0x12 => lines += 1,
                0x13 => {
                    self.branch(lines + 1);
                    match self.lone_stride(lines) {
                        Some(g) => {
                            // The line number as it stands, in either edition.
                            let contents = [&row[3..], g, &[0, 1]].concat();
                            let end = start + row.len();
                            self.out.splice(start..end, field(0x16, &contents));
                            self.ties += 1;
                        }
                        None => self.branch(lines + 1),
                    }
                    return self.branch(lines + 1);
                }
                0x14 | 0x15 => return,
                0x16 | 0x17 => {
                    return (0..branches(row)).for_each(|_| self.branch(lines + 1));
                }
                // Header fields, claims and notes.
                _ => {}
            }
        }
    }

    /// Passes over a branch that is only the close of a line by a stride, and
    /// gives the stride's two bytes.
    fn lone_stride(&mut self, line: usize) -> Option<&'a [u8]> {
        let start = self.next;
        let field = loop {
            match self.take()? {
                [0x80..=0xFF, ..] => {}
                field => break field,
            }
        };
        if field[0] == 0x15 {
            let (t, g) = field[3..].split_at(field.len() - 5);
            let named = t.iter().fold(0, |t, &byte| 256 * t + usize::from(byte));
            if named == line {
                return Some(g);
            }
        }
        self.next = start;
        None
    }
}
