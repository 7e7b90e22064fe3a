//! What is open at a place of a proof: a reading of its own, branch by branch,
//! to count how deep faults stand and to compare the reference with.

use crate::damage::fields;

/// What stands in front of a place of a proof.
#[derive(Clone, PartialEq, Eq, Debug, Default)]
pub struct Spot {
    /// How many rows.
    pub rows: u16,
    /// The steps that are open, each as its row number and its branch, the
    /// outermost first.
    pub open: Vec<(u16, u16)>,
}

/// What is open at a place up to which a proof is right.
pub fn spot(proof: &[u8], place: usize) -> Spot {
    let front = &proof[..place];
    let mut fields = fields(front).into_iter().map(|part| &front[part]);
    let mut found = Spot::default();
    branch(&mut fields, &mut found);
    found
}

/// How many branches a field opens.
pub fn branches(field: &[u8]) -> u16 {
    match field[0] {
        0x13 => 3,
        0x17 => 2,
        // The amount stands last in either edition.
        0x16 => u16::from_be_bytes([field[field.len() - 2], field[field.len() - 1]]) + 1,
        _ => 0,
    }
}

/// Goes through a branch; false where the fields end before it is closed.
fn branch<'a>(fields: &mut impl Iterator<Item = &'a [u8]>, found: &mut Spot) -> bool {
    while let Some(field) = fields.next() {
        let row = found.rows;
        match field[0] {
            0x10..=0x12 => found.rows += 1,
            0x13 | 0x16 | 0x17 => {
                found.rows += 1;
                return (0..branches(field)).all(|number| {
                    found.open.push((row, number));
                    let closed = branch(fields, found);
                    if closed {
                        found.open.pop();
                    }
                    closed
                });
            }
            0x14 | 0x15 => {
                found.rows += 1;
                return true;
            }
            // Header fields, claims and notes are no rows.
            _ => {}
        }
    }
    false
}

/// The most lines on a branch of a proof that is right, over bundles of so many.
pub fn widest(proof: &[u8], lines: usize) -> usize {
    let mut fields = fields(proof).into_iter().map(|part| &proof[part]);
    widest_branch(&mut fields, lines)
}

fn widest_branch<'a>(fields: &mut impl Iterator<Item = &'a [u8]>, mut lines: usize) -> usize {
    while let Some(field) = fields.next() {
        match field[0] {
            0x10..=0x12 => lines += 1,
            0x13 | 0x16 | 0x17 => {
                let each = (0..branches(field)).map(|_| widest_branch(fields, lines + 1));
                return each.max().unwrap_or(lines);
            }
            0x14 | 0x15 => return lines,
            _ => {}
        }
    }
    lines
}
