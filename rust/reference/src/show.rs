//! Showing a constraint: its field, out of the bundle that holds it.

use crate::answer::*;
use crate::bundle::{length_within, Bundle};
use crate::limits;

/// The field (header and contents) of the constraint that a line number
/// means; on refusal the empty part at A's start.
pub fn show<'a>(a: &'a [u8], b: &'a [u8], line: usize) -> &'a [u8] {
    find(a, b, line).unwrap_or(&a[..0])
}

/// The answer to the same input.
pub fn show_answer(a: &[u8], b: &[u8], line: usize) -> Answer {
    match find(a, b, line) {
        Ok(_) => Answer::ACCEPTED,
        Err(answer) => answer,
    }
}

fn find<'a>(a: &'a [u8], b: &'a [u8], line: usize) -> Result<&'a [u8], Answer> {
    length_within(a, limits::BUNDLE_BYTES, FILE_A)?;
    length_within(b, limits::BUNDLE_BYTES, FILE_B)?;
    let a = Bundle::read(a, FILE_A, None)?;
    let b = Bundle::read(b, FILE_B, Some(a.k))?;
    let field = if line < a.count() {
        a.field(line)
    } else {
        b.field(line - a.count())
    };
    field.ok_or(Answer::refused(NO_SUCH_LINE, FILE_A, 0))
}
