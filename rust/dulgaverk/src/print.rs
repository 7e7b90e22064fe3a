//! A formula as text: a term of SMT-LIB 2, or words. The constants are called r0, r1, ..

use crate::boundary::{self, WriteResult};
use crate::{accepted, Refusal, FORMULA};

/// Most bytes of a text for each byte of the formula.
const FOR_A_BYTE: usize = 6;

/// Most bytes of a printed formula.
pub const TEXT: usize = FOR_A_BYTE * FORMULA;

type Call = unsafe extern "C" fn(*const u8, usize, *mut u8, usize) -> WriteResult;

/// The pointers and lengths are those of Rust slices, and what is lent as `&mut` overlaps nothing else.
fn call(print: Call, formula: &[u8], out: &mut [u8]) -> Result<usize, Refusal> {
    let r = unsafe { print(formula.as_ptr(), formula.len(), out.as_mut_ptr(), out.len()) };
    accepted(r.answer, r.count)
}

fn text(print: Call, formula: &[u8]) -> Result<String, Refusal> {
    let mut out = vec![0; FOR_A_BYTE * formula.len().min(FORMULA)];
    let written = call(print, formula, &mut out)?;
    out.truncate(written);
    // The library gives nothing but ASCII; if it did, that would be a refusal.
    String::from_utf8(out).map_err(|_| Refusal::outside(2, 4, 0))
}

/// The formula as a term of SMT-LIB 2, as other solvers read it, over integer constants r0, r1, ..
///
/// ```
/// // 2 divides y, over x, y, z.
/// let formula = b"\x01\0\x01\x01\x02\0\x01\x03\x35\0\x14\0\0\0\x02\0\0\0\0\0\0\0\x01\0\0\0\0\0\0\0\0";
/// assert_eq!(dulgaverk::print(formula)?, "(= (mod (+ (* 1 r1) 0) 2) 0)");
/// // A stride of 1.
/// let refusal = dulgaverk::print(b"\x01\0\x01\x01\x02\0\x01\x01\x35\0\x0C\0\0\0\x01\0\0\0\x01\0\0\0\0").unwrap_err();
/// assert_eq!((refusal.number, refusal.file, refusal.place), (12, 3, 8));
/// # Ok::<(), dulgaverk::Refusal>(())
/// ```
pub fn print(formula: &[u8]) -> Result<String, Refusal> {
    text(boundary::dulgaverk_print, formula)
}

/// Prints a formula as a term of SMT-LIB 2 into an output, and gives the number of bytes written.
///
/// ```
/// // -3x + 1 ≤ 0.
/// let formula = b"\x01\0\x01\x01\x02\0\x01\x01\x33\0\x08\xFF\xFF\xFF\xFD\0\0\0\x01";
/// let mut out = [b'!'; 28];
/// let refusal = dulgaverk::print_into(formula, &mut out[..24]).unwrap_err();
/// assert_eq!((refusal.number, refusal.file, refusal.place), (21, 4, 25));
/// assert_eq!(dulgaverk::print_into(formula, &mut out), Ok(25));
/// assert_eq!(out, *b"(<= (+ (* (- 3) r0) 1) 0)!!!");
/// ```
pub fn print_into(formula: &[u8], out: &mut [u8]) -> Result<usize, Refusal> {
    call(boundary::dulgaverk_print, formula, out)
}

/// The formula in words, as a technician reads it, over r0, r1, ..
///
/// ```
/// // Stage 5: 2x ≤ 0, or 2 divides 1 and 2x - 1 ≤ 0.
/// let formula = b"\x01\0\x01\x01\x02\0\x01\x01\x31\0\0\x33\0\x08\0\0\0\x02\0\0\0\0\
///     \x32\0\0\x35\0\x0C\0\0\0\x02\0\0\0\0\0\0\0\x01\x33\0\x08\0\0\0\x02\xFF\xFF\xFF\xFF";
/// assert_eq!(dulgaverk::print_words(formula)?, "2*r0 <= 0 or (2 divides 1 and 2*r0 - 1 <= 0)");
/// # Ok::<(), dulgaverk::Refusal>(())
/// ```
pub fn print_words(formula: &[u8]) -> Result<String, Refusal> {
    text(boundary::dulgaverk_print_words, formula)
}

/// Prints a formula in words into an output, and gives the number of bytes written.
///
/// ```
/// // -3x + 1 ≤ 0.
/// let formula = b"\x01\0\x01\x01\x02\0\x01\x01\x33\0\x08\xFF\xFF\xFF\xFD\0\0\0\x01";
/// let mut out = [b'!'; 16];
/// let refusal = dulgaverk::print_words_into(formula, &mut out[..13]).unwrap_err();
/// assert_eq!((refusal.number, refusal.file, refusal.place), (21, 4, 14));
/// assert_eq!(dulgaverk::print_words_into(formula, &mut out), Ok(14));
/// assert_eq!(out, *b"-3*r0 + 1 <= 0!!");
/// ```
pub fn print_words_into(formula: &[u8], out: &mut [u8]) -> Result<usize, Refusal> {
    call(boundary::dulgaverk_print_words, formula, out)
}
