//! The verified operations, with ordinary Rust types.
//!
//! Each comes in two shapes: one that gives what it makes, and one, ending in `_into`, that is lent the outputs.
//! A refusal says by which number, in which file and at which place, and of a proof also in which row and branch
//! ([`Refusal`]); it leaves every lent output as it was. Accepted, what lies behind the bytes or numbers used stays.
//! Nothing has to be tested before a call.

mod boundary;
mod bundle;
mod edition;
mod formula;
mod guards;
mod kind;
mod print;
mod proof;
mod refusal;
mod scheduler;
mod short;
mod shorten;

pub use edition::Edition;
pub use formula::{Form, Formula, Part};
pub use guards::{guards, guards_into};
pub use kind::Kind;
pub use print::{print, print_into, print_words, print_words_into, TEXT};
pub use proof::ProofWriter;
pub use refusal::{Refusal, MEANINGS};
pub use scheduler::{Job, Scheduler, Served};
pub use short::{next_proof, next_proof_into, short_proofs, ShortProofs, SHORT_PROOF};
pub use shorten::{shorten, shorten_into, RowUse, Shortened, ShortenedSizes};

/// Most constants of a file.
pub const CONSTANTS: usize = 16;
/// Most constraints of a bundle.
pub const CONSTRAINTS: usize = 32;
/// Most numbers of a bundle.
pub const NUMBERS: usize = CONSTRAINTS * (CONSTANTS + 1);
/// Most bytes that writing a bundle takes, in edition 2.
pub const WRITTEN_BUNDLE: usize = 8 + CONSTRAINTS * 3 + NUMBERS * 4;
/// Most bytes of a constraint's field, in edition 2.
pub const CONSTRAINT_FIELD: usize = 3 + 4 * (CONSTANTS + 1);
/// Most bytes of a bundle, in edition 2; half as many in edition 1.
pub const BUNDLE: usize = 8_192;
/// Most bytes of a proof.
pub const PROOF: usize = 65_536;
/// Most bytes of a formula.
pub const FORMULA: usize = 65_536;
/// The largest register value; the least is as far below 0.
pub const VALUE: i32 = 1_000_000;
/// Most rows of a proof.
pub const ROWS: usize = 1_024;
/// Most stages of a run.
pub const STAGES: usize = 16;

/// How much a bundle holds, and of which edition it is.
#[derive(Clone, Copy, PartialEq, Eq, Debug)]
pub struct Counts {
    pub constraints: usize,
    pub constants: usize,
    pub edition: Edition,
}

/// What a bundle holds: for each constraint its kind and K+1 numbers, the coefficients and d.
#[derive(Clone, PartialEq, Eq, Debug)]
pub struct Bundle {
    pub edition: Edition,
    pub constants: usize,
    pub kinds: Vec<Kind>,
    pub numbers: Vec<i32>,
}

/// Accepted is 0, 0, 0 and no row, step or branch. The library gives nothing else with the number 0; if it did, that
/// would be handed on, so that a comparison sees it.
fn accepted<T>(answer: boundary::Answer, value: T) -> Result<T, Refusal> {
    let there = |number: u16| (number != boundary::NONE).then_some(number);
    let refusal = Refusal {
        number: answer.number,
        file: answer.file,
        place: answer.place,
        row: there(answer.row),
        step: there(answer.step),
        branch: there(answer.branch),
    };
    if refusal == Refusal::outside(0, 0, 0) {
        return Ok(value);
    }
    Err(refusal)
}

// In each call below the pointers and lengths are those of Rust slices, and what is lent as `&mut` overlaps nothing
// else: that is all that the proved functions count on.

/// Reads a bundle.
///
/// ```
/// use dulgaverk::{Edition, Kind};
/// // x - 2 ≤ 0 and 3x ≠ 0.
/// let file = b"\x01\0\x01\x01\x02\0\x01\x01\x03\0\x04\0\x01\xFF\xFE\x05\0\x04\0\x03\0\0";
/// let bundle = dulgaverk::read_bundle(file)?;
/// assert_eq!((bundle.edition, bundle.constants), (Edition::One, 1));
/// assert_eq!(bundle.kinds, [Kind::Inequality, Kind::Disequality]);
/// assert_eq!(bundle.numbers, [1, -2, 3, 0]);
///
/// // -x + 40,000 ≤ 0 in edition 2.
/// let file = b"\x01\0\x01\x02\x02\0\x01\x01\x03\0\x08\xFF\xFF\xFF\xFF\0\0\x9C\x40";
/// let bundle = dulgaverk::read_bundle(file)?;
/// assert_eq!((bundle.edition, bundle.numbers), (Edition::Two, vec![-1, 40_000]));
/// # Ok::<(), dulgaverk::Refusal>(())
/// ```
pub fn read_bundle(file: &[u8]) -> Result<Bundle, Refusal> {
    let (mut kinds, mut numbers) = (vec![0; CONSTRAINTS], vec![0; NUMBERS]);
    let counts = read_bundle_into(file, &mut kinds, &mut numbers)?;
    // The library gives no kind but these; if it did, that would be a refusal.
    let kind = |(index, &number): (usize, &u8)| {
        Kind::numbered(number).ok_or(Refusal::outside(24, 4, index))
    };
    let kinds = kinds[..counts.constraints]
        .iter()
        .enumerate()
        .map(kind)
        .collect::<Result<Vec<Kind>, Refusal>>()?;
    numbers.truncate(counts.constraints * (counts.constants + 1));
    Ok(Bundle {
        edition: counts.edition,
        constants: counts.constants,
        kinds,
        numbers,
    })
}

/// Reads a bundle into the numbers of kinds ([`Kind::number`]) and K+1 numbers for each constraint.
///
/// ```
/// let file = b"\x01\0\x01\x01\x02\0\x01\x01\x04\0\x04\0\x03\xFF\xFF";
/// let (mut kinds, mut numbers) = ([9; 4], [9; 4]);
/// let counts = dulgaverk::read_bundle_into(file, &mut kinds, &mut numbers)?;
/// assert_eq!((counts.constraints, counts.constants), (1, 1));
/// assert_eq!((kinds, numbers), ([1, 9, 9, 9], [3, -1, 9, 9]));
/// let refusal = dulgaverk::read_bundle_into(file, &mut kinds, &mut numbers[..1]).unwrap_err();
/// assert_eq!((refusal.number, refusal.file, refusal.place), (21, 4, 1));
/// # Ok::<(), dulgaverk::Refusal>(())
/// ```
pub fn read_bundle_into(
    file: &[u8],
    kinds: &mut [u8],
    numbers: &mut [i32],
) -> Result<Counts, Refusal> {
    let r = unsafe {
        boundary::dulgaverk_read(
            file.as_ptr(),
            file.len(),
            kinds.as_mut_ptr(),
            kinds.len(),
            numbers.as_mut_ptr(),
            numbers.len(),
        )
    };
    accepted(r.answer, ())?;
    // The library accepts no other edition; if it did, that would be a refusal.
    let edition = Edition::numbered(r.edition).ok_or(Refusal::outside(5, 4, 0))?;
    Ok(Counts {
        constraints: r.count,
        constants: usize::from(r.k),
        edition,
    })
}

/// Writes a bundle of an edition over K constants from kinds and K+1 numbers for each constraint.
///
/// ```
/// use dulgaverk::{Edition, Kind};
/// let file = dulgaverk::write_bundle(Edition::One, 1, &[Kind::Equality], &[3, -1])?;
/// assert_eq!(file, b"\x01\0\x01\x01\x02\0\x01\x01\x04\0\x04\0\x03\xFF\xFF");
/// let refusal = dulgaverk::write_bundle(Edition::One, 1, &[Kind::Equality], &[3]).unwrap_err();
/// assert_eq!((refusal.number, refusal.file, refusal.place), (24, 4, 1));
///
/// // Two bytes cannot hold 40,000, four can.
/// let refusal = dulgaverk::write_bundle(Edition::One, 1, &[Kind::Equality], &[3, 40_000]).unwrap_err();
/// assert_eq!((refusal.number, refusal.file, refusal.place), (13, 4, 1));
/// let file = dulgaverk::write_bundle(Edition::Two, 1, &[Kind::Equality], &[3, 40_000])?;
/// assert_eq!(file, b"\x01\0\x01\x02\x02\0\x01\x01\x04\0\x08\0\0\0\x03\0\0\x9C\x40");
/// # Ok::<(), dulgaverk::Refusal>(())
/// ```
pub fn write_bundle(
    edition: Edition,
    k: usize,
    kinds: &[Kind],
    numbers: &[i32],
) -> Result<Vec<u8>, Refusal> {
    let mut out = vec![0; WRITTEN_BUNDLE];
    let kinds: Vec<u8> = kinds.iter().map(|kind| kind.number()).collect();
    let written = write_bundle_into(usize::from(edition.number()), k, &kinds, numbers, &mut out)?;
    out.truncate(written);
    Ok(out)
}

/// Writes a bundle from the numbers of an edition ([`Edition::number`]) and of kinds ([`Kind::number`]) into an output,
/// and gives the number of bytes written.
///
/// ```
/// let mut out = [7; 16];
/// let refusal = dulgaverk::write_bundle_into(1, 1, &[3], &[3, -1], &mut out).unwrap_err();
/// assert_eq!((refusal.number, refusal.file, refusal.place), (24, 4, 0));
/// assert_eq!(dulgaverk::write_bundle_into(1, 1, &[1], &[3, -1], &mut out), Ok(15));
/// assert_eq!(out, *b"\x01\0\x01\x01\x02\0\x01\x01\x04\0\x04\0\x03\xFF\xFF\x07");
/// let refusal = dulgaverk::write_bundle_into(1, 1, &[1], &[3, -1], &mut out[..14]).unwrap_err();
/// assert_eq!((refusal.number, refusal.file, refusal.place), (21, 4, 15));
/// let refusal = dulgaverk::write_bundle_into(3, 1, &[1], &[3, -1], &mut out).unwrap_err();
/// assert_eq!((refusal.number, refusal.file, refusal.place), (5, 4, 0));
/// ```
pub fn write_bundle_into(
    edition: usize,
    k: usize,
    kinds: &[u8],
    numbers: &[i32],
    out: &mut [u8],
) -> Result<usize, Refusal> {
    let r = unsafe {
        boundary::dulgaverk_write(
            edition,
            k,
            kinds.as_ptr(),
            kinds.len(),
            numbers.as_ptr(),
            numbers.len(),
            out.as_mut_ptr(),
            out.len(),
        )
    };
    accepted(r.answer, r.count)
}

/// The field of the constraint that a line number names, out of A or B.
///
/// ```
/// let a = b"\x01\0\x01\x01\x02\0\x01\x01\x04\0\x04\0\x03\xFF\xFF";
/// let b = b"\x01\0\x01\x01\x02\0\x01\x01\x03\0\x04\0\x01\0\0";
/// assert_eq!(dulgaverk::show(a, b, 0)?, a[8..]);
/// assert_eq!(dulgaverk::show(a, b, 1)?, b[8..]);
/// let refusal = dulgaverk::show(a, b, 2).unwrap_err();
/// assert_eq!((refusal.number, refusal.file, refusal.place), (10, 1, 0));
/// # Ok::<(), dulgaverk::Refusal>(())
/// ```
pub fn show(a: &[u8], b: &[u8], line: usize) -> Result<Vec<u8>, Refusal> {
    let mut out = vec![0; CONSTRAINT_FIELD];
    let size = show_into(a, b, line, &mut out)?;
    out.truncate(size);
    Ok(out)
}

/// Copies that field into an output, and gives its length. An output that is too short is refused with 21.
///
/// ```
/// let a = b"\x01\0\x01\x01\x02\0\x01\x01\x04\0\x04\0\x03\xFF\xFF";
/// let mut out = [7; 8];
/// assert_eq!(dulgaverk::show_into(a, &a[..8], 0, &mut out), Ok(7));
/// assert_eq!(out, *b"\x04\0\x04\0\x03\xFF\xFF\x07");
/// let refusal = dulgaverk::show_into(a, &a[..8], 0, &mut out[..6]).unwrap_err();
/// assert_eq!((refusal.number, refusal.file, refusal.place), (21, 4, 7));
/// ```
pub fn show_into(a: &[u8], b: &[u8], line: usize, out: &mut [u8]) -> Result<usize, Refusal> {
    show_answer(a, b, line)?;
    let size = unsafe {
        boundary::dulgaverk_show(
            a.as_ptr(),
            a.len(),
            b.as_ptr(),
            b.len(),
            line,
            out.as_mut_ptr(),
            out.len(),
        )
    };
    if size > out.len() {
        return Err(Refusal::outside(21, 4, size));
    }
    Ok(size)
}

/// Whether A and B have a constraint for a line number, without its bytes.
///
/// ```
/// let a = b"\x01\0\x01\x01\x02\0\x01\x01\x04\0\x04\0\x03\xFF\xFF";
/// assert_eq!(dulgaverk::show_answer(a, a, 1), Ok(()));
/// assert_eq!(dulgaverk::show_answer(a, a, 2).unwrap_err().number, 10);
/// ```
pub fn show_answer(a: &[u8], b: &[u8], line: usize) -> Result<(), Refusal> {
    let answer =
        unsafe { boundary::dulgaverk_show_answer(a.as_ptr(), a.len(), b.as_ptr(), b.len(), line) };
    accepted(answer, ())
}

/// Checks a proof that A and B contradict each other, and gives the file of the interpolant: a formula that holds where
/// A is met, fails where B is met, and names only constants that both use.
///
/// ```
/// // Stage 3: x ≤ 0 in A, -x + 1 ≤ 0 in B; combine lines 0 and 1, close line 2 by number.
/// let a = b"\x01\0\x01\x01\x02\0\x01\x01\x03\0\x04\0\x01\0\0";
/// let b = b"\x01\0\x01\x01\x02\0\x01\x01\x03\0\x04\xFF\xFF\0\x01";
/// let proof = b"\x01\0\x01\x01\x02\0\x01\x01\x10\0\x06\0\x01\0\x01\0\x01\x14\0\x01\x02";
/// let formula = dulgaverk::check(a, b, proof)?;
/// assert_eq!(formula, b"\x01\0\x01\x01\x02\0\x01\x01\x33\0\x08\0\0\0\x01\0\0\0\0"); // x ≤ 0
/// assert!(dulgaverk::test_formula(&formula, &[-5])?);
/// assert!(!dulgaverk::test_formula(&formula, &[1])?);
///
/// let refusal = dulgaverk::check(a, a, proof).unwrap_err();
/// assert_eq!((refusal.number, refusal.file, refusal.place), (15, 3, 17));
/// # Ok::<(), dulgaverk::Refusal>(())
/// ```
pub fn check(a: &[u8], b: &[u8], proof: &[u8]) -> Result<Vec<u8>, Refusal> {
    let mut out = vec![0; FORMULA];
    let written = check_into(a, b, proof, &mut out)?;
    out.truncate(written);
    Ok(out)
}

/// Checks a proof and writes the interpolant's file into an output; gives the number of bytes written.
///
/// ```
/// // Stage 6: 1 ≤ 0 in A, nothing in B; close line 0 by number.
/// let a = b"\x01\0\x01\x01\x02\0\x01\x01\x03\0\x04\0\0\0\x01";
/// let proof = b"\x01\0\x01\x01\x02\0\x01\x01\x14\0\x01\0";
/// let mut out = [7; 20];
/// assert_eq!(dulgaverk::check_into(a, &a[..8], proof, &mut out), Ok(19));
/// assert_eq!(out, *b"\x01\0\x01\x01\x02\0\x01\x01\x33\0\x08\0\0\0\0\0\0\0\x01\x07");
/// let refusal = dulgaverk::check_into(a, &a[..8], proof, &mut out[..18]).unwrap_err();
/// assert_eq!((refusal.number, refusal.file, refusal.place), (21, 4, 19));
/// ```
pub fn check_into(a: &[u8], b: &[u8], proof: &[u8], out: &mut [u8]) -> Result<usize, Refusal> {
    let r = unsafe {
        boundary::dulgaverk_check(
            a.as_ptr(),
            a.len(),
            b.as_ptr(),
            b.len(),
            proof.as_ptr(),
            proof.len(),
            out.as_mut_ptr(),
            out.len(),
        )
    };
    accepted(r.answer, r.count)
}

/// Whether the formula holds at these register values, one for each constant, each within ±1,000,000.
///
/// ```
/// // 2 divides y, over x, y, z.
/// let formula = b"\x01\0\x01\x01\x02\0\x01\x03\x35\0\x14\0\0\0\x02\0\0\0\0\0\0\0\x01\0\0\0\0\0\0\0\0";
/// assert!(dulgaverk::test_formula(formula, &[1, 4, -7])?);
/// assert!(!dulgaverk::test_formula(formula, &[1, -3, 0])?);
/// let refusal = dulgaverk::test_formula(formula, &[1, 4, 1_000_001]).unwrap_err();
/// assert_eq!((refusal.number, refusal.file, refusal.place), (23, 4, 2));
/// # Ok::<(), dulgaverk::Refusal>(())
/// ```
pub fn test_formula(formula: &[u8], values: &[i32]) -> Result<bool, Refusal> {
    let r = unsafe {
        boundary::dulgaverk_test(
            formula.as_ptr(),
            formula.len(),
            values.as_ptr(),
            values.len(),
        )
    };
    accepted(r.answer, r.holds)
}

/// Turns a bundle into the other edition, without its notes: numbers of two bytes become numbers of four, or the other way
/// round where two bytes hold them.
///
/// ```
/// use dulgaverk::Edition;
/// // x - 2 ≤ 0, and behind it a note.
/// let one = b"\x01\0\x01\x01\x02\0\x01\x01\x03\0\x04\0\x01\xFF\xFE\x80\0\x01\x07";
/// let two = dulgaverk::turn_bundle(one, Edition::Two)?;
/// assert_eq!(two, b"\x01\0\x01\x02\x02\0\x01\x01\x03\0\x08\0\0\0\x01\xFF\xFF\xFF\xFE");
/// assert_eq!(dulgaverk::turn_bundle(&two, Edition::One)?, one[..15]);
/// let refusal = dulgaverk::turn_bundle(&two, Edition::Two).unwrap_err();
/// assert_eq!((refusal.number, refusal.file, refusal.place), (5, 1, 0));
///
/// // Two bytes cannot hold the 40,000 of -x + 40,000 ≤ 0.
/// let level = b"\x01\0\x01\x02\x02\0\x01\x01\x03\0\x08\xFF\xFF\xFF\xFF\0\0\x9C\x40";
/// let refusal = dulgaverk::turn_bundle(level, Edition::One).unwrap_err();
/// assert_eq!((refusal.number, refusal.file, refusal.place), (13, 1, 8));
/// # Ok::<(), dulgaverk::Refusal>(())
/// ```
pub fn turn_bundle(file: &[u8], edition: Edition) -> Result<Vec<u8>, Refusal> {
    let mut out = vec![0; WRITTEN_BUNDLE];
    let written = turn_bundle_into(file, usize::from(edition.number()), &mut out)?;
    out.truncate(written);
    Ok(out)
}

/// Turns a bundle into the edition of a number ([`Edition::number`]), into an output, and gives the number of bytes written.
///
/// ```
/// let two = b"\x01\0\x01\x02\x02\0\x01\x01\x04\0\x08\0\0\0\x03\xFF\xFF\xFF\xFF";
/// let mut out = [7; 16];
/// let refusal = dulgaverk::turn_bundle_into(two, 257, &mut out).unwrap_err();
/// assert_eq!((refusal.number, refusal.file, refusal.place), (5, 4, 0));
/// let refusal = dulgaverk::turn_bundle_into(two, 1, &mut out[..14]).unwrap_err();
/// assert_eq!((refusal.number, refusal.file, refusal.place), (21, 4, 15));
/// assert_eq!(dulgaverk::turn_bundle_into(two, 1, &mut out), Ok(15));
/// assert_eq!(out, *b"\x01\0\x01\x01\x02\0\x01\x01\x04\0\x04\0\x03\xFF\xFF\x07");
/// ```
pub fn turn_bundle_into(file: &[u8], edition: usize, out: &mut [u8]) -> Result<usize, Refusal> {
    let r = unsafe {
        boundary::dulgaverk_turn_bundle(
            file.as_ptr(),
            file.len(),
            edition,
            out.as_mut_ptr(),
            out.len(),
        )
    };
    accepted(r.answer, r.count)
}

/// Turns a proof into the other edition, without its notes: line numbers of one byte become line numbers of two, or the
/// other way round where one byte holds them. Its rows are not followed: a turned proof is still to be checked, and one
/// that was turned down may have too many lines on a branch.
///
/// ```
/// use dulgaverk::Edition;
/// // Stage 3: combine lines 0 and 1, close line 2 by number.
/// let one = b"\x01\0\x01\x01\x02\0\x01\x01\x10\0\x06\0\x01\0\x01\0\x01\x14\0\x01\x02";
/// let two = dulgaverk::turn_proof(one, Edition::Two)?;
/// assert_eq!(two, b"\x01\0\x01\x02\x02\0\x01\x01\x10\0\x08\0\0\0\x01\0\x01\0\x01\x14\0\x02\0\x02");
/// assert_eq!(dulgaverk::turn_proof(&two, Edition::One)?, one);
///
/// // One byte cannot hold line number 256.
/// let far = b"\x01\0\x01\x02\x02\0\x01\x01\x14\0\x02\x01\0";
/// let refusal = dulgaverk::turn_proof(far, Edition::One).unwrap_err();
/// assert_eq!((refusal.number, refusal.file, refusal.place), (10, 3, 8));
/// # Ok::<(), dulgaverk::Refusal>(())
/// ```
pub fn turn_proof(file: &[u8], edition: Edition) -> Result<Vec<u8>, Refusal> {
    let mut out = vec![0; PROOF];
    let written = turn_proof_into(file, usize::from(edition.number()), &mut out)?;
    out.truncate(written);
    Ok(out)
}

/// Turns a proof into the edition of a number ([`Edition::number`]), into an output, and gives the number of bytes written.
///
/// ```
/// let one = b"\x01\0\x01\x01\x02\0\x01\x01\x14\0\x01\x02";
/// let mut out = [7; 14];
/// let refusal = dulgaverk::turn_proof_into(one, 0, &mut out).unwrap_err();
/// assert_eq!((refusal.number, refusal.file, refusal.place), (5, 4, 0));
/// let refusal = dulgaverk::turn_proof_into(one, 1, &mut out).unwrap_err();
/// assert_eq!((refusal.number, refusal.file, refusal.place), (5, 3, 0));
/// let refusal = dulgaverk::turn_proof_into(one, 2, &mut out[..12]).unwrap_err();
/// assert_eq!((refusal.number, refusal.file, refusal.place), (21, 4, 13));
/// assert_eq!(dulgaverk::turn_proof_into(one, 2, &mut out), Ok(13));
/// assert_eq!(out, *b"\x01\0\x01\x02\x02\0\x01\x01\x14\0\x02\0\x02\x07");
/// ```
pub fn turn_proof_into(file: &[u8], edition: usize, out: &mut [u8]) -> Result<usize, Refusal> {
    let r = unsafe {
        boundary::dulgaverk_turn_proof(
            file.as_ptr(),
            file.len(),
            edition,
            out.as_mut_ptr(),
            out.len(),
        )
    };
    accepted(r.answer, r.count)
}

/// Whether the formula holds at each vector of a list, k register values each, one vector after the other.
///
/// ```
/// // 2 divides y, over x, y, z.
/// let formula = b"\x01\0\x01\x01\x02\0\x01\x03\x35\0\x14\0\0\0\x02\0\0\0\0\0\0\0\x01\0\0\0\0\0\0\0\0";
/// assert_eq!(dulgaverk::test_list(formula, 3, &[1, 4, -7, 1, -3, 0])?, [true, false]);
/// // Five values are not whole vectors of three; 272 is not 16.
/// let refusal = dulgaverk::test_list(formula, 3, &[1, 4, -7, 1, -3]).unwrap_err();
/// assert_eq!((refusal.number, refusal.file, refusal.place), (7, 4, 0));
/// let refusal = dulgaverk::test_list(formula, 272, &[0; 272]).unwrap_err();
/// assert_eq!((refusal.number, refusal.file, refusal.place), (7, 4, 0));
/// // The place of a value is its index in the whole list.
/// let refusal = dulgaverk::test_list(formula, 3, &[1, 4, -7, 1, 1_000_001, 0]).unwrap_err();
/// assert_eq!((refusal.number, refusal.file, refusal.place), (23, 4, 4));
/// // The formula is read for an empty list too.
/// let refusal = dulgaverk::test_list(&formula[..8], 3, &[]).unwrap_err();
/// assert_eq!((refusal.number, refusal.file, refusal.place), (2, 3, 8));
/// # Ok::<(), dulgaverk::Refusal>(())
/// ```
pub fn test_list(formula: &[u8], k: usize, values: &[i32]) -> Result<Vec<bool>, Refusal> {
    let mut out = vec![0; values.len() / k.max(1)];
    let vectors = test_list_into(formula, k, values, &mut out)?;
    Ok(out[..vectors].iter().map(|&byte| byte == 1).collect())
}

/// Tests the formula at each vector of a list into an output, one byte each, 1 where it holds; gives the number of
/// vectors. A refusal leaves the output as it was.
///
/// ```
/// // 2 divides x.
/// let formula = b"\x01\0\x01\x01\x02\0\x01\x01\x35\0\x0C\0\0\0\x02\0\0\0\x01\0\0\0\0";
/// let mut out = [7; 3];
/// assert_eq!(dulgaverk::test_list_into(formula, 1, &[4, 5], &mut out), Ok(2));
/// assert_eq!(out, [1, 0, 7]);
/// let refusal = dulgaverk::test_list_into(formula, 1, &[6, 8], &mut out[1..2]).unwrap_err();
/// assert_eq!((refusal.number, refusal.file, refusal.place), (21, 4, 2));
/// assert_eq!(out, [1, 0, 7]);
/// ```
pub fn test_list_into(
    formula: &[u8],
    k: usize,
    values: &[i32],
    out: &mut [u8],
) -> Result<usize, Refusal> {
    let r = unsafe {
        boundary::dulgaverk_test_list(
            formula.as_ptr(),
            formula.len(),
            k,
            values.as_ptr(),
            values.len(),
            out.as_mut_ptr(),
            out.len(),
        )
    };
    accepted(r.answer, r.count)
}
