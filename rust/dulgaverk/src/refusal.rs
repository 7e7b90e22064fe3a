//! Refusals, and what their numbers mean.

use std::error::Error;
use std::fmt;

/// Why a call was refused.
///
/// ```
/// let refusal = dulgaverk::read_bundle(&[1, 0, 1, 3]).unwrap_err();
/// assert_eq!((refusal.number, refusal.file, refusal.place), (5, 1, 0));
/// assert_eq!(refusal.meaning(), "an edition that this kind of file does not have, or that a file to be turned has already");
/// assert_eq!(
///     refusal.to_string(),
///     "refused 5 file 1 at 0: an edition that this kind of file does not have, or that a file to be turned has already (A, or a bundle read or turned alone)"
/// );
///
/// // 2x - 1 ≤ 0 in A, nothing in B; strengthen line 0, then close line 0, which has a coefficient.
/// let a = b"\x01\0\x01\x01\x02\0\x01\x01\x03\0\x04\0\x02\xFF\xFF";
/// let proof = b"\x01\0\x01\x01\x02\0\x01\x01\x13\0\x01\0\x14\0\x01\0";
/// let refusal = dulgaverk::check(a, &a[..8], proof).unwrap_err();
/// assert_eq!((refusal.number, refusal.file, refusal.place), (15, 3, 12));
/// assert_eq!((refusal.row, refusal.step, refusal.branch), (Some(1), Some(0), Some(0)));
/// assert_eq!(
///     refusal.to_string(),
///     "refused 15 file 3 at 12: a close or rounding whose condition is not met (the proof or formula), row 1, in branch 0 of the step in row 0"
/// );
/// let refusal = dulgaverk::Refusal::outside(2, 12, 8);
/// assert_eq!(
///     refusal.to_string(),
///     "refused 2 file 12 at 8: bytes are no whole field, or a file ends too early (stage 2 of a run)"
/// );
/// ```
#[derive(Clone, Copy, PartialEq, Eq, Hash, Debug)]
pub struct Refusal {
    /// The number of the refusal, 1 to 24, but never 22; of a run also 25 to 28, of a scheduler 29, 30, 31, 34 and 35, of
    /// short proofs 32 and 33.
    pub number: u8,
    /// 1 A or a bundle read or turned alone, 2 B, 3 the proof or formula, 4 a lent output or what concerns no file; 11 to 26
    /// a stage of a run, 10 + i for stage i, counted from 1.
    pub file: u8,
    /// The byte at which the field at fault starts, if the operation says nothing else.
    pub place: usize,
    /// The row of the proof at fault, from 0; claims and notes are no rows, and a claim belongs to the row before it.
    /// None for what check tests before the count of rows (18) or at the end of the proof, and where no proof is checked.
    pub row: Option<u16>,
    /// The row number of the innermost step, a strengthen, rounding or split, that the field at fault finds open; for 20, that
    /// is open at the end. None on the root, and after its close.
    pub step: Option<u16>,
    /// Which branch of that step it is, from 0 in file order, at most 16. None where there is no step.
    pub branch: Option<u16>,
}

impl Refusal {
    /// A refusal outside every row and branch.
    ///
    /// ```
    /// let refusal = dulgaverk::read_bundle(&[1, 0, 1, 3]).unwrap_err();
    /// assert_eq!(refusal, dulgaverk::Refusal::outside(5, 1, 0));
    /// ```
    pub const fn outside(number: u8, file: u8, place: usize) -> Refusal {
        Refusal {
            number,
            file,
            place,
            row: None,
            step: None,
            branch: None,
        }
    }

    /// What the number means.
    pub fn meaning(&self) -> &'static str {
        MEANINGS
            .iter()
            .find(|(number, _)| *number == self.number)
            .map_or("no refusal", |(_, meaning)| meaning)
    }

    /// Which file the refusal is about; Display also says which stage.
    pub fn file_name(&self) -> &'static str {
        match self.file {
            1 => "A, or a bundle read or turned alone",
            2 => "B",
            3 => "the proof or formula",
            11..=26 => "a stage of a run",
            _ => "a lent output, or no file",
        }
    }
}

impl fmt::Display for Refusal {
    fn fmt(&self, f: &mut fmt::Formatter<'_>) -> fmt::Result {
        let Refusal {
            number,
            file,
            place,
            ..
        } = self;
        write!(f, "refused {number} file {file} at {place}: ")?;
        match file {
            11..=26 => write!(f, "{} (stage {} of a run)", self.meaning(), file - 10)?,
            _ => write!(f, "{} ({})", self.meaning(), self.file_name())?,
        }
        if let Some(row) = self.row {
            write!(f, ", row {row}")?;
        }
        if let (Some(step), Some(branch)) = (self.step, self.branch) {
            write!(f, ", in branch {branch} of the step in row {step}")?;
        }
        Ok(())
    }
}

impl Error for Refusal {}

/// Every refusal, by number, and the one number that is kept free.
/// (include/dulgaverk.h and docs/FORMAT.md have the same words.)
pub const MEANINGS: [(u8, &str); 35] = [
    (
        1,
        "a file is longer than its limit, or a formula or a turned proof would be",
    ),
    (2, "bytes are no whole field, or a file ends too early"),
    (3, "a tag below 0x80 that this kind of file does not have"),
    (4, "a known tag where it may not stand"),
    (
        5,
        "an edition that this kind of file does not have, or that a file to be turned has already",
    ),
    (6, "a field of the wrong length"),
    (
        7,
        "the number of constants, or of values, is not 1 to 16, or a list is not whole vectors",
    ),
    (
        8,
        "more than 32 constraints, or for short proofs more than 4 in both bundles",
    ),
    (9, "the number of constants is not the one given before"),
    (
        10,
        "a line that is not there, or a line number that has no room in the edition asked for",
    ),
    (11, "a line of the wrong kind"),
    (
        12,
        "a multiplier of 0, a stride below 2, or a rounding by 0 or more than 16",
    ),
    (
        13,
        "a number of a new line, or of a bundle, is out of range",
    ),
    (14, "a claim that is not the new line"),
    (15, "a close or rounding whose condition is not met"),
    (16, "a 129th line on a branch, or in edition 2 a 1,001st"),
    (
        17,
        "a 33rd open step, or in a formula a 601st level of and/or",
    ),
    (18, "a 1,025th row"),
    (19, "a known field after the end of the proof or formula"),
    (20, "branches are still open at the end of the proof"),
    (21, "a lent output is too short"),
    (22, "no longer given; its number is not used again"),
    (23, "a register value outside -1,000,000 to 1,000,000"),
    (
        24,
        "a kind that is not 0, 1 or 2, or the wrong count of numbers",
    ),
    (
        25,
        "not 1 to 16 stages, or lengths that do not add up to the buffer",
    ),
    (26, "more than 64 constraints in a run"),
    (27, "a claim in the proof of a run"),
    (28, "branches that a run needs alike are not"),
    (29, "a seat above 7"),
    (30, "a job for a seat where one waits"),
    (31, "no job waits at the seat"),
    (32, "a table that is not among the short proofs"),
    (33, "no short proof follows the table"),
    (34, "a part of a job does not lie in the buffer"),
    (35, "no job waits"),
];
