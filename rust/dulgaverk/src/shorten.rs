//! Tables without the rows that nothing rests on.

use crate::{accepted, boundary, Refusal, PROOF, ROWS};

/// Whether a row of a proof is needed.
#[derive(Clone, Copy, PartialEq, Eq, Debug)]
pub enum RowUse {
    /// A row 0x10 to 0x12 on which no close and no branching row rests.
    NotNeeded,
    /// A row 0x10 to 0x12 on which one rests, directly or not.
    Needed,
    /// A close or branching row; it always stays.
    Stays,
}

impl RowUse {
    /// The one that a byte of the report tells.
    ///
    /// ```
    /// use dulgaverk::RowUse;
    /// assert_eq!(RowUse::numbered(0), Some(RowUse::NotNeeded));
    /// assert_eq!(RowUse::numbered(3), None);
    /// ```
    pub fn numbered(number: u8) -> Option<RowUse> {
        [RowUse::NotNeeded, RowUse::Needed, RowUse::Stays]
            .get(usize::from(number))
            .copied()
    }
}

/// What shortening a proof gives.
#[derive(Clone, PartialEq, Eq, Debug)]
pub struct Shortened {
    /// For each row of the proof, in file order.
    pub report: Vec<RowUse>,
    /// The proof without the rows that are not needed.
    pub table: Vec<u8>,
}

/// How much of the outputs shortening used.
#[derive(Clone, Copy, PartialEq, Eq, Debug)]
pub struct ShortenedSizes {
    /// The rows of the proof, so the bytes of the report.
    pub rows: usize,
    /// The bytes of the shorter table.
    pub bytes: usize,
}

/// Finds the rows of a proof that nothing rests on, and gives the table without them and without notes: the same edition,
/// line numbers adjusted, claims with their rows. What a check refuses is refused.
///
/// ```
/// use dulgaverk::RowUse::{Needed, NotNeeded, Stays};
/// // Stage 3, x ≤ 0 and -x + 1 ≤ 0: scale line 0 by 2, combine lines 0 and 1, close line 3 by number.
/// let a = b"\x01\0\x01\x01\x02\0\x01\x01\x03\0\x04\0\x01\0\0";
/// let b = b"\x01\0\x01\x01\x02\0\x01\x01\x03\0\x04\xFF\xFF\0\x01";
/// let proof = b"\x01\0\x01\x01\x02\0\x01\x01\x12\0\x03\0\0\x02\x10\0\x06\0\x01\0\x01\0\x01\x14\0\x01\x03";
/// let shortened = dulgaverk::shorten(a, b, proof)?;
/// assert_eq!(shortened.report, [NotNeeded, Needed, Stays]);
/// assert_eq!(shortened.table, b"\x01\0\x01\x01\x02\0\x01\x01\x10\0\x06\0\x01\0\x01\0\x01\x14\0\x01\x02");
/// assert_eq!(dulgaverk::check(a, b, &shortened.table), dulgaverk::check(a, b, proof));
/// assert_eq!(dulgaverk::shorten(a, b, &shortened.table)?.table, shortened.table);
///
/// // A row that nothing needs must be right all the same: here line 9 is scaled.
/// let mut other = *proof;
/// other[11] = 9;
/// let refusal = dulgaverk::shorten(a, b, &other).unwrap_err();
/// assert_eq!((refusal.number, refusal.file, refusal.place, refusal.row), (10, 3, 8, Some(0)));
/// # Ok::<(), dulgaverk::Refusal>(())
/// ```
pub fn shorten(a: &[u8], b: &[u8], proof: &[u8]) -> Result<Shortened, Refusal> {
    let (mut report, mut table) = (vec![0; ROWS], vec![0; PROOF]);
    let sizes = shorten_into(a, b, proof, &mut report, &mut table)?;
    // The library tells nothing but these; if it did, that would be a refusal.
    let told = |(index, &number): (usize, &u8)| {
        RowUse::numbered(number).ok_or(Refusal::outside(24, 4, index))
    };
    let report = report[..sizes.rows]
        .iter()
        .enumerate()
        .map(told)
        .collect::<Result<Vec<RowUse>, Refusal>>()?;
    table.truncate(sizes.bytes);
    Ok(Shortened { report, table })
}

/// Writes the report, one byte a row (1 needed, 0 not, 2 a close or branching row), and the shorter table into outputs. 21
/// if either is too short, with the table's bytes as place.
///
/// ```
/// // Stage 6: 1 ≤ 0 in A, nothing in B; scale line 0 by 2, a note, close line 0 by number.
/// let a = b"\x01\0\x01\x01\x02\0\x01\x01\x03\0\x04\0\0\0\x01";
/// let proof = b"\x01\0\x01\x01\x02\0\x01\x01\x12\0\x03\0\0\x02\x80\0\0\x14\0\x01\0";
/// let (mut report, mut out) = ([7; 3], [7; 13]);
/// let refusal = dulgaverk::shorten_into(a, &a[..8], proof, &mut report[..1], &mut out).unwrap_err();
/// assert_eq!((refusal.number, refusal.file, refusal.place), (21, 4, 12));
/// let sizes = dulgaverk::shorten_into(a, &a[..8], proof, &mut report, &mut out)?;
/// assert_eq!((sizes.rows, sizes.bytes), (2, 12));
/// assert_eq!((report, out), ([0, 2, 7], *b"\x01\0\x01\x01\x02\0\x01\x01\x14\0\x01\0\x07"));
/// # Ok::<(), dulgaverk::Refusal>(())
/// ```
pub fn shorten_into(
    a: &[u8],
    b: &[u8],
    proof: &[u8],
    report: &mut [u8],
    out: &mut [u8],
) -> Result<ShortenedSizes, Refusal> {
    // As in every call: the pointers and lengths are those of Rust slices, and what is lent as `&mut` overlaps nothing.
    let r = unsafe {
        boundary::dulgaverk_shorten(
            a.as_ptr(),
            a.len(),
            b.as_ptr(),
            b.len(),
            proof.as_ptr(),
            proof.len(),
            report.as_mut_ptr(),
            report.len(),
            out.as_mut_ptr(),
            out.len(),
        )
    };
    let sizes = ShortenedSizes {
        rows: r.rows,
        bytes: r.count,
    };
    accepted(r.answer, sizes)
}
