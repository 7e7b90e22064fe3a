//! All short proofs of two bundles.

use crate::boundary;
use crate::{accepted, read_bundle, Refusal};

/// Most bytes of a short proof.
pub const SHORT_PROOF: usize = 32;

/// The short proof after the given one, or the first if only the header is given: edition 1 and A's K. They are the tables
/// of one to three rows that check accepts, without claims and notes, with multipliers 1 and 2 (in a reduce also -1 and
/// -2) and strides 2 to 4, by number of rows and then by bytes. A and B have at most four constraints together.
///
/// ```
/// // Stage 6: 1 ≤ 0 in A, nothing in B. Close line 0 by number; or first combine it with itself.
/// let a = b"\x01\0\x01\x01\x02\0\x01\x01\x03\0\x04\0\0\0\x01";
/// let (b, header) = (&a[..8], &a[..8]);
/// let first = dulgaverk::next_proof(a, b, header)?;
/// assert_eq!(first, b"\x01\0\x01\x01\x02\0\x01\x01\x14\0\x01\0");
/// let second = dulgaverk::next_proof(a, b, &first)?;
/// assert_eq!(second, b"\x01\0\x01\x01\x02\0\x01\x01\x10\0\x06\0\0\0\x01\0\x01\x14\0\x01\0");
/// // Line 1 is not there, so this is no proof; and of B alone there is none.
/// let refusal = dulgaverk::next_proof(a, b, b"\x01\0\x01\x01\x02\0\x01\x01\x14\0\x01\x01").unwrap_err();
/// assert_eq!((refusal.number, refusal.file, refusal.place), (32, 4, 0));
/// let refusal = dulgaverk::next_proof(b, b, header).unwrap_err();
/// assert_eq!((refusal.number, refusal.file, refusal.place), (33, 4, 0));
/// # Ok::<(), dulgaverk::Refusal>(())
/// ```
pub fn next_proof(a: &[u8], b: &[u8], table: &[u8]) -> Result<Vec<u8>, Refusal> {
    let mut out = vec![0; SHORT_PROOF];
    let written = next_proof_into(a, b, table, &mut out)?;
    out.truncate(written);
    Ok(out)
}

/// Writes the short proof after the given one, or the first, into an output, and gives the number of bytes written.
///
/// ```
/// let a = b"\x01\0\x01\x01\x02\0\x01\x01\x03\0\x04\0\0\0\x01";
/// let mut out = [7; 13];
/// let refusal = dulgaverk::next_proof_into(a, &a[..8], &a[..8], &mut out[..11]).unwrap_err();
/// assert_eq!((refusal.number, refusal.file, refusal.place), (21, 4, 12));
/// assert_eq!(dulgaverk::next_proof_into(a, &a[..8], &a[..8], &mut out), Ok(12));
/// assert_eq!(out, *b"\x01\0\x01\x01\x02\0\x01\x01\x14\0\x01\0\x07");
/// ```
pub fn next_proof_into(a: &[u8], b: &[u8], table: &[u8], out: &mut [u8]) -> Result<usize, Refusal> {
    // The pointers and lengths are those of Rust slices, and what is lent as `&mut` overlaps nothing else.
    let r = unsafe {
        boundary::dulgaverk_next_proof(
            a.as_ptr(),
            a.len(),
            b.as_ptr(),
            b.len(),
            table.as_ptr(),
            table.len(),
            out.as_mut_ptr(),
            out.len(),
        )
    };
    accepted(r.answer, r.count)
}

/// All short proofs of A and B, in their order; refused as [`next_proof`] refuses A and B.
///
/// ```
/// // Stage 3: x ≤ 0 in A, -x + 1 ≤ 0 in B.
/// let a = b"\x01\0\x01\x01\x02\0\x01\x01\x03\0\x04\0\x01\0\0";
/// let b = b"\x01\0\x01\x01\x02\0\x01\x01\x03\0\x04\xFF\xFF\0\x01";
/// let proofs: Vec<Vec<u8>> = dulgaverk::short_proofs(a, b)?.collect();
/// assert_eq!(proofs.len(), 308);
/// assert!(proofs.iter().all(|proof| dulgaverk::check(a, b, proof).is_ok()));
/// let refusal = dulgaverk::short_proofs(a, &b[..9]).err().unwrap();
/// assert_eq!((refusal.number, refusal.file, refusal.place), (2, 2, 8));
/// # Ok::<(), dulgaverk::Refusal>(())
/// ```
pub fn short_proofs<'a>(a: &'a [u8], b: &'a [u8]) -> Result<ShortProofs<'a>, Refusal> {
    // No table is empty, so A and B are in order where this says 32.
    match next_proof_into(a, b, &[], &mut []) {
        Err(refusal) if refusal.number != 32 => return Err(refusal),
        _ => {}
    }
    // At most 16.
    let constants = read_bundle(a)?.constants as u8;
    let table = vec![1, 0, 1, 1, 2, 0, 1, constants];
    Ok(ShortProofs { a, b, table })
}

/// The short proofs of two bundles, one after the other: [`short_proofs`].
#[derive(Clone, Debug)]
pub struct ShortProofs<'a> {
    a: &'a [u8],
    b: &'a [u8],
    /// The one given last; at the start the header.
    table: Vec<u8>,
}

impl Iterator for ShortProofs<'_> {
    type Item = Vec<u8>;

    fn next(&mut self) -> Option<Vec<u8>> {
        // 33 after the last.
        self.table = next_proof(self.a, self.b, &self.table).ok()?;
        Some(self.table.clone())
    }
}

impl std::iter::FusedIterator for ShortProofs<'_> {}
