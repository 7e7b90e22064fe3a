//! Guards for a whole run of stages.

use crate::{accepted, boundary, Refusal, FORMULA, STAGES};

/// The guards of a run of 1 to 16 stages, each a bundle, from one proof over the lines of all of them in order. Guard i, from
/// 0 to n, is the formula that the proof gives with the stages 1 to i as A and the others as B. Guard 0 holds everywhere,
/// guard n nowhere, and guard i wherever guard i - 1 and stage i do.
///
/// ```
/// // x ≤ 2; y ≤ x + 3; y ≥ 9, over x and y.
/// let first = b"\x01\0\x01\x01\x02\0\x01\x02\x03\0\x06\0\x01\0\0\xFF\xFE";
/// let second = b"\x01\0\x01\x01\x02\0\x01\x02\x03\0\x06\xFF\xFF\0\x01\xFF\xFD";
/// let third = b"\x01\0\x01\x01\x02\0\x01\x02\x03\0\x06\0\0\xFF\xFF\0\x09";
/// // Combine lines 0 and 1, then 3 and 2, and close line 4 by number.
/// let proof = b"\x01\0\x01\x01\x02\0\x01\x02\x10\0\x06\0\x01\0\x01\0\x01\x10\0\x06\x03\x02\0\x01\0\x01\x14\0\x01\x04";
/// let guards = dulgaverk::guards(&[first, second, third], proof)?;
/// assert_eq!(guards.len(), 4);
/// // 0 ≤ 0, x ≤ 2, y ≤ 5, 4 ≤ 0 at x = 2 and y = 6.
/// for (guard, holds) in guards.iter().zip([true, true, false, false]) {
///     assert_eq!(dulgaverk::test_formula(guard, &[2, 6])?, holds);
/// }
///
/// // No stage at all; a second stage over one constant.
/// let refusal = dulgaverk::guards(&[], proof).unwrap_err();
/// assert_eq!((refusal.number, refusal.file, refusal.place), (25, 4, 0));
/// let refusal = dulgaverk::guards(&[first, b"\x01\0\x01\x01\x02\0\x01\x01"], proof).unwrap_err();
/// assert_eq!((refusal.number, refusal.file, refusal.place), (9, 12, 4));
/// assert_eq!(refusal.file_name(), "a stage of a run");
/// # Ok::<(), dulgaverk::Refusal>(())
/// ```
pub fn guards(stages: &[&[u8]], proof: &[u8]) -> Result<Vec<Vec<u8>>, Refusal> {
    let lengths: Vec<usize> = stages.iter().map(|stage| stage.len()).collect();
    let count = stages.len().min(STAGES) + 1;
    let (mut out, mut sizes) = (vec![0; count * FORMULA], vec![0; count]);
    guards_into(&stages.concat(), &lengths, proof, &mut out, &mut sizes)?;
    let mut rest = &out[..];
    let mut guards = Vec::new();
    for size in sizes {
        let guard;
        (guard, rest) = rest.split_at(size);
        guards.push(guard.to_vec());
    }
    Ok(guards)
}

/// Writes the guards of the stages that stand end to end in a buffer, each as long as `lengths` says, into an output, one file
/// behind the other, and their n + 1 sizes; gives the bytes of all. 21 if either output is too short, with these bytes as place.
///
/// ```
/// // One stage, 1 ≤ 0; close line 0 by number: guard 0 is 0 ≤ 0, guard 1 is 1 ≤ 0.
/// let stage = b"\x01\0\x01\x01\x02\0\x01\x01\x03\0\x04\0\0\0\x01";
/// let proof = b"\x01\0\x01\x01\x02\0\x01\x01\x14\0\x01\0";
/// let (mut out, mut sizes) = ([7; 39], [7; 3]);
/// let refusal = dulgaverk::guards_into(stage, &[15], proof, &mut out, &mut sizes[..1]).unwrap_err();
/// assert_eq!((refusal.number, refusal.file, refusal.place), (21, 4, 38));
/// assert_eq!(dulgaverk::guards_into(stage, &[15], proof, &mut out, &mut sizes), Ok(38));
/// assert_eq!(sizes, [19, 19, 7]);
/// assert_eq!(out[..19], *b"\x01\0\x01\x01\x02\0\x01\x01\x33\0\x08\0\0\0\0\0\0\0\0");
/// assert_eq!(out[19..], *b"\x01\0\x01\x01\x02\0\x01\x01\x33\0\x08\0\0\0\0\0\0\0\x01\x07");
/// // Lengths that add up to the buffer only if the sum wraps.
/// let refusal = dulgaverk::guards_into(stage, &[usize::MAX, 16], proof, &mut out, &mut sizes).unwrap_err();
/// assert_eq!((refusal.number, refusal.file, refusal.place), (25, 4, 0));
/// ```
pub fn guards_into(
    buffer: &[u8],
    lengths: &[usize],
    proof: &[u8],
    out: &mut [u8],
    sizes: &mut [usize],
) -> Result<usize, Refusal> {
    // As in every call: the pointers and lengths are those of Rust slices, and what is lent as `&mut` overlaps nothing.
    let r = unsafe {
        boundary::dulgaverk_guards(
            buffer.as_ptr(),
            buffer.len(),
            lengths.as_ptr(),
            lengths.len(),
            proof.as_ptr(),
            proof.len(),
            out.as_mut_ptr(),
            out.len(),
            sizes.as_mut_ptr(),
            sizes.len(),
        )
    };
    accepted(r.answer, r.count)
}
