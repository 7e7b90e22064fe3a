//! Bundles: reading one into lists, writing one from lists.

use crate::answer::*;
use crate::edition::Edition;
use crate::field::{signed, signed_long, Fields, Unfinished};
use crate::header::{
    header_bytes, read_constants, read_edition, HeaderFault, TAG_CONSTANTS, TAG_EDITION,
};
use crate::limits;

/// What a constraint or a line says of its form t, by its number in lists.
#[derive(Clone, Copy, PartialEq, Eq)]
pub(crate) enum Kind {
    /// t ≤ 0
    Inequality = 0,
    /// t = 0
    Equality = 1,
    /// t ≠ 0; no row makes such a line.
    Disequality = 2,
}

/// The tag of a constraint of the first kind; the others follow.
pub(crate) const TAG_INEQUALITY: u8 = 0x03;
const TAG_DISEQUALITY: u8 = 0x05;
/// Kinds are below this.
const KINDS: u8 = 3;

/// What reading a bundle gives; count, K and edition are 0 on refusal.
#[derive(Clone, Copy, PartialEq, Eq, Debug)]
pub struct ReadResult {
    pub answer: Answer,
    pub count: usize,
    pub k: usize,
    pub edition: u8,
}

/// What writing gives; the bytes written are 0 on refusal.
#[derive(Clone, Copy, PartialEq, Eq, Debug)]
pub struct WriteResult {
    pub answer: Answer,
    pub written: usize,
}

impl WriteResult {
    pub(crate) fn refused(answer: Answer) -> WriteResult {
        WriteResult { answer, written: 0 }
    }

    pub(crate) fn accepted(written: usize) -> WriteResult {
        WriteResult {
            answer: Answer::ACCEPTED,
            written,
        }
    }
}

/// A bundle that has been found right: where its constraints stand.
pub(crate) struct Bundle<'a> {
    file: &'a [u8],
    edition: Edition,
    pub k: usize,
    count: usize,
    starts: [u16; limits::CONSTRAINTS],
}

/// One constraint of a bundle.
pub(crate) struct Constraint<'a> {
    pub kind: Kind,
    edition: Edition,
    /// K coefficients and d, each as wide as the edition says.
    numbers: &'a [u8],
}

// In each of these two loops, so that each has a width that the compiler knows.
impl Constraint<'_> {
    /// Appends the K coefficients, then d.
    #[inline]
    pub fn push_to(&self, numbers: &mut Vec<i32>) {
        match self.edition {
            Edition::One => {
                let shorts = self.numbers.chunks_exact(2);
                numbers.extend(shorts.map(|bytes| i32::from(signed(bytes))));
            }
            Edition::Two => numbers.extend(self.numbers.chunks_exact(4).map(signed_long)),
        }
    }

    /// Puts the K coefficients, then d, into a row of as many.
    fn store(&self, row: &mut [i32]) {
        match self.edition {
            Edition::One => {
                for (slot, bytes) in row.iter_mut().zip(self.numbers.chunks_exact(2)) {
                    *slot = i32::from(signed(bytes));
                }
            }
            Edition::Two => {
                for (slot, bytes) in row.iter_mut().zip(self.numbers.chunks_exact(4)) {
                    *slot = signed_long(bytes);
                }
            }
        }
    }
}

impl<'a> Bundle<'a> {
    /// Reads a bundle that is not above the longest of any edition. `wanted` is
    /// A's K when B is read.
    pub fn read(file: &'a [u8], name: u8, wanted: Option<usize>) -> Result<Bundle<'a>, Answer> {
        Bundle::read_in(file, name, &Edition::ALL, wanted)
    }

    /// The same, where only some editions are allowed.
    #[inline]
    pub fn read_in(
        file: &'a [u8],
        name: u8,
        editions: &[Edition],
        wanted: Option<usize>,
    ) -> Result<Bundle<'a>, Answer> {
        let header_fault =
            |HeaderFault(number, place): HeaderFault| Answer::refused(number, name, place);
        let mut fields = Fields::of(file);
        let edition = read_edition(&mut fields, is_known, editions).map_err(header_fault)?;
        // Only now is it known how long the file may be.
        length_within(file, edition.bundle_bytes(), name)?;
        let k = read_constants(&mut fields, is_known, wanted).map_err(header_fault)?;
        let length = edition.number_bytes() * (k + 1);
        let mut count = 0;
        let mut starts = [0; limits::CONSTRAINTS];
        loop {
            let field = match fields.take() {
                Ok(Some(field)) => field,
                Ok(None) => break,
                Err(Unfinished(place)) => return Err(Answer::refused(NOT_WHOLE, name, place)),
            };
            let refuse = |number| Err(Answer::refused(number, name, field.place));
            match field.tag {
                TAG_INEQUALITY..=TAG_DISEQUALITY => {}
                TAG_EDITION | TAG_CONSTANTS => return refuse(OUT_OF_PLACE),
                _ => return refuse(UNKNOWN_TAG),
            }
            if field.contents.len() != length {
                return refuse(WRONG_LENGTH);
            }
            if count == limits::CONSTRAINTS {
                return refuse(TOO_MANY_CONSTRAINTS);
            }
            if edition == Edition::Two && has_lowest(field.contents) {
                return refuse(OUT_OF_RANGE);
            }
            // Below 8,192, so two bytes hold it.
            starts[count] = field.place as u16;
            count += 1;
        }
        Ok(Bundle {
            file,
            edition,
            k,
            count,
            starts,
        })
    }

    pub fn count(&self) -> usize {
        self.count
    }

    /// The whole field of a constraint; none for a number not below the count.
    pub fn field(&self, index: usize) -> Option<&'a [u8]> {
        let start = usize::from(*self.starts[..self.count].get(index)?);
        let length = 3 + self.edition.number_bytes() * (self.k + 1);
        Some(&self.file[start..start + length])
    }

    /// Where the constraints stand in the file, in order.
    pub fn places(&self) -> impl Iterator<Item = usize> + '_ {
        self.starts[..self.count].iter().copied().map(usize::from)
    }

    /// The constraints in file order.
    pub fn constraints(&self) -> impl Iterator<Item = Constraint<'a>> + '_ {
        (0..self.count)
            .filter_map(|index| self.field(index))
            .map(|field| Constraint {
                kind: match field[0] - TAG_INEQUALITY {
                    0 => Kind::Inequality,
                    1 => Kind::Equality,
                    _ => Kind::Disequality,
                },
                edition: self.edition,
                numbers: &field[3..],
            })
    }
}

/// Whether bundles have the tag.
fn is_known(tag: u8) -> bool {
    matches!(tag, TAG_EDITION..=TAG_DISEQUALITY)
}

/// Whether one of these four-byte numbers is -2^31, which no line may hold.
fn has_lowest(numbers: &[u8]) -> bool {
    numbers
        .chunks_exact(4)
        .any(|bytes| signed_long(bytes) == i32::MIN)
}

/// Refuses a file above its limit.
pub(crate) fn length_within(file: &[u8], limit: usize, name: u8) -> Result<(), Answer> {
    if file.len() > limit {
        return Err(Answer::refused(TOO_LONG, name, 0));
    }
    Ok(())
}

/// Reads a bundle into kinds (0 inequality, 1 equality, 2 disequality) and
/// numbers (for each constraint its K coefficients, then d).
pub fn read_bundle(file: &[u8], kinds: &mut [u8], numbers: &mut [i32]) -> ReadResult {
    match read_into(file, kinds, numbers) {
        Ok(bundle) => ReadResult {
            answer: Answer::ACCEPTED,
            count: bundle.count,
            k: bundle.k,
            edition: bundle.edition.number(),
        },
        Err(answer) => ReadResult {
            answer,
            count: 0,
            k: 0,
            edition: 0,
        },
    }
}

fn read_into<'a>(
    file: &'a [u8],
    kinds: &mut [u8],
    numbers: &mut [i32],
) -> Result<Bundle<'a>, Answer> {
    length_within(file, limits::BUNDLE_BYTES, FILE_A)?;
    let bundle = Bundle::read(file, FILE_A, None)?;
    let width = bundle.k + 1;
    if kinds.len() < bundle.count || numbers.len() < bundle.count * width {
        return Err(Answer::refused(OUTPUT_TOO_SHORT, FILE_OUTPUT, bundle.count));
    }
    let rows = kinds.iter_mut().zip(numbers.chunks_exact_mut(width));
    for (constraint, (kind, row)) in bundle.constraints().zip(rows) {
        *kind = constraint.kind as u8;
        constraint.store(row);
    }
    Ok(bundle)
}

/// Writes a bundle of an edition from K, kinds and numbers.
pub fn write_bundle(
    edition: usize,
    k: usize,
    kinds: &[u8],
    numbers: &[i32],
    out: &mut [u8],
) -> WriteResult {
    match write_into(edition, k, kinds, numbers, out) {
        Ok(written) => WriteResult::accepted(written),
        Err((number, place)) => WriteResult::refused(Answer::refused(number, FILE_OUTPUT, place)),
    }
}

fn write_into(
    edition: usize,
    k: usize,
    kinds: &[u8],
    numbers: &[i32],
    out: &mut [u8],
) -> Result<usize, (u8, usize)> {
    let edition = u8::try_from(edition)
        .ok()
        .and_then(Edition::numbered)
        .ok_or((WRONG_EDITION, 0))?;
    if k == 0 || k > limits::CONSTANTS {
        return Err((WRONG_K, 0));
    }
    let width = k + 1;
    if kinds.len() > limits::CONSTRAINTS {
        return Err((TOO_MANY_CONSTRAINTS, 0));
    }
    if let Some(index) = kinds.iter().position(|&kind| kind >= KINDS) {
        return Err((WRONG_LIST, index));
    }
    if numbers.len() != kinds.len() * width {
        return Err((WRONG_LIST, kinds.len()));
    }
    if let Some(index) = edition.first_outside(numbers) {
        return Err((OUT_OF_RANGE, index));
    }
    let header = header_bytes(edition, k as u8);
    let length = edition.number_bytes() * width;
    // At most 8 + 32 * 71.
    let needed = header.len() + kinds.len() * (3 + length);
    if out.len() < needed {
        return Err((OUTPUT_TOO_SHORT, needed));
    }
    let (start, rest) = out.split_at_mut(header.len());
    start.copy_from_slice(&header);
    let fields = rest.chunks_exact_mut(3 + length);
    for ((&kind, row), field) in kinds.iter().zip(numbers.chunks_exact(width)).zip(fields) {
        // The length is at most 68, so its high byte is 0.
        field[0] = TAG_INEQUALITY + kind;
        field[1] = 0;
        field[2] = length as u8;
        put_numbers(edition, row, &mut field[3..]);
    }
    Ok(needed)
}

/// Writes numbers that the edition can hold.
pub(crate) fn put_numbers(edition: Edition, row: &[i32], contents: &mut [u8]) {
    match edition {
        // Two's complement: the lower two bytes are the number in two bytes.
        Edition::One => {
            for (slot, number) in contents.chunks_exact_mut(2).zip(row) {
                slot.copy_from_slice(&number.to_be_bytes()[2..]);
            }
        }
        Edition::Two => {
            for (slot, number) in contents.chunks_exact_mut(4).zip(row) {
                slot.copy_from_slice(&number.to_be_bytes());
            }
        }
    }
}
