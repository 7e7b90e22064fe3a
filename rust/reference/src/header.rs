//! The two fields that start every file: 0x01 edition and 0x02 K.

use crate::answer::{
    NOT_WHOLE, OTHER_K, OUT_OF_PLACE, UNKNOWN_TAG, WRONG_EDITION, WRONG_K, WRONG_LENGTH,
};
use crate::edition::Edition;
use crate::field::{Fields, Unfinished};
use crate::limits;

pub(crate) const TAG_EDITION: u8 = 0x01;
pub(crate) const TAG_CONSTANTS: u8 = 0x02;

/// A refusal inside the header: its number and place.
pub(crate) struct HeaderFault(pub u8, pub usize);

/// Reads 0x01 of a file that may be of any of these editions. `known` tells the
/// tags that this kind of file has. Refuses with 2, 3, 4, 6 and 5, in this order.
#[inline]
pub(crate) fn read_edition(
    fields: &mut Fields,
    known: impl Fn(u8) -> bool,
    editions: &[Edition],
) -> Result<Edition, HeaderFault> {
    let (number, place) = read_byte(fields, known, TAG_EDITION)?;
    Edition::numbered(number)
        .filter(|edition| editions.contains(edition))
        .ok_or(HeaderFault(WRONG_EDITION, place))
}

/// Reads 0x02 behind 0x01. `wanted` is the K that an earlier file or the list of
/// values has set. Refuses with 2, 3, 4, 6, 7 and 9, in this order.
#[inline]
pub(crate) fn read_constants(
    fields: &mut Fields,
    known: impl Fn(u8) -> bool,
    wanted: Option<usize>,
) -> Result<usize, HeaderFault> {
    let (k, place) = read_byte(fields, known, TAG_CONSTANTS)?;
    let k = usize::from(k);
    if k == 0 || k > limits::CONSTANTS {
        return Err(HeaderFault(WRONG_K, place));
    }
    if wanted.is_some_and(|wanted| wanted != k) {
        return Err(HeaderFault(OTHER_K, place));
    }
    Ok(k)
}

/// The one byte of the next field, which must have this tag; and its place.
#[inline]
fn read_byte(
    fields: &mut Fields,
    known: impl Fn(u8) -> bool,
    tag: u8,
) -> Result<(u8, usize), HeaderFault> {
    let field = match fields.take() {
        Ok(Some(field)) => field,
        Ok(None) => return Err(HeaderFault(NOT_WHOLE, fields.place())),
        Err(Unfinished(place)) => return Err(HeaderFault(NOT_WHOLE, place)),
    };
    let number = match field.contents {
        _ if !known(field.tag) => UNKNOWN_TAG,
        _ if field.tag != tag => OUT_OF_PLACE,
        &[byte] => return Ok((byte, field.place)),
        _ => WRONG_LENGTH,
    };
    Err(HeaderFault(number, field.place))
}

/// The header fields of a file with K constants.
pub(crate) fn header_bytes(edition: Edition, k: u8) -> [u8; 8] {
    [TAG_EDITION, 0, 1, edition.number(), TAG_CONSTANTS, 0, 1, k]
}
