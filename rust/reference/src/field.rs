//! Reading a file as fields: one-byte tag, two-byte length, contents.

/// Tags from here on are notes.
const NOTES: u8 = 0x80;
/// Tag and length.
const HEADER_BYTES: usize = 3;

/// A whole field that is not a note.
pub(crate) struct Field<'a> {
    pub tag: u8,
    /// Where the field starts in its file.
    pub place: usize,
    pub contents: &'a [u8],
}

/// The fields of a file from a place on.
pub(crate) struct Fields<'a> {
    file: &'a [u8],
    place: usize,
}

/// The place of a field, note or not, that is not whole.
pub(crate) struct Unfinished(pub usize);

impl<'a> Fields<'a> {
    pub fn of(file: &'a [u8]) -> Self {
        Fields { file, place: 0 }
    }

    /// Behind the fields taken so far; at the end the file's length.
    pub fn place(&self) -> usize {
        self.place
    }

    /// The next field that is not a note; none at the end of the file.
    #[inline]
    pub fn take(&mut self) -> Result<Option<Field<'a>>, Unfinished> {
        loop {
            let place = self.place;
            let rest = &self.file[place..];
            if rest.is_empty() {
                return Ok(None);
            }
            if rest.len() < HEADER_BYTES {
                return Err(Unfinished(place));
            }
            // At most 3 + 65,535, so the sum cannot overflow.
            let end = HEADER_BYTES + unsigned(&rest[1..HEADER_BYTES]) as usize;
            if rest.len() < end {
                return Err(Unfinished(place));
            }
            self.place = place + end;
            if rest[0] < NOTES {
                return Ok(Some(Field {
                    tag: rest[0],
                    place,
                    contents: &rest[HEADER_BYTES..end],
                }));
            }
        }
    }
}

/// Appends a field's tag and length. The length is always below 65,536 here:
/// no field that is made has more than 136 bytes of contents.
pub(crate) fn push_field_header(out: &mut Vec<u8>, tag: u8, length: u16) {
    let [high, low] = length.to_be_bytes();
    out.extend_from_slice(&[tag, high, low]);
}

/// A line number, of one byte or two.
pub(crate) fn line_number(bytes: &[u8]) -> usize {
    bytes
        .iter()
        .fold(0, |number, &byte| 256 * number + usize::from(byte))
}

/// A two-byte number without a sign.
#[inline]
pub(crate) fn unsigned(bytes: &[u8]) -> u16 {
    u16::from_be_bytes([bytes[0], bytes[1]])
}

/// A two-byte number with a sign.
#[inline]
pub(crate) fn signed(bytes: &[u8]) -> i16 {
    i16::from_be_bytes([bytes[0], bytes[1]])
}

/// A four-byte number with a sign.
#[inline]
pub(crate) fn signed_long(bytes: &[u8]) -> i32 {
    i32::from_be_bytes([bytes[0], bytes[1], bytes[2], bytes[3]])
}
