//! The fields of a file, for showing and for making. What is accepted is for the verified library to say.

pub mod tag {
    pub const EDITION: u8 = 0x01;
    pub const CONSTANTS: u8 = 0x02;
    pub const INEQUALITY: u8 = 0x03;
    pub const EQUALITY: u8 = 0x04;
    pub const DISEQUALITY: u8 = 0x05;
    pub const COMBINE: u8 = 0x10;
    pub const REDUCE: u8 = 0x11;
    pub const SCALE: u8 = 0x12;
    pub const STRENGTHEN: u8 = 0x13;
    pub const CLOSE: u8 = 0x14;
    pub const STRIDE: u8 = 0x15;
    pub const ROUND: u8 = 0x16;
    pub const SPLIT: u8 = 0x17;
    pub const CLAIM: u8 = 0x20;
    pub const OR: u8 = 0x31;
    pub const AND: u8 = 0x32;
    pub const AT_MOST: u8 = 0x33;
    pub const EQUAL: u8 = 0x34;
    pub const DIVIDES: u8 = 0x35;
    pub const NOTE: u8 = 0x80;
}

use tag::*;

#[derive(Clone, Copy, PartialEq, Eq, Debug)]
pub enum Sort {
    Bundle,
    Proof,
    Formula,
}

/// A field: the byte at which it starts, its tag, and its numbers; those of a note are its bytes.
#[derive(Clone, PartialEq, Debug)]
pub struct Field {
    pub place: usize,
    pub tag: u8,
    pub numbers: Vec<i64>,
}

impl Field {
    /// A field that is to be written, so that it has no place yet.
    pub fn new(tag: u8, numbers: &[i64]) -> Field {
        let numbers = numbers.to_vec();
        Field {
            place: 0,
            tag,
            numbers,
        }
    }

    pub fn is_note(&self) -> bool {
        self.tag >= NOTE
    }

    pub fn is_constraint(&self) -> bool {
        (INEQUALITY..=DISEQUALITY).contains(&self.tag)
    }

    pub fn is_row(&self) -> bool {
        (COMBINE..=SPLIT).contains(&self.tag)
    }

    /// Whether it is a row that adds a line to its own branch, which a claim may repeat.
    pub fn makes_line(&self) -> bool {
        (COMBINE..=SCALE).contains(&self.tag)
    }

    pub fn is_close(&self) -> bool {
        matches!(self.tag, CLOSE | STRIDE)
    }

    /// How many branches it opens.
    pub fn branches(&self) -> usize {
        match (self.tag, &self.numbers[..]) {
            (STRENGTHEN, _) => 3,
            (ROUND, [.., k]) => *k as usize + 1,
            (SPLIT, _) => 2,
            _ => 0,
        }
    }
}

/// A file as far as it is laid out.
pub struct File {
    pub sort: Sort,
    pub bytes: Vec<u8>,
    /// 0 where the header does not come so far.
    pub edition: u8,
    pub constants: usize,
    pub fields: Vec<Field>,
    /// Where the layout ends early, and why.
    pub fault: Option<(usize, String)>,
}

impl File {
    pub fn read(sort: Sort, bytes: Vec<u8>) -> File {
        let mut file = File {
            sort,
            bytes,
            edition: 0,
            constants: 0,
            fields: Vec::new(),
            fault: None,
        };
        let mut place = 0;
        while place < file.bytes.len() && file.fault.is_none() {
            match file.field(place) {
                Ok(field) => {
                    match field.tag {
                        EDITION => file.edition = field.numbers[0] as u8,
                        CONSTANTS => file.constants = field.numbers[0] as usize,
                        _ => {}
                    }
                    file.fields.push(field);
                    place += 3 + file.length(place);
                }
                Err(why) => file.fault = Some((place, why)),
            }
        }
        if file.constants == 0 && file.fault.is_none() {
            file.fault = Some((place, "the file ends inside its header".into()));
        }
        file
    }

    /// The fields up to the end of the header, and those behind it.
    pub fn parts(&self) -> (&[Field], &[Field]) {
        let header = self.fields.iter().position(|field| field.tag == CONSTANTS);
        let length = header.map_or(self.fields.len(), |index| index + 1);
        self.fields.split_at(length)
    }

    pub fn constraints(&self) -> usize {
        let all = self.fields.iter();
        all.filter(|field| field.is_constraint()).count()
    }

    /// The bytes of the field at a place.
    pub fn bytes_of(&self, field: &Field) -> &[u8] {
        &self.bytes[field.place..][..3 + self.length(field.place)]
    }

    /// The lengths of a field's numbers.
    pub fn widths_of(&self, field: &Field) -> Vec<usize> {
        let laid_out = widths(self.sort, field.tag, self.edition, self.constants);
        laid_out.unwrap_or(vec![1; field.numbers.len()])
    }

    fn length(&self, place: usize) -> usize {
        let header = self.bytes.get(place + 1..place + 3);
        header.map_or(0, |two| usize::from(two[0]) << 8 | usize::from(two[1]))
    }

    /// The field at a place, or why there is none.
    fn field(&self, place: usize) -> Result<Field, String> {
        let whole = "bytes that are no whole field";
        let length = self.length(place);
        let contents = self.bytes.get(place + 3..place + 3 + length).ok_or(whole)?;
        let tag = self.bytes[place];
        let widths = match widths(self.sort, tag, self.edition, self.constants) {
            Some(widths) => widths,
            None if tag >= NOTE => vec![1; length],
            None => return Err(format!("tag 0x{tag:02X}, which such a file does not have")),
        };
        let in_place = match tag {
            EDITION => self.edition == 0,
            CONSTANTS => self.edition != 0 && self.constants == 0,
            _ => self.constants != 0 || tag >= NOTE,
        };
        if !in_place {
            return Err(format!("tag 0x{tag:02X} where it may not stand"));
        }
        let expected: usize = widths.iter().sum();
        if length != expected {
            return Err(format!("tag 0x{tag:02X} of {length} bytes, not {expected}"));
        }
        let mut rest = contents;
        let mut numbers = Vec::new();
        for width in widths {
            let (number, behind) = rest.split_at(width);
            rest = behind;
            let value = number.iter().fold(0, |n: i64, b| n << 8 | i64::from(*b));
            let bits = 64 - 8 * width;
            let signed = is_signed(tag, numbers.len());
            numbers.push(if signed { value << bits >> bits } else { value });
        }
        let most = if self.sort == Sort::Formula { 1 } else { 2 };
        match tag {
            EDITION if !(1..=most).contains(&numbers[0]) => Err(format!("edition {}", numbers[0])),
            CONSTANTS if !(1..=16).contains(&numbers[0]) => {
                Err(format!("{} constants, not 1 to 16", numbers[0]))
            }
            _ => Ok(Field {
                place,
                tag,
                numbers,
            }),
        }
    }
}

/// The lengths of the numbers that a field has behind its header; none for a note, and for a tag that the file lacks.
fn widths(sort: Sort, tag: u8, edition: u8, constants: usize) -> Option<Vec<usize>> {
    let line = usize::from(edition);
    Some(match (sort, tag) {
        (_, EDITION | CONSTANTS) => vec![1],
        (Sort::Bundle, INEQUALITY..=DISEQUALITY) => vec![2 * line; constants + 1],
        (Sort::Proof, COMBINE) => vec![line, line, 2, 2],
        (Sort::Proof, REDUCE) => vec![line, line, 2],
        (Sort::Proof, SCALE | STRIDE) => vec![line, 2],
        (Sort::Proof, STRENGTHEN | CLOSE | SPLIT) => vec![line],
        (Sort::Proof, ROUND) => vec![line, 2, 2],
        (Sort::Proof, CLAIM) => vec![4; 2 * (constants + 1)],
        (Sort::Formula, OR | AND) => vec![],
        (Sort::Formula, AT_MOST | EQUAL) => vec![4; constants + 1],
        (Sort::Formula, DIVIDES) => vec![4; constants + 2],
        _ => return None,
    })
}

fn is_signed(tag: u8, index: usize) -> bool {
    match tag {
        REDUCE => index == 2,
        EDITION | CONSTANTS | COMBINE..=SPLIT | NOTE.. => false,
        _ => true,
    }
}

/// The bytes of a file's fields. Numbers have to fit, which whoever makes the fields sees to.
pub fn write(sort: Sort, fields: &[Field]) -> Vec<u8> {
    let (mut edition, mut constants) = (0, 0);
    let mut out = Vec::new();
    for Field { tag, numbers, .. } in fields {
        match *tag {
            EDITION => edition = numbers[0] as u8,
            CONSTANTS => constants = numbers[0] as usize,
            _ => {}
        }
        let widths = widths(sort, *tag, edition, constants).unwrap_or(vec![1; numbers.len()]);
        out.push(*tag);
        let length = widths.iter().sum::<usize>() as u16;
        out.extend_from_slice(&length.to_be_bytes());
        for (number, width) in numbers.iter().zip(widths) {
            out.extend_from_slice(&number.to_be_bytes()[8 - width..]);
        }
    }
    out
}

/// What sort of file the first field behind the header belongs to.
pub fn sort(bytes: &[u8]) -> Option<Sort> {
    let mut place = 0;
    while let Some(&[tag, high, low]) = bytes.get(place..place + 3) {
        match tag {
            INEQUALITY..=DISEQUALITY => return Some(Sort::Bundle),
            COMBINE..=SPLIT | CLAIM => return Some(Sort::Proof),
            OR..=DIVIDES => return Some(Sort::Formula),
            _ if tag > CONSTANTS && tag < NOTE => return None,
            _ => place += 3 + usize::from(u16::from_be_bytes([high, low])),
        }
    }
    None
}
