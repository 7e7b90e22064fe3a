//! Builders of fields and files. Those without a layout are of edition 1.

use reference::Edition;

/// Appends a field.
pub fn push_field(out: &mut Vec<u8>, tag: u8, contents: &[u8]) {
    out.push(tag);
    out.extend_from_slice(&(contents.len() as u16).to_be_bytes());
    out.extend_from_slice(contents);
}

pub fn field(tag: u8, contents: &[u8]) -> Vec<u8> {
    let mut bytes = Vec::with_capacity(3 + contents.len());
    push_field(&mut bytes, tag, contents);
    bytes
}

/// The two header fields of edition 1, in which formulas are.
pub fn header(k: u8) -> Vec<u8> {
    header_of(Edition::One, k)
}

/// The two header fields.
pub fn header_of(edition: Edition, k: u8) -> Vec<u8> {
    vec![1, 0, 1, edition.number(), 2, 0, 1, k]
}

/// A file of edition 1: the two header fields and the given ones.
pub fn file(k: u8, fields: &[Vec<u8>]) -> Vec<u8> {
    file_of(Edition::One, k, fields)
}

/// A file of the two header fields and the given ones.
pub fn file_of(edition: Edition, k: u8, fields: &[Vec<u8>]) -> Vec<u8> {
    let mut bytes = header_of(edition, k);
    for part in fields {
        bytes.extend_from_slice(part);
    }
    bytes
}

pub fn note() -> Vec<u8> {
    field(0x80, &[1, 2])
}

/// A note that makes a file as long as asked for; the file must be at least
/// three bytes shorter.
pub fn fill(file: &mut Vec<u8>, length: usize) {
    let contents = vec![0x55; length - file.len() - 3];
    push_field(file, 0x80, &contents);
}

fn longs(numbers: &[i32]) -> Vec<u8> {
    numbers.iter().flat_map(|n| n.to_be_bytes()).collect()
}

/// The fields of bundles and proofs as an edition lays them out.
#[derive(Clone, Copy)]
pub struct Layout(pub Edition);

impl Layout {
    /// A constraint of a kind: 0 "t ≤ 0", 1 "t = 0", 2 "t ≠ 0". The edition must
    /// hold the numbers.
    pub fn constraint(self, kind: u8, numbers: &[i32]) -> Vec<u8> {
        let width = self.0.number_bytes();
        let lower = numbers
            .iter()
            .flat_map(|n| n.to_be_bytes().into_iter().skip(4 - width));
        field(0x03 + kind, &lower.collect::<Vec<u8>>())
    }

    /// A row of line numbers, then of numbers of two bytes.
    fn row(self, tag: u8, lines: &[usize], numbers: &[u16]) -> Vec<u8> {
        let mut contents = Vec::new();
        for &line in lines {
            let width = self.0.line_bytes();
            contents.extend_from_slice(&(line as u16).to_be_bytes()[2 - width..]);
        }
        contents.extend(numbers.iter().flat_map(|n| n.to_be_bytes()));
        field(tag, &contents)
    }

    pub fn combine(self, s: usize, t: usize, alpha: u16, beta: u16) -> Vec<u8> {
        self.row(0x10, &[s, t], &[alpha, beta])
    }

    pub fn reduce(self, s: usize, t: usize, alpha: i16) -> Vec<u8> {
        self.row(0x11, &[s, t], &[alpha as u16])
    }

    pub fn scale(self, t: usize, alpha: u16) -> Vec<u8> {
        self.row(0x12, &[t], &[alpha])
    }

    pub fn strengthen(self, t: usize) -> Vec<u8> {
        self.row(0x13, &[t], &[])
    }

    pub fn close(self, t: usize) -> Vec<u8> {
        self.row(0x14, &[t], &[])
    }

    pub fn stride(self, t: usize, g: u16) -> Vec<u8> {
        self.row(0x15, &[t], &[g])
    }

    /// A rounding of line t by stride g and k.
    pub fn rounding(self, t: usize, g: u16, k: u16) -> Vec<u8> {
        self.row(0x16, &[t], &[g, k])
    }

    /// A split of line t, a disequality.
    pub fn split(self, t: usize) -> Vec<u8> {
        self.row(0x17, &[t], &[])
    }
}

const FIRST: Layout = Layout(Edition::One);

/// A constraint of a bundle, "t = 0" or "t ≤ 0".
pub fn constraint(equality: bool, numbers: &[i16]) -> Vec<u8> {
    constraint_of(u8::from(equality), numbers)
}

/// The constraint "t ≠ 0" of a bundle.
pub fn disequality(numbers: &[i16]) -> Vec<u8> {
    constraint_of(2, numbers)
}

/// A constraint of a kind.
pub fn constraint_of(kind: u8, numbers: &[i16]) -> Vec<u8> {
    let numbers: Vec<i32> = numbers.iter().map(|&n| i32::from(n)).collect();
    FIRST.constraint(kind, &numbers)
}

pub fn combine(s: u8, t: u8, alpha: u16, beta: u16) -> Vec<u8> {
    FIRST.combine(s.into(), t.into(), alpha, beta)
}

pub fn reduce(s: u8, t: u8, alpha: i16) -> Vec<u8> {
    FIRST.reduce(s.into(), t.into(), alpha)
}

pub fn scale(t: u8, alpha: u16) -> Vec<u8> {
    FIRST.scale(t.into(), alpha)
}

pub fn strengthen(t: u8) -> Vec<u8> {
    FIRST.strengthen(t.into())
}

pub fn close(t: u8) -> Vec<u8> {
    FIRST.close(t.into())
}

pub fn stride(t: u8, g: u16) -> Vec<u8> {
    FIRST.stride(t.into(), g)
}

/// A rounding of line t by stride g and k.
pub fn rounding(t: u8, g: u16, k: u16) -> Vec<u8> {
    FIRST.rounding(t.into(), g, k)
}

/// A split of line t, a disequality.
pub fn split(t: u8) -> Vec<u8> {
    FIRST.split(t.into())
}

/// A claim of t and tA.
pub fn claim(t: &[i32], partial: &[i32]) -> Vec<u8> {
    field(0x20, &[longs(t), longs(partial)].concat())
}

pub fn or() -> Vec<u8> {
    field(0x31, &[])
}

pub fn and() -> Vec<u8> {
    field(0x32, &[])
}

/// "t ≤ 0" or "t = 0" in a formula.
pub fn comparison(equality: bool, numbers: &[i32]) -> Vec<u8> {
    field(if equality { 0x34 } else { 0x33 }, &longs(numbers))
}

/// "g divides t" in a formula.
pub fn divides(g: i32, numbers: &[i32]) -> Vec<u8> {
    field(0x35, &[longs(&[g]), longs(numbers)].concat())
}
