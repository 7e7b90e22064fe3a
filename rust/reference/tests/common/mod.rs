//! Builders of files, and calls that also watch the lent buffers.
#![allow(dead_code)]

use reference::{check, read_bundle, show, show_answer, test_formula, write_bundle, Answer, NONE};

pub const ACCEPTED: Answer = Answer {
    number: 0,
    file: 0,
    place: 0,
    row: NONE,
    step: NONE,
    branch: NONE,
};

/// A refusal outside every row and branch.
pub fn refused(number: u8, file: u8, place: usize) -> Answer {
    Answer {
        number,
        file,
        place,
        ..ACCEPTED
    }
}

/// A refusal in the proof, with its row, and with the step and the branch that
/// are open there.
pub fn refused_at(number: u8, place: usize, [row, step, branch]: [u16; 3]) -> Answer {
    Answer {
        row,
        step,
        branch,
        ..refused(number, 3, place)
    }
}

/// Number, file and place of an answer; tree.rs tests the rest.
fn without_tree(answer: Answer) -> Answer {
    refused(answer.number, answer.file, answer.place)
}

/// Bytes from hexadecimal; spaces are passed over.
pub fn hex(text: &str) -> Vec<u8> {
    let digits: Vec<u32> = text.chars().filter_map(|c| c.to_digit(16)).collect();
    assert!(digits.len().is_multiple_of(2));
    digits
        .chunks(2)
        .map(|pair| (pair[0] * 16 + pair[1]) as u8)
        .collect()
}

pub fn field(tag: u8, contents: &[u8]) -> Vec<u8> {
    let mut bytes = vec![tag];
    bytes.extend_from_slice(&(contents.len() as u16).to_be_bytes());
    bytes.extend_from_slice(contents);
    bytes
}

pub fn edition(number: u8) -> Vec<u8> {
    field(0x01, &[number])
}

pub fn constants(k: u8) -> Vec<u8> {
    field(0x02, &[k])
}

pub fn note() -> Vec<u8> {
    field(0x9A, b"note")
}

pub fn shorts(numbers: &[i16]) -> Vec<u8> {
    numbers.iter().flat_map(|n| n.to_be_bytes()).collect()
}

pub fn longs(numbers: &[i32]) -> Vec<u8> {
    numbers.iter().flat_map(|n| n.to_be_bytes()).collect()
}

/// The constraint "t ≤ 0" of a bundle.
pub fn le(numbers: &[i16]) -> Vec<u8> {
    field(0x03, &shorts(numbers))
}

/// The constraint "t = 0" of a bundle.
pub fn eq(numbers: &[i16]) -> Vec<u8> {
    field(0x04, &shorts(numbers))
}

/// The constraint "t ≠ 0" of a bundle.
pub fn ne(numbers: &[i16]) -> Vec<u8> {
    field(0x05, &shorts(numbers))
}

/// A file of edition 1: the two header fields and the given ones.
pub fn file(k: u8, fields: &[Vec<u8>]) -> Vec<u8> {
    file_of(1, k, fields)
}

/// A file of the two header fields and the given ones.
pub fn file_of(number: u8, k: u8, fields: &[Vec<u8>]) -> Vec<u8> {
    [edition(number), constants(k), fields.concat()].concat()
}

/// A note that makes a file as long as asked for.
pub fn fill(bytes: &[u8], length: usize) -> Vec<u8> {
    let filler = field(0x80, &vec![7; length - bytes.len() - 3]);
    [bytes, &filler].concat()
}

pub fn combine(s: u8, t: u8, alpha: u16, beta: u16) -> Vec<u8> {
    let (a, b) = (alpha.to_be_bytes(), beta.to_be_bytes());
    field(0x10, &[s, t, a[0], a[1], b[0], b[1]])
}

pub fn reduce(s: u8, t: u8, alpha: i16) -> Vec<u8> {
    let a = alpha.to_be_bytes();
    field(0x11, &[s, t, a[0], a[1]])
}

pub fn scale(t: u8, alpha: u16) -> Vec<u8> {
    let a = alpha.to_be_bytes();
    field(0x12, &[t, a[0], a[1]])
}

pub fn strengthen(t: u8) -> Vec<u8> {
    field(0x13, &[t])
}

pub fn close(t: u8) -> Vec<u8> {
    field(0x14, &[t])
}

pub fn stride(t: u8, g: u16) -> Vec<u8> {
    let g = g.to_be_bytes();
    field(0x15, &[t, g[0], g[1]])
}

/// A rounding of line t by stride g and k.
pub fn round(t: u8, g: u16, k: u16) -> Vec<u8> {
    let (g, k) = (g.to_be_bytes(), k.to_be_bytes());
    field(0x16, &[t, g[0], g[1], k[0], k[1]])
}

/// A split of line t, a disequality.
pub fn split(t: u8) -> Vec<u8> {
    field(0x17, &[t])
}

/// The same in edition 2.
pub mod two {
    use super::{field, file_of, longs};

    pub fn le(numbers: &[i32]) -> Vec<u8> {
        field(0x03, &longs(numbers))
    }

    pub fn eq(numbers: &[i32]) -> Vec<u8> {
        field(0x04, &longs(numbers))
    }

    pub fn ne(numbers: &[i32]) -> Vec<u8> {
        field(0x05, &longs(numbers))
    }

    pub fn file(k: u8, fields: &[Vec<u8>]) -> Vec<u8> {
        file_of(2, k, fields)
    }

    /// A row of line numbers, multipliers, strides and amounts: two bytes each.
    fn row(tag: u8, parameters: &[u16]) -> Vec<u8> {
        let bytes: Vec<u8> = parameters.iter().flat_map(|n| n.to_be_bytes()).collect();
        field(tag, &bytes)
    }

    pub fn combine(s: u16, t: u16, alpha: u16, beta: u16) -> Vec<u8> {
        row(0x10, &[s, t, alpha, beta])
    }

    pub fn reduce(s: u16, t: u16, alpha: i16) -> Vec<u8> {
        row(0x11, &[s, t, alpha as u16])
    }

    pub fn scale(t: u16, alpha: u16) -> Vec<u8> {
        row(0x12, &[t, alpha])
    }

    pub fn strengthen(t: u16) -> Vec<u8> {
        row(0x13, &[t])
    }

    pub fn close(t: u16) -> Vec<u8> {
        row(0x14, &[t])
    }

    pub fn stride(t: u16, g: u16) -> Vec<u8> {
        row(0x15, &[t, g])
    }

    pub fn round(t: u16, g: u16, k: u16) -> Vec<u8> {
        row(0x16, &[t, g, k])
    }

    pub fn split(t: u16) -> Vec<u8> {
        row(0x17, &[t])
    }
}

/// A claim of t and tA.
pub fn claim(t: &[i32], partial: &[i32]) -> Vec<u8> {
    field(0x20, &[longs(t), longs(partial)].concat())
}

pub fn or() -> Vec<u8> {
    field(0x31, &[])
}

pub fn and() -> Vec<u8> {
    field(0x32, &[])
}

/// "t ≤ 0" in a formula.
pub fn at_most(numbers: &[i32]) -> Vec<u8> {
    field(0x33, &longs(numbers))
}

/// "t = 0" in a formula.
pub fn equals(numbers: &[i32]) -> Vec<u8> {
    field(0x34, &longs(numbers))
}

/// "g divides t" in a formula.
pub fn divides(g: i32, numbers: &[i32]) -> Vec<u8> {
    field(0x35, &[longs(&[g]), longs(numbers)].concat())
}

/// Checks with an output of the given length. The output must be unchanged
/// on refusal and behind the bytes written. Gives the whole answer.
pub fn check_whole(a: &[u8], b: &[u8], proof: &[u8], length: usize) -> (Answer, Vec<u8>) {
    let mut out = vec![0xA5; length];
    let result = check(a, b, proof, &mut out);
    assert!(out[result.written..].iter().all(|&byte| byte == 0xA5));
    assert_eq!(result.answer == ACCEPTED, result.written > 0);
    // The same again over other bytes: what is written may not depend on them.
    let mut other = vec![0x5A; length];
    assert_eq!(check(a, b, proof, &mut other), result);
    assert!(other[result.written..].iter().all(|&byte| byte == 0x5A));
    assert_eq!(out[..result.written], other[..result.written]);
    out.truncate(result.written);
    (result.answer, out)
}

/// Checks the same way; gives number, file and place of the answer only.
pub fn check_into(a: &[u8], b: &[u8], proof: &[u8], length: usize) -> (Answer, Vec<u8>) {
    let (answer, bytes) = check_whole(a, b, proof, length);
    (without_tree(answer), bytes)
}

pub fn check_all(a: &[u8], b: &[u8], proof: &[u8]) -> (Answer, Vec<u8>) {
    check_into(a, b, proof, 65_536)
}

/// The whole answer.
pub fn whole_answer(a: &[u8], b: &[u8], proof: &[u8]) -> Answer {
    check_whole(a, b, proof, 65_536).0
}

/// Number, file and place only.
pub fn answer(a: &[u8], b: &[u8], proof: &[u8]) -> Answer {
    check_all(a, b, proof).0
}

/// A check that must be accepted; gives the formula's file.
pub fn formula(a: &[u8], b: &[u8], proof: &[u8]) -> Vec<u8> {
    let (answer, bytes) = check_all(a, b, proof);
    assert_eq!(answer, ACCEPTED);
    bytes
}

pub struct Read {
    pub answer: Answer,
    pub count: usize,
    pub k: usize,
    pub edition: u8,
    pub kinds: Vec<u8>,
    pub numbers: Vec<i32>,
}

/// Reads into outputs of the given lengths, which must be unchanged on
/// refusal and behind the elements used. Gives the elements used.
pub fn read_into(file: &[u8], kinds_length: usize, numbers_length: usize) -> Read {
    let mut kinds = vec![0xA5; kinds_length];
    let mut numbers = vec![0x5AA5; numbers_length];
    let result = read_bundle(file, &mut kinds, &mut numbers);
    if result.answer != ACCEPTED {
        assert_eq!((result.count, result.k, result.edition), (0, 0, 0));
    }
    let used = result.count * (result.k + 1);
    assert!(kinds[result.count..].iter().all(|&kind| kind == 0xA5));
    assert!(numbers[used..].iter().all(|&number| number == 0x5AA5));
    kinds.truncate(result.count);
    numbers.truncate(used);
    Read {
        answer: result.answer,
        count: result.count,
        k: result.k,
        edition: result.edition,
        kinds,
        numbers,
    }
}

pub fn read(file: &[u8]) -> Read {
    read_into(file, 40, 700)
}

/// Writes in edition 1, as below.
pub fn write_into(k: u8, kinds: &[u8], numbers: &[i32], length: usize) -> (Answer, Vec<u8>) {
    write_of(1, usize::from(k), kinds, numbers, length)
}

/// Writes into an output of the given length, which must be unchanged on
/// refusal and behind the bytes written.
pub fn write_of(
    edition: usize,
    k: usize,
    kinds: &[u8],
    numbers: &[i32],
    length: usize,
) -> (Answer, Vec<u8>) {
    let mut out = vec![0xA5; length];
    let result = write_bundle(edition, k, kinds, numbers, &mut out);
    assert_eq!(result.answer == ACCEPTED, result.written > 0);
    assert!(out[result.written..].iter().all(|&byte| byte == 0xA5));
    out.truncate(result.written);
    (result.answer, out)
}

/// Shows a line: the answer, and the part as file, start and end.
pub fn show_part(a: &[u8], b: &[u8], line: usize) -> (Answer, Option<(u8, usize, usize)>) {
    let answer = show_answer(a, b, line);
    let part = show(a, b, line);
    if answer != ACCEPTED {
        assert!(part.is_empty());
        assert_eq!(part.as_ptr(), a.as_ptr());
        return (answer, None);
    }
    for (name, file) in [(1, a), (2, b)] {
        let start = (part.as_ptr() as usize).wrapping_sub(file.as_ptr() as usize);
        if start < file.len() {
            return (answer, Some((name, start, start + part.len())));
        }
    }
    panic!("the part is in neither bundle");
}

pub fn test(formula: &[u8], values: &[i32]) -> Result<bool, Answer> {
    let result = test_formula(formula, values);
    if result.answer == ACCEPTED {
        Ok(result.holds)
    } else {
        assert!(!result.holds);
        Err(result.answer)
    }
}
