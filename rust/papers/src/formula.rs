//! A formula's file as a tree.

/// A formula; forms are K coefficients, then d.
#[derive(Clone, PartialEq, Eq, Debug)]
pub enum Formula {
    Or(Box<Formula>, Box<Formula>),
    And(Box<Formula>, Box<Formula>),
    AtMostZero(Vec<i32>),
    Zero(Vec<i32>),
    Divides(i32, Vec<i32>),
}

impl Formula {
    /// Of a file that a check has written.
    pub fn read(file: &[u8]) -> Formula {
        let mut rest = &file[8..];
        let formula = part(&mut rest);
        assert!(rest.is_empty(), "bytes behind the formula");
        formula
    }

    /// Its parts without and/or.
    pub fn leaves(&self) -> usize {
        match self {
            Formula::Or(i, j) | Formula::And(i, j) => i.leaves() + j.leaves(),
            _ => 1,
        }
    }

    /// Its levels of and/or.
    pub fn levels(&self) -> usize {
        match self {
            Formula::Or(i, j) | Formula::And(i, j) => 1 + i.levels().max(j.levels()),
            _ => 0,
        }
    }
}

fn part(rest: &mut &[u8]) -> Formula {
    let tag = rest[0];
    let length = usize::from(u16::from_be_bytes([rest[1], rest[2]]));
    let numbers = numbers(&rest[3..3 + length]);
    *rest = &rest[3 + length..];
    match tag {
        0x31 | 0x32 => {
            let i = Box::new(part(rest));
            let j = Box::new(part(rest));
            if tag == 0x31 {
                Formula::Or(i, j)
            } else {
                Formula::And(i, j)
            }
        }
        0x33 => Formula::AtMostZero(numbers),
        0x34 => Formula::Zero(numbers),
        0x35 => Formula::Divides(numbers[0], numbers[1..].to_vec()),
        _ => panic!("no part of a formula: tag {tag}"),
    }
}

fn numbers(bytes: &[u8]) -> Vec<i32> {
    bytes
        .chunks(4)
        .map(|four| i32::from_be_bytes(four.try_into().expect("four bytes")))
        .collect()
}
