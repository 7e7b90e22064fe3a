//! The next short proof, found without making them all: the rows are gone
//! through in the order of their bytes, and the lines that they make are carried
//! along. What `short` gives is what it must give; this is to be timed.
//!
//! Tables of as many rows are ordered by their first row, then by the second,
//! then by the third, as a row's tag tells its length. The rows before the last
//! make a line, as a strengthen needs three closes; the last is a close.

use crate::answer::*;
use crate::bundle::{Kind, WriteResult};
use crate::check::{CLOSE_BY_NUMBER, CLOSE_BY_STRIDE, COMBINE, REDUCE, SCALE};
use crate::edition::Edition;
use crate::header::header_bytes;
use crate::limits;
use crate::short::{pair, CONSTRAINTS, ROWS};

/// The multipliers of a reduce in the order of their bytes.
const SIGNED: [i16; 4] = [1, 2, -2, -1];
/// Most bytes of a table: two combines and a close by stride.
const TABLE: usize = 8 + 2 * 9 + 6;

/// Writes the short proof after the given one, or the first if only the header
/// is given; as `next_proof` does.
pub fn search_next_proof(a: &[u8], b: &[u8], table: &[u8], out: &mut [u8]) -> WriteResult {
    match found(a, b, table) {
        Err(answer) => WriteResult::refused(answer),
        Ok((bytes, length)) => match out.get_mut(..length) {
            Some(part) => {
                part.copy_from_slice(&bytes[..length]);
                WriteResult::accepted(length)
            }
            None => WriteResult::refused(Answer::refused(OUTPUT_TOO_SHORT, FILE_OUTPUT, length)),
        },
    }
}

fn found(a: &[u8], b: &[u8], table: &[u8]) -> Result<([u8; TABLE], usize), Answer> {
    let (first, second) = pair(a, b)?;
    // K is at most 16.
    let header = header_bytes(Edition::One, first.k as u8);
    let mut lines = Lines::none(first.k + 1);
    let mut numbers = Vec::with_capacity(limits::CONSTANTS + 1);
    for (own, bundle) in [(true, &first), (false, &second)] {
        for constraint in bundle.constraints() {
            numbers.clear();
            constraint.push_to(&mut numbers);
            lines.start(constraint.kind, &numbers, own);
        }
    }
    let outside = |number| Answer::refused(number, FILE_OUTPUT, 0);
    let rows = table
        .strip_prefix(&header)
        .and_then(|rows| lines.places(rows))
        .ok_or(outside(NO_SHORT_PROOF))?;
    let next = lines.after(rows).ok_or(outside(NO_NEXT))?;
    let mut bytes = [0; TABLE];
    bytes[..8].copy_from_slice(&header);
    let mut length = 8;
    for (index, &place) in next.rows().iter().enumerate() {
        let lines = lines.given + index;
        let row = if index + 1 == next.count {
            Row::close(place, lines)
        } else {
            Row::deriving(place, lines)
        };
        length += row.put(&mut bytes[length..]);
    }
    Ok((bytes, length))
}

/// A row with its parameters.
#[derive(Clone, Copy)]
enum Row {
    Combine(usize, usize, i16, i16),
    Reduce(usize, usize, i16),
    Scale(usize, i16),
    ByNumber(usize),
    ByStride(usize, i16),
}

impl Row {
    /// How many rows make a line out of so many.
    fn count(lines: usize) -> usize {
        8 * lines * lines + 2 * lines
    }

    /// The row at a place among those that make a line, in the order of bytes.
    fn deriving(place: usize, lines: usize) -> Row {
        let pairs = 4 * lines * lines;
        let two = |index: usize| (index / (4 * lines), index / 4 % lines);
        let of = |index: usize| 1 + (index % 2) as i16;
        if place < pairs {
            let (s, t) = two(place);
            Row::Combine(s, t, of(place / 2), of(place))
        } else if place < 2 * pairs {
            let (s, t) = two(place - pairs);
            Row::Reduce(s, t, SIGNED[place % 4])
        } else {
            let place = place - 2 * pairs;
            Row::Scale(place / 2, of(place))
        }
    }

    /// The close at a place among those of so many lines, in the order of bytes.
    fn close(place: usize, lines: usize) -> Row {
        match place.checked_sub(lines) {
            None => Row::ByNumber(place),
            Some(place) => Row::ByStride(place / 3, 2 + (place % 3) as i16),
        }
    }

    /// Takes a row from the front of bytes; gives its place among those of so
    /// many lines, and whether it is a close.
    fn take(bytes: &mut &[u8], lines: usize) -> Option<(usize, bool)> {
        let pairs = 4 * lines * lines;
        let line = |byte: u8| Some(usize::from(byte)).filter(|&line| line < lines);
        let two = |s, t| Some(4 * (line(s)? * lines + line(t)?));
        let of = |byte: u8| matches!(byte, 1 | 2).then(|| usize::from(byte) - 1);
        let (found, rest) = match **bytes {
            [COMBINE, 0, 6, s, t, 0, alpha, 0, beta, ref rest @ ..] => {
                let place = two(s, t)? + 2 * of(alpha)? + of(beta)?;
                ((place, false), rest)
            }
            [REDUCE, 0, 4, s, t, high, low, ref rest @ ..] => {
                let alpha = i16::from_be_bytes([high, low]);
                let index = SIGNED.iter().position(|&one| one == alpha)?;
                ((pairs + two(s, t)? + index, false), rest)
            }
            [SCALE, 0, 3, t, 0, alpha, ref rest @ ..] => {
                ((2 * pairs + 2 * line(t)? + of(alpha)?, false), rest)
            }
            [CLOSE_BY_NUMBER, 0, 1, t, ref rest @ ..] => ((line(t)?, true), rest),
            [CLOSE_BY_STRIDE, 0, 3, t, 0, g @ 2..=4, ref rest @ ..] => {
                ((lines + 3 * line(t)? + usize::from(g) - 2, true), rest)
            }
            _ => return None,
        };
        *bytes = rest;
        Some(found)
    }

    /// Puts the row's bytes down and gives their number.
    fn put(self, out: &mut [u8]) -> usize {
        let mut put = |bytes: &[u8]| {
            out[..bytes.len()].copy_from_slice(bytes);
            bytes.len()
        };
        // Lines are below six.
        match self {
            Row::Combine(s, t, alpha, beta) => {
                let [(a, b), (c, d)] = [alpha, beta].map(halves);
                put(&[COMBINE, 0, 6, s as u8, t as u8, a, b, c, d])
            }
            Row::Reduce(s, t, alpha) => {
                let (high, low) = halves(alpha);
                put(&[REDUCE, 0, 4, s as u8, t as u8, high, low])
            }
            Row::Scale(t, alpha) => put(&[SCALE, 0, 3, t as u8, 0, alpha as u8]),
            Row::ByNumber(t) => put(&[CLOSE_BY_NUMBER, 0, 1, t as u8]),
            Row::ByStride(t, g) => put(&[CLOSE_BY_STRIDE, 0, 3, t as u8, 0, g as u8]),
        }
    }
}

fn halves(number: i16) -> (u8, u8) {
    let [high, low] = number.to_be_bytes();
    (high, low)
}

/// A table as the places of its rows; all but the last make a line.
#[derive(Clone, Copy)]
struct Places {
    count: usize,
    rows: [usize; ROWS],
}

impl Places {
    fn rows(&self) -> &[usize] {
        &self.rows[..self.count]
    }
}

/// Most lines: the constraints, and one of each row but the last.
const LINES: usize = CONSTRAINTS + ROWS - 1;
/// Most numbers of a line: t and tA.
const NUMBERS: usize = 2 * (limits::CONSTANTS + 1);

/// The lines at the end of some rows. Those from `given` on are overwritten as
/// the rows change.
struct Lines {
    width: usize,
    given: usize,
    kinds: [Kind; LINES],
    numbers: [[i32; NUMBERS]; LINES],
    /// The closes that a line passes, a bit each: by number, by 2, 3, 4.
    closes: [u8; LINES],
}

impl Lines {
    fn none(width: usize) -> Lines {
        Lines {
            width,
            given: 0,
            kinds: [Kind::Disequality; LINES],
            numbers: [[0; NUMBERS]; LINES],
            closes: [0; LINES],
        }
    }

    /// Adds a constraint.
    fn start(&mut self, kind: Kind, numbers: &[i32], own: bool) {
        let line = &mut self.numbers[self.given];
        line[..self.width].copy_from_slice(numbers);
        if own {
            line[self.width..2 * self.width].copy_from_slice(numbers);
        }
        self.kinds[self.given] = kind;
        self.closes[self.given] = self.closes_of(self.given);
        self.given += 1;
    }

    /// The closes that a line passes.
    fn closes_of(&self, line: usize) -> u8 {
        let (coefficients, d) = self.numbers[line].split_at(self.width - 1);
        let (any, d) = (coefficients.iter().fold(0, |any, c| any | c), d[0]);
        match self.kinds[line] {
            Kind::Disequality => 0,
            Kind::Inequality => u8::from(any == 0 && d > 0),
            Kind::Equality => {
                let mut closes = u8::from(any == 0 && d != 0);
                // 2 and 4 divide all of them just where they divide all bits.
                closes |= u8::from(any & 1 == 0 && d & 1 != 0) << 1;
                closes |= u8::from(any & 3 == 0 && d & 3 != 0) << 3;
                let by_3 = d % 3 != 0 && coefficients.iter().all(|c| c % 3 == 0);
                closes | u8::from(by_3) << 2
            }
        }
    }

    /// Makes the line of a row the newest of so many more; not where it is
    /// refused.
    fn make(&mut self, row: Row, lines: usize) -> bool {
        let (s, alpha, t, beta) = match row {
            Row::Combine(s, t, alpha, beta) => {
                if [s, t].iter().any(|&l| self.kinds[l] != Kind::Inequality) {
                    return false;
                }
                (s, alpha, t, beta)
            }
            Row::Reduce(s, t, alpha) => {
                if self.kinds[s] == Kind::Disequality || self.kinds[t] != Kind::Equality {
                    return false;
                }
                (s, 1, t, alpha)
            }
            Row::Scale(t, alpha) => {
                if self.kinds[t] == Kind::Disequality {
                    return false;
                }
                (t, alpha, t, 0)
            }
            Row::ByNumber(_) | Row::ByStride(..) => return false,
        };
        let (alpha, beta) = (i64::from(alpha), i64::from(beta));
        let (old, new) = self.numbers.split_at_mut(lines);
        let size = 2 * self.width;
        let mut most = 0;
        for ((slot, &s), &t) in new[0].iter_mut().zip(&old[s]).zip(&old[t]).take(size) {
            let number = alpha * i64::from(s) + beta * i64::from(t);
            most = most.max(number.abs());
            *slot = number as i32;
        }
        if most > limits::NUMBER {
            return false;
        }
        self.kinds[lines] = self.kinds[s];
        self.closes[lines] = self.closes_of(lines);
        true
    }

    /// Whether the close at a place is passed by so many lines.
    fn passes(&self, place: usize, lines: usize) -> bool {
        match Row::close(place, lines) {
            Row::ByStride(t, g) => self.closes[t] >> (g - 1) & 1 == 1,
            Row::ByNumber(t) => self.closes[t] & 1 == 1,
            _ => false,
        }
    }

    /// The places of the rows of a table that is a short proof, or of none.
    fn places(&mut self, mut bytes: &[u8]) -> Option<Places> {
        let mut found = Places {
            count: 0,
            rows: [0; ROWS],
        };
        while !bytes.is_empty() {
            let lines = self.given + found.count;
            let slot = found.rows.get_mut(found.count)?;
            let (place, is_close) = Row::take(&mut bytes, lines)?;
            *slot = place;
            found.count += 1;
            if is_close {
                return (bytes.is_empty() && self.passes(place, lines)).then_some(found);
            }
            if found.count == ROWS || !self.make(Row::deriving(place, lines), lines) {
                return None;
            }
        }
        (found.count == 0).then_some(found)
    }

    /// The first close from a place on that so many lines pass.
    fn close_from(&self, place: usize, lines: usize) -> Option<usize> {
        (place..4 * lines).find(|&place| self.passes(place, lines))
    }

    /// The short proof after a table, which is one or has no rows.
    fn after(&mut self, table: Places) -> Option<Places> {
        let given = self.given;
        // Where the rows of the next table start: behind the last of this one.
        let mut from = table.rows;
        if let Some(last) = table.count.checked_sub(1) {
            from[last] += 1;
        }
        for count in table.count.max(1)..=ROWS {
            let found = match count {
                1 => self.close_from(from[0], given).map(|close| [close, 0, 0]),
                2 => self.two(from),
                _ => self.three(from),
            };
            if let Some(rows) = found {
                return Some(Places { count, rows });
            }
            from = [0; ROWS];
        }
        None
    }

    /// The first table of two rows from there on.
    fn two(&mut self, [first, mut close, _]: [usize; ROWS]) -> Option<[usize; ROWS]> {
        let given = self.given;
        for row in first..Row::count(given) {
            if self.make(Row::deriving(row, given), given) {
                if let Some(close) = self.close_from(close, given + 1) {
                    return Some([row, close, 0]);
                }
            }
            close = 0;
        }
        None
    }

    /// The first table of three rows from there on.
    fn three(&mut self, [first, mut second, mut close]: [usize; ROWS]) -> Option<[usize; ROWS]> {
        let given = self.given;
        for row in first..Row::count(given) {
            if self.make(Row::deriving(row, given), given) {
                let lines = given + 1;
                for next in second..Row::count(lines) {
                    if self.make(Row::deriving(next, lines), lines) {
                        if let Some(close) = self.close_from(close, lines + 1) {
                            return Some([row, next, close]);
                        }
                    }
                    close = 0;
                }
            }
            (second, close) = (0, 0);
        }
        None
    }
}
