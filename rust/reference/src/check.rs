//! Checking a proof and writing its interpolant.

use crate::answer::*;
use crate::bundle::{length_within, Bundle, Kind, WriteResult};
use crate::edition::Edition;
use crate::field::{unsigned, Field, Fields, Unfinished};
use crate::formula::{push_comparison, push_junction, push_stride, stride_bytes, TAG_AND, TAG_OR};
use crate::header::{
    header_bytes, read_constants, read_edition, HeaderFault, TAG_CONSTANTS, TAG_EDITION,
};
use crate::limits;
use crate::line::{Lines, OutOfRange};

pub(crate) const COMBINE: u8 = 0x10;
pub(crate) const REDUCE: u8 = 0x11;
pub(crate) const SCALE: u8 = 0x12;
pub(crate) const STRENGTHEN: u8 = 0x13;
pub(crate) const CLOSE_BY_NUMBER: u8 = 0x14;
pub(crate) const CLOSE_BY_STRIDE: u8 = 0x15;
pub(crate) const ROUND: u8 = 0x16;
pub(crate) const SPLIT: u8 = 0x17;
pub(crate) const CLAIM: u8 = 0x20;

/// Checks a proof over the lines of A and B and writes the interpolant's file.
pub fn check(a: &[u8], b: &[u8], proof: &[u8], out: &mut [u8]) -> WriteResult {
    let formula = match interpolant(a, b, proof) {
        Ok(formula) => formula,
        Err(answer) => return WriteResult::refused(answer),
    };
    let needed = formula.len();
    if needed > limits::FORMULA_BYTES {
        return WriteResult::refused(Answer::refused(TOO_LONG, FILE_OUTPUT, needed));
    }
    match out.get_mut(..needed) {
        Some(part) => {
            part.copy_from_slice(&formula);
            WriteResult::accepted(needed)
        }
        None => WriteResult::refused(Answer::refused(OUTPUT_TOO_SHORT, FILE_OUTPUT, needed)),
    }
}

/// The interpolant's file, before it is known whether it is too long and
/// whether the output can hold it.
pub(crate) fn interpolant(a: &[u8], b: &[u8], proof: &[u8]) -> Result<Vec<u8>, Answer> {
    length_within(a, limits::BUNDLE_BYTES, FILE_A)?;
    length_within(b, limits::BUNDLE_BYTES, FILE_B)?;
    length_within(proof, limits::PROOF_BYTES, FILE_PROOF)?;
    let a = Bundle::read(a, FILE_A, None)?;
    let b = Bundle::read(b, FILE_B, Some(a.k))?;
    let header_fault =
        |HeaderFault(number, place): HeaderFault| Answer::refused(number, FILE_PROOF, place);
    let mut fields = Fields::of(proof);
    let edition = read_edition(&mut fields, is_known, &Edition::ALL).map_err(header_fault)?;
    read_constants(&mut fields, is_known, Some(a.k)).map_err(header_fault)?;
    let mut table = Table::over(&a, &b, edition, proof.len());
    loop {
        let field = match fields.take() {
            Ok(Some(field)) => field,
            Ok(None) => break,
            Err(Unfinished(place)) => return Err(table.refuse(Fault::of(NOT_WHOLE), place)),
        };
        if let Err(fault) = table.take(&field) {
            return Err(table.refuse(fault, field.place));
        }
    }
    if !table.root_closed {
        return Err(table.refuse(Fault::of(STILL_OPEN), proof.len()));
    }
    Ok(table.formula)
}

/// Whether proofs have the tag.
pub(crate) fn is_known(tag: u8) -> bool {
    matches!(tag, TAG_EDITION | TAG_CONSTANTS | COMBINE..=SPLIT | CLAIM)
}

/// The number of a refusal, and the row at fault where it is one.
struct Fault {
    number: u8,
    row: u16,
}

impl Fault {
    /// A refusal that is no row's own.
    fn of(number: u8) -> Fault {
        Fault { number, row: NONE }
    }
}

/// The parameters of a row of the right length, one after the other.
struct Parameters<'a> {
    /// The proof's.
    edition: Edition,
    rest: &'a [u8],
}

impl Parameters<'_> {
    /// A line number.
    #[inline]
    fn line(&mut self) -> u16 {
        match self.edition {
            Edition::One => {
                let number = u16::from(self.rest[0]);
                self.rest = &self.rest[1..];
                number
            }
            Edition::Two => self.number(),
        }
    }

    /// A multiplier, a stride or an amount: two bytes in both editions.
    #[inline]
    fn number(&mut self) -> u16 {
        let number = unsigned(self.rest);
        self.rest = &self.rest[2..];
        number
    }
}

/// The rule of a branching row.
#[derive(Clone, Copy)]
enum Rule {
    Strengthen,
    /// By a stride g, from t to t + k.
    Round {
        g: u16,
        k: u16,
        /// Where E0 starts in the formula, once it is written.
        stride: usize,
    },
    /// Of a disequality, by what is added to tA: 1 for A's, 0 for B's.
    Split {
        raise_partial: i64,
    },
}

/// A branching row whose last branch is not yet closed.
struct Open {
    /// Its own row number.
    row: u16,
    /// The line that it names.
    line: usize,
    /// The lines that all its branches start from, before their own new one.
    lines: usize,
    /// The branch that it has reached, from 0 in file order.
    branch: u16,
    rule: Rule,
}

/// The proof table as far as it has been read.
struct Table {
    /// The proof's own, by which line numbers are read.
    edition: Edition,
    /// The bytes of a claim.
    claim_bytes: usize,
    lines: Lines,
    /// The steps around the current branch, outermost first.
    open: Vec<Open>,
    /// The rows so far, so the number of the next one.
    rows: u16,
    /// Whether the field before, notes aside, was a row 0x10 to 0x12.
    claim_in_place: bool,
    root_closed: bool,
    /// The constants that occur in B, a bit each.
    in_b: u32,
    /// The interpolant's file so far. A formula comes before its parts and
    /// the branches come in the order of the parts, so it only ever grows.
    formula: Vec<u8>,
}

impl Table {
    /// The table before its first row. The proof's length tells how much room
    /// is enough: a row has at least 4 bytes, makes one line at most (a step
    /// is counted once for its branch), and adds at most 71 bytes to the
    /// formula, or 75 if it has 6. Only roundings may ask for more.
    fn over(a: &Bundle, b: &Bundle, edition: Edition, proof: usize) -> Table {
        let mut formula = Vec::with_capacity((8 + 18 * proof).min(limits::FORMULA_BYTES));
        // K is at most 16, so one byte holds it. Formulas are of the first edition.
        formula.extend_from_slice(&header_bytes(Edition::One, a.k as u8));
        let lines = Lines::of(a, b, edition.lines(), proof / 4);
        Table {
            edition,
            claim_bytes: 2 * 4 * (a.k + 1),
            in_b: lines.occurring(),
            lines,
            open: Vec::new(),
            rows: 0,
            claim_in_place: false,
            root_closed: false,
            formula,
        }
    }

    /// The answer to a fault at a place of the proof. A refused field opens and
    /// closes nothing, so the step that is open now is the one that it found.
    fn refuse(&self, fault: Fault, place: usize) -> Answer {
        let (step, branch) = match self.open.last() {
            Some(step) => (step.row, step.branch),
            None => (NONE, NONE),
        };
        Answer {
            row: fault.row,
            step,
            branch,
            ..Answer::refused(fault.number, FILE_PROOF, place)
        }
    }

    /// Takes a field behind the header.
    fn take(&mut self, field: &Field) -> Result<(), Fault> {
        let line = self.edition.line_bytes();
        // Lines, then multipliers, stride and amount of two bytes each.
        let length = match field.tag {
            COMBINE => Some(2 * line + 4),
            REDUCE => Some(2 * line + 2),
            SCALE | CLOSE_BY_STRIDE => Some(line + 2),
            STRENGTHEN | CLOSE_BY_NUMBER | SPLIT => Some(line),
            ROUND => Some(line + 4),
            CLAIM if self.claim_in_place => Some(self.claim_bytes),
            CLAIM | TAG_EDITION | TAG_CONSTANTS => None,
            _ => return Err(Fault::of(UNKNOWN_TAG)),
        };
        if self.root_closed {
            return Err(Fault::of(AFTER_THE_END));
        }
        let Some(length) = length else {
            return Err(Fault::of(OUT_OF_PLACE));
        };
        if field.contents.len() != length {
            return Err(Fault::of(WRONG_LENGTH));
        }
        // A claim belongs to the row before it, which is there, as it is in place.
        let (row, result) = if field.tag == CLAIM {
            (self.rows - 1, self.claim(field.contents))
        } else {
            (self.rows, self.row(field))
        };
        result.map_err(|number| Fault { number, row })
    }

    /// Takes a claim of the right length, where one may stand.
    fn claim(&mut self, stated: &[u8]) -> Result<(), u8> {
        self.claim_in_place = false;
        if self.lines.newest_is(stated) {
            Ok(())
        } else {
            Err(CLAIM_DIFFERS)
        }
    }

    /// Takes a row of the right length.
    fn row(&mut self, field: &Field) -> Result<(), u8> {
        if usize::from(self.rows) == limits::ROWS {
            return Err(TOO_MANY_ROWS);
        }
        self.rows += 1;
        self.claim_in_place = matches!(field.tag, COMBINE | REDUCE | SCALE);
        let mut given = Parameters {
            edition: self.edition,
            rest: field.contents,
        };
        match field.tag {
            COMBINE => self.combine(given.line(), given.line(), given.number(), given.number()),
            // The one multiplier with a sign.
            REDUCE => self.reduce(given.line(), given.line(), given.number() as i16),
            SCALE => self.scale(given.line(), given.number()),
            STRENGTHEN => self.strengthen(given.line()),
            SPLIT => self.split(given.line()),
            CLOSE_BY_NUMBER => self.close_by_number(given.line()),
            ROUND => self.round(given.line(), given.number(), given.number()),
            // The caller lets no other tag through.
            _ => self.close_by_stride(given.line(), given.number()),
        }
    }

    fn combine(&mut self, s: u16, t: u16, alpha: u16, beta: u16) -> Result<(), u8> {
        let s = self.line(s)?;
        let t = self.line(t)?;
        self.asks(s, Kind::Inequality)?;
        self.asks(t, Kind::Inequality)?;
        if alpha == 0 || beta == 0 {
            return Err(WRONG_MULTIPLIER);
        }
        self.room_for_a_line()?;
        in_range(self.lines.add_sum(s, i64::from(alpha), t, i64::from(beta)))
    }

    fn reduce(&mut self, s: u16, t: u16, alpha: i16) -> Result<(), u8> {
        let s = self.line(s)?;
        let t = self.line(t)?;
        self.asks_no_disequality(s)?;
        self.asks(t, Kind::Equality)?;
        if alpha == 0 {
            return Err(WRONG_MULTIPLIER);
        }
        self.room_for_a_line()?;
        in_range(self.lines.add_sum(s, 1, t, i64::from(alpha)))
    }

    fn scale(&mut self, t: u16, alpha: u16) -> Result<(), u8> {
        let t = self.line(t)?;
        self.asks_no_disequality(t)?;
        if alpha == 0 {
            return Err(WRONG_MULTIPLIER);
        }
        self.room_for_a_line()?;
        in_range(self.lines.add_multiple(t, i64::from(alpha)))
    }

    /// Opens the three branches and enters the first. That the new lines of
    /// the other two are in range and have room follows: their numbers are
    /// t's, tA's and those of t+1, and they start from as many lines.
    fn strengthen(&mut self, t: u16) -> Result<(), u8> {
        let line = self.line(t)?;
        self.asks(line, Kind::Inequality)?;
        self.room_for_a_step()?;
        self.open_first(line, 1, 1, Rule::Strengthen, TAG_OR)
    }

    /// Opens the two branches and enters the first. A's formula is an "or", as
    /// one of the two holds wherever A does, B's is an "and". The second
    /// branch's numbers are tested here too.
    fn split(&mut self, t: u16) -> Result<(), u8> {
        let line = self.line(t)?;
        self.asks(line, Kind::Disequality)?;
        self.room_for_a_step()?;
        let (raise_partial, junction) = if self.lines.is_own(line) {
            (1, TAG_OR)
        } else {
            (0, TAG_AND)
        };
        in_range(self.lines.opposite_in_range(line, 1, raise_partial))?;
        let rule = Rule::Split { raise_partial };
        self.open_first(line, 1, raise_partial, rule, junction)
    }

    /// Opens the k + 1 branches and enters the first, which is that of j = k.
    /// All start with t + k, and no other raises tA by more. (Not inlined, so
    /// that the choice by the tag stays small for the commoner rows.)
    #[inline(never)]
    fn round(&mut self, t: u16, g: u16, k: u16) -> Result<(), u8> {
        let line = self.line(t)?;
        self.asks(line, Kind::Inequality)?;
        if g < 2 || k == 0 || k > limits::ROUNDING {
            return Err(WRONG_MULTIPLIER);
        }
        // The least j, 0 or more, for which g divides d + j. The range of a
        // line's numbers has a minus for every plus, so -d is one of them.
        let least = (-self.lines.constant(line)).rem_euclid(i32::from(g));
        if !self.divides_coefficients(g, line) || least < i32::from(k) {
            return Err(NOT_MET);
        }
        self.room_for_a_step()?;
        let rule = Rule::Round { g, k, stride: 0 };
        self.open_first(line, i64::from(k), i64::from(k), rule, TAG_OR)
    }

    /// Opens a step for which there is room and enters its first branch, with
    /// t + `raise` ≤ 0 and tA + `raise_partial`.
    fn open_first(
        &mut self,
        line: usize,
        raise: i64,
        raise_partial: i64,
        rule: Rule,
        junction: u8,
    ) -> Result<(), u8> {
        let lines = self.lines.count();
        in_range(
            self.lines
                .add_raised(line, Kind::Inequality, raise, raise_partial),
        )?;
        self.open.push(Open {
            // It is counted already.
            row: self.rows - 1,
            line,
            lines,
            branch: 0,
            rule,
        });
        push_junction(&mut self.formula, junction);
        Ok(())
    }

    fn close_by_number(&mut self, t: u16) -> Result<(), u8> {
        let t = self.line(t)?;
        self.asks_no_disequality(t)?;
        let equality = self.lines.kind(t) == Kind::Equality;
        let d = self.lines.constant(t);
        let impossible = if equality { d != 0 } else { d > 0 };
        if !impossible || self.lines.coefficients(t).iter().any(|&c| c != 0) {
            return Err(NOT_MET);
        }
        push_comparison(&mut self.formula, equality, self.lines.partial(t));
        self.close_branch()
    }

    fn close_by_stride(&mut self, t: u16, g: u16) -> Result<(), u8> {
        let t = self.line(t)?;
        self.asks(t, Kind::Equality)?;
        if g < 2 {
            return Err(WRONG_MULTIPLIER);
        }
        if !self.divides_coefficients(g, t) || self.lines.constant(t) % i32::from(g) == 0 {
            return Err(NOT_MET);
        }
        push_reduced(&mut self.formula, g, self.lines.partial(t), self.in_b);
        self.close_branch()
    }

    /// Whether g divides every coefficient of t.
    fn divides_coefficients(&self, g: u16, t: usize) -> bool {
        let coefficients = self.lines.coefficients(t);
        coefficients.iter().all(|c| c % i32::from(g) == 0)
    }

    /// Ends the current branch and enters the next one, if any is open.
    fn close_branch(&mut self) -> Result<(), u8> {
        while let Some(step) = self.open.last_mut() {
            self.lines.fall_back_to(step.lines);
            step.branch += 1;
            let formula = &mut self.formula;
            let added = match (&mut step.rule, step.branch) {
                (Rule::Strengthen, 1) => {
                    push_junction(formula, TAG_AND);
                    self.lines.add_raised(step.line, Kind::Equality, 0, 0)
                }
                (Rule::Strengthen, 2) => self.lines.add_raised(step.line, Kind::Inequality, 1, 0),
                (Rule::Split { raise_partial }, 1) => {
                    self.lines.add_opposite(step.line, 1, *raise_partial)
                }
                (Rule::Round { g, k, stride }, branch) if branch <= *k => {
                    let partial = self.lines.partial(step.line);
                    // Another pair follows each but the last.
                    let more = branch < *k;
                    let j = branch - 1;
                    push_pair(formula, *g, j, more, stride, partial, self.in_b);
                    let (k, j) = (i64::from(*k), i64::from(j));
                    self.lines.add_raised(step.line, Kind::Inequality, k, j)
                }
                _ => {
                    self.open.pop();
                    continue;
                }
            };
            return in_range(added);
        }
        self.root_closed = true;
        Ok(())
    }

    fn line(&self, number: u16) -> Result<usize, u8> {
        let line = usize::from(number);
        if self.lines.has(line) {
            Ok(line)
        } else {
            Err(NO_SUCH_LINE)
        }
    }

    /// Refuses a line that is not of the kind.
    fn asks(&self, line: usize, kind: Kind) -> Result<(), u8> {
        if self.lines.kind(line) == kind {
            Ok(())
        } else {
            Err(WRONG_KIND)
        }
    }

    /// Refuses a line that may only be split.
    fn asks_no_disequality(&self, line: usize) -> Result<(), u8> {
        if self.lines.kind(line) == Kind::Disequality {
            return Err(WRONG_KIND);
        }
        Ok(())
    }

    fn room_for_a_step(&self) -> Result<(), u8> {
        if self.open.len() == limits::STEPS {
            return Err(TOO_DEEP);
        }
        self.room_for_a_line()
    }

    fn room_for_a_line(&self) -> Result<(), u8> {
        if self.lines.is_full() {
            return Err(TOO_MANY_LINES);
        }
        Ok(())
    }
}

fn in_range(added: Result<(), OutOfRange>) -> Result<(), u8> {
    added.map_err(|OutOfRange| OUT_OF_RANGE)
}

/// Appends "g divides the form" in reduced form: constants that B lacks leave
/// it, and what is left, d in the last place too, is written as remainders
/// from 0 to g-1.
pub(crate) fn push_reduced(formula: &mut Vec<u8>, g: u16, partial: &[i32], in_b: u32) {
    let mut form = [0; limits::CONSTANTS + 1];
    let form = &mut form[..partial.len()];
    let d = partial.len() - 1;
    for (place, (slot, number)) in form.iter_mut().zip(partial).enumerate() {
        if place == d || in_b >> place & 1 == 1 {
            *slot = number.rem_euclid(i32::from(g));
        }
    }
    push_stride(formula, g, form);
}

/// Appends what stands before Ij in a rounding's formula: an "or" if more
/// pairs follow, an "and", and Ej. E0 is formed, and its place kept; the others
/// are copies of it with another d. (tA + k is in range, so nothing overflows.
/// Not inlined, for the same reason as `Table::round`.)
#[inline(never)]
fn push_pair(
    formula: &mut Vec<u8>,
    g: u16,
    j: u16,
    more: bool,
    stride: &mut usize,
    partial: &[i32],
    in_b: u32,
) {
    if more {
        push_junction(formula, TAG_OR);
    }
    push_junction(formula, TAG_AND);
    if j == 0 {
        *stride = formula.len();
        push_reduced(formula, g, partial, in_b);
    } else {
        let d = partial[partial.len() - 1] + i32::from(j);
        let before_d = *stride + stride_bytes(partial.len()) - 4;
        formula.extend_from_within(*stride..before_d);
        formula.extend_from_slice(&d.rem_euclid(i32::from(g)).to_be_bytes());
    }
}
