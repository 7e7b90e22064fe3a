//! The table without the rows that nothing rests on: document 02's point 12.
//!
//! A line is known by the row that made it. From every close and branching row
//! the lines that it names are followed to the rows that made them, and from
//! these to the rows behind their own lines; what is never met is left out.

use crate::answer::*;
use crate::bundle::Bundle;
use crate::check::{
    interpolant, is_known, CLAIM, CLOSE_BY_NUMBER, CLOSE_BY_STRIDE, COMBINE, REDUCE, ROUND, SCALE,
    SPLIT, STRENGTHEN,
};
use crate::edition::Edition;
use crate::field::{line_number, push_field_header, unsigned, Fields};
use crate::header::{header_bytes, read_constants, read_edition};
use crate::limits;

/// What shortening gives; rows and bytes are 0 on refusal.
#[derive(Clone, Copy, PartialEq, Eq, Debug)]
pub struct ShortenResult {
    pub answer: Answer,
    /// The rows of the proof, so the bytes of the report.
    pub rows: usize,
    /// The bytes of the shorter table.
    pub written: usize,
}

/// The report's byte for a row 0x10 to 0x12 that nothing rests on, for one that
/// something rests on, and for a close or branching row.
const NOT_NEEDED: u8 = 0;
const NEEDED: u8 = 1;
const STAYS: u8 = 2;

/// Reports for each row of a proof whether a close or branching row rests on it,
/// and writes the table without the others.
pub fn shorten(
    a: &[u8],
    b: &[u8],
    proof: &[u8],
    report: &mut [u8],
    out: &mut [u8],
) -> ShortenResult {
    let refused = |answer| ShortenResult {
        answer,
        rows: 0,
        written: 0,
    };
    let (told, table) = match shortened(a, b, proof) {
        Ok(found) => found,
        Err(answer) => return refused(answer),
    };
    let (rows, written) = (told.len(), table.len());
    match (report.get_mut(..rows), out.get_mut(..written)) {
        (Some(report), Some(out)) => {
            report.copy_from_slice(&told);
            out.copy_from_slice(&table);
            ShortenResult {
                answer: Answer::ACCEPTED,
                rows,
                written,
            }
        }
        _ => refused(Answer::refused(OUTPUT_TOO_SHORT, FILE_OUTPUT, written)),
    }
}

/// The report and the shorter table, whatever the outputs can hold.
fn shortened(a: &[u8], b: &[u8], proof: &[u8]) -> Result<(Vec<u8>, Vec<u8>), Answer> {
    let formula = interpolant(a, b, proof)?.len();
    if formula > limits::FORMULA_BYTES {
        return Err(Answer::refused(TOO_LONG, FILE_OUTPUT, formula));
    }
    // The check has accepted the three files, so nothing is refused from here on.
    let a = Bundle::read(a, FILE_A, None)?;
    let constraints = a.count() + Bundle::read(b, FILE_B, Some(a.k))?.count();
    let (edition, rows) = rows_of(proof);
    let needed = needed(&rows, constraints);
    let report = rows
        .iter()
        .zip(&needed)
        .map(|(row, &needed)| match (row.makes_line(), needed) {
            (false, _) => STAYS,
            (true, true) => NEEDED,
            (true, false) => NOT_NEEDED,
        })
        .collect();
    let mut table = header_bytes(edition, a.k as u8).to_vec();
    each_row(&rows, constraints, |number, lines| {
        if needed[number] || !rows[number].makes_line() {
            let stays = |line: &&Line| line.is_none_or(|row| needed[row]);
            let before = |line: usize| lines[..line].iter().filter(stays).count();
            rows[number].push_to(&mut table, edition, before);
        }
    });
    Ok((report, table))
}

/// A row of an accepted proof.
struct Row<'a> {
    tag: u8,
    /// The lines that it names.
    lines: Vec<usize>,
    /// What follows these: multipliers, stride, amount.
    rest: &'a [u8],
    /// The contents of the claim behind it.
    claim: Option<&'a [u8]>,
}

impl Row<'_> {
    /// Whether it is a row 0x10 to 0x12, which makes one line.
    fn makes_line(&self) -> bool {
        matches!(self.tag, COMBINE | REDUCE | SCALE)
    }

    /// How many branches it opens.
    fn branches(&self) -> usize {
        match self.tag {
            STRENGTHEN => 3,
            SPLIT => 2,
            // Behind the stride stands the amount.
            ROUND => usize::from(unsigned(&self.rest[2..])) + 1,
            _ => 0,
        }
    }

    /// Appends the row and its claim, each line under a new number.
    fn push_to(&self, table: &mut Vec<u8>, edition: Edition, new: impl Fn(usize) -> usize) {
        let length = self.lines.len() * edition.line_bytes() + self.rest.len();
        push_field_header(table, self.tag, length as u16);
        for &line in &self.lines {
            // Below 1,000, so two bytes hold it, and below 128 in edition 1.
            let number = (new(line) as u16).to_be_bytes();
            table.extend_from_slice(&number[2 - edition.line_bytes()..]);
        }
        table.extend_from_slice(self.rest);
        if let Some(claim) = self.claim {
            push_field_header(table, CLAIM, claim.len() as u16);
            table.extend_from_slice(claim);
        }
    }
}

/// The edition and the rows of a proof that a check accepts.
fn rows_of(proof: &[u8]) -> (Edition, Vec<Row<'_>>) {
    let mut fields = Fields::of(proof);
    let edition = read_edition(&mut fields, is_known, &Edition::ALL).unwrap_or(Edition::One);
    let _ = read_constants(&mut fields, is_known, None);
    let mut rows: Vec<Row> = Vec::new();
    while let Ok(Some(field)) = fields.take() {
        if field.tag == CLAIM {
            if let Some(row) = rows.last_mut() {
                row.claim = Some(field.contents);
            }
            continue;
        }
        let named = match field.tag {
            COMBINE | REDUCE => 2,
            _ => 1,
        };
        let (lines, rest) = field.contents.split_at(named * edition.line_bytes());
        let lines = lines.chunks_exact(edition.line_bytes());
        rows.push(Row {
            tag: field.tag,
            lines: lines.map(line_number).collect(),
            rest,
            claim: None,
        });
    }
    (edition, rows)
}

/// The row that made a line; none for a constraint, and for the line that a
/// branch starts with.
type Line = Option<usize>;

/// Goes through the rows with the lines of the branch on which each stands.
fn each_row(rows: &[Row], constraints: usize, mut look: impl FnMut(usize, &[Line])) {
    let mut lines: Vec<Line> = vec![None; constraints];
    // For each open step the lines before it, and its branches to come.
    let mut open: Vec<(usize, usize)> = Vec::new();
    for (number, row) in rows.iter().enumerate() {
        look(number, &lines);
        match row.tag {
            CLOSE_BY_NUMBER | CLOSE_BY_STRIDE => {
                while open.last().is_some_and(|&(_, more)| more == 0) {
                    open.pop();
                }
                if let Some((before, more)) = open.last_mut() {
                    *more -= 1;
                    lines.truncate(*before);
                    lines.push(None);
                }
            }
            STRENGTHEN | ROUND | SPLIT => {
                open.push((lines.len(), row.branches() - 1));
                lines.push(None);
            }
            _ => lines.push(Some(number)),
        }
    }
}

/// For each row whether a close or branching row rests on the line that it made.
fn needed(rows: &[Row], constraints: usize) -> Vec<bool> {
    // The rows that made the lines that each row names.
    let mut rests_on = vec![Vec::new(); rows.len()];
    each_row(rows, constraints, |number, lines| {
        let named = rows[number].lines.iter();
        rests_on[number] = named.filter_map(|&line| lines[line]).collect();
    });
    let mut needed = vec![false; rows.len()];
    let mut to_follow: Vec<usize> = Vec::new();
    for (row, rests_on) in rows.iter().zip(&rests_on) {
        if !row.makes_line() {
            to_follow.extend(rests_on);
        }
    }
    while let Some(row) = to_follow.pop() {
        if !needed[row] {
            needed[row] = true;
            to_follow.extend(&rests_on[row]);
        }
    }
    needed
}
