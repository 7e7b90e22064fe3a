//! Proofs with rows that nothing uses, put into proofs that a check accepts
//! (document 02, point 12).

use crate::build::{claim, header_of, note, Layout};
use crate::case::{push, push_answer, push_bytes, Case, Operation};
use crate::damage::{edition_of, fields};
use crate::rng::Rng;
use crate::stream::{damaged, near};
use crate::table::{closed_table, Size, Table};
use crate::tree::{branches, widest};
use reference::{limits, Edition};

/// A proof with more rows than before.
pub struct Padded {
    pub proof: Vec<u8>,
    /// For each row whether it was put in.
    pub put_in: Vec<bool>,
}

/// A line of the branch, under its new number.
#[derive(Clone)]
struct Line {
    /// Whether a row 0x12 may name it.
    scaled: bool,
    /// t and tA, where they are known: of constraints, and of what was put in
    /// over them.
    numbers: Option<(Vec<i32>, Vec<i32>)>,
}

/// A constraint's kind and numbers.
pub type Constraint = (u8, Vec<i32>);

/// The constraints of a bundle that is right.
pub fn constraints(file: &[u8]) -> Vec<Constraint> {
    let (mut kinds, mut numbers) = (vec![0; 32], vec![0; 544]);
    let read = reference::read_bundle(file, &mut kinds, &mut numbers);
    let rows = numbers.chunks(read.k + 1).take(read.count);
    kinds.into_iter().zip(rows.map(<[i32]>::to_vec)).collect()
}

/// A field of the proof with the lines that it names under other numbers.
fn renumbered(field: &[u8], edition: Edition, new: impl Fn(usize) -> usize) -> Vec<u8> {
    let width = edition.line_bytes();
    let named = match field[0] {
        0x10 | 0x11 => 2,
        0x12..=0x17 => 1,
        _ => 0,
    };
    let mut field = field.to_vec();
    for line in field[3..].chunks_exact_mut(width).take(named) {
        let old = line
            .iter()
            .fold(0, |number, &byte| 256 * number + usize::from(byte));
        let number = (new(old) as u16).to_be_bytes();
        line.copy_from_slice(&number[2 - width..]);
    }
    field
}

/// Puts rows that nothing uses into the proof of a table that a check accepts:
/// they scale a line by 1, which may be one that another such row made. As many
/// as the limits of rows and lines leave room for, and not more than asked for
/// on any branch.
pub fn pad(rng: &mut Rng, table: &Table, most: usize) -> Padded {
    let edition = edition_of(&table.proof);
    let rows = Layout(edition);
    let nothing = vec![0; table.k + 1];
    // Line by line what is known, and for each old line its new number.
    let mut lines = Vec::new();
    for (file, own) in [(&table.a, true), (&table.b, false)] {
        for (kind, t) in constraints(file) {
            let partial = if own { t.clone() } else { nothing.clone() };
            lines.push(Line {
                scaled: kind < 2,
                numbers: Some((t, partial)),
            });
        }
    }
    let mut new: Vec<usize> = (0..lines.len()).collect();
    let room = edition.lines() - widest(&table.proof, lines.len());
    let room = room.min(most);
    let parts = fields(&table.proof);
    let is_row = |tag: u8| (0x10..=0x17).contains(&tag);
    let count = |part: &&std::ops::Range<usize>| is_row(table.proof[part.start]);
    let mut free = limits::ROWS - parts.iter().filter(count).count();
    let share = rng.below(4);
    // For each open step the old and the new lines before it, the rows put in on
    // its branch so far, and its branches to come.
    let mut open: Vec<(usize, usize, usize, u16)> = Vec::new();
    let mut used = 0;
    let mut proof = header_of(edition, table.k as u8);
    let mut put_in = Vec::new();
    let unknown = Line {
        scaled: true,
        numbers: None,
    };
    for part in parts {
        let field = &table.proof[part];
        let tag = field[0];
        if !is_row(tag) {
            if tag == 0x20 {
                proof.extend_from_slice(field);
            }
            continue;
        }
        while used < room && free > 0 && rng.chance(share, 4) {
            let old = rng.below(lines.len());
            let line: Line = lines[old].clone();
            if !line.scaled {
                continue;
            }
            let row = rows.scale(old, 1);
            if proof.len() + row.len() + 8 * (table.k + 1) + 8 > limits::PROOF_BYTES / 2 {
                break;
            }
            proof.extend(row);
            put_in.push(true);
            if let Some((t, partial)) = line.numbers.as_ref().filter(|_| rng.chance(1, 2)) {
                proof.extend(claim(t, partial));
            }
            if rng.chance(1, 8) {
                proof.extend(note());
            }
            lines.push(line);
            used += 1;
            free -= 1;
        }
        proof.extend(renumbered(field, edition, |old| new[old]));
        put_in.push(false);
        match tag {
            0x10..=0x12 => {
                new.push(lines.len());
                lines.push(unknown.clone());
            }
            0x14 | 0x15 => {
                while open.last().is_some_and(|step| step.3 == 0) {
                    open.pop();
                }
                if let Some((old, news, before, more)) = open.last_mut() {
                    *more -= 1;
                    new.truncate(*old);
                    lines.truncate(*news);
                    used = *before;
                    new.push(lines.len());
                    lines.push(unknown.clone());
                }
            }
            _ => {
                open.push((new.len(), lines.len(), used, branches(field) - 1));
                new.push(lines.len());
                lines.push(unknown.clone());
            }
        }
    }
    Padded { proof, put_in }
}

/// A proof to be shortened, and how much is lent for the report and for the
/// table.
pub struct Shortening {
    pub a: Vec<u8>,
    pub b: Vec<u8>,
    pub proof: Vec<u8>,
    pub report: usize,
    pub table: usize,
}

impl Shortening {
    /// An accepted proof, mostly with rows that nothing uses, or a damaged check,
    /// with more or less room than is needed.
    pub fn any(rng: &mut Rng, size: &Size) -> Shortening {
        let (a, b, proof) = if rng.chance(1, 4) {
            match damaged(rng, Operation::Check, size) {
                Case::Check { a, b, proof, .. } => (a, b, proof),
                other => unreachable!("{other:?}"),
            }
        } else {
            let mut table = closed_table(rng, size);
            if rng.chance(3, 4) {
                table.proof = pad(rng, &table, 6).proof;
            }
            (table.a, table.b, table.proof)
        };
        let (mut report, mut out) = (vec![0; proof.len()], vec![0; proof.len()]);
        let needed = reference::shorten(&a, &b, &proof, &mut report, &mut out);
        Shortening {
            a,
            b,
            proof,
            report: near(rng, needed.rows),
            table: near(rng, needed.written),
        }
    }

    /// The printed line, with the reference's answer.
    pub fn print(&self) -> String {
        let mut text = "shorten ".to_string();
        for file in [&self.a, &self.b, &self.proof] {
            push_bytes(&mut text, file);
        }
        push(&mut text, self.report);
        push(&mut text, self.table);
        let (mut report, mut table) = (vec![0; self.report], vec![0; self.table]);
        let result = reference::shorten(&self.a, &self.b, &self.proof, &mut report, &mut table);
        push_answer(&mut text, result.answer);
        push_bytes(&mut text, &report[..result.rows]);
        push_bytes(&mut text, &table[..result.written]);
        text.pop();
        text
    }
}
