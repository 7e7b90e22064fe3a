//! Constraints, rows, guards and refusals in words.

use crate::fields::{tag::*, Field, Sort};
use crate::names;
use crate::tree::{Line, Step};
use dulgaverk::Refusal;

/// A form as one writes it: 2*level - limit + 1.
pub fn form(form: &[i64], names: &[String]) -> String {
    let mut text = String::new();
    for (index, &number) in form.iter().enumerate().filter(|(_, number)| **number != 0) {
        text.push_str(match (text.is_empty(), number < 0) {
            (true, true) => "-",
            (true, false) => "",
            (false, true) => " - ",
            (false, false) => " + ",
        });
        let size = number.unsigned_abs();
        let name = names.get(index).filter(|_| index + 1 < form.len());
        text.push_str(&match (name, size) {
            (None, _) => size.to_string(),
            (Some(name), 1) => name.clone(),
            (Some(name), _) => format!("{size}*{name}"),
        });
    }
    if text.is_empty() {
        text.push('0');
    }
    text
}

pub fn constraint(tag: u8, t: &[i64], names: &[String]) -> String {
    let sign = match tag {
        INEQUALITY | AT_MOST => "<=",
        DISEQUALITY => "!=",
        _ => "=",
    };
    format!("{} {sign} 0", form(t, names))
}

/// A line with its partial interpolant.
pub fn line(line: &Line, names: &[String]) -> String {
    let t = constraint(line.kind, &line.t, names);
    format!("{t} with {}", form(&line.ta, names))
}

/// A step by its name.
pub fn step(tag: u8) -> &'static str {
    match tag {
        STRENGTHEN => "strengthen",
        ROUND => "rounding",
        SPLIT => "split",
        _ => "step",
    }
}

pub fn branch(step: &Step) -> String {
    let (branch, row) = (step.branch, step.row);
    format!(
        "branch {branch} of the {} in row {row}",
        self::step(step.field.tag)
    )
}

/// A field by itself.
pub fn field(field: &Field, names: &[String]) -> String {
    match (field.tag, &field.numbers[..]) {
        (EDITION, [edition]) => format!("header: edition {edition}"),
        (CONSTANTS, [k]) => format!("header: K is {k}"),
        (INEQUALITY..=DISEQUALITY | AT_MOST | EQUAL, t) => constraint(field.tag, t, names),
        (COMBINE, [s, t, alpha, beta]) => {
            format!("combine {alpha} times line {s} and {beta} times line {t}")
        }
        (REDUCE, [s, t, alpha]) => format!("reduce line {s} by {alpha} times line {t}"),
        (SCALE, [t, alpha]) => format!("scale line {t} by {alpha}"),
        (STRENGTHEN, [t]) => format!("strengthen line {t}"),
        (CLOSE, [t]) => format!("close line {t} by number"),
        (STRIDE, [t, g]) => format!("close line {t} by stride {g}"),
        (ROUND, [t, g, k]) => format!("round line {t} by stride {g} and {k}"),
        (SPLIT, [t]) => format!("split line {t}"),
        (CLAIM, both) => {
            let (t, ta) = both.split_at(both.len() / 2);
            format!("claim: t is {}, tA is {}", form(t, names), form(ta, names))
        }
        (OR, _) => "or; its two parts follow".into(),
        (AND, _) => "and; its two parts follow".into(),
        (DIVIDES, [g, t @ ..]) => format!("{g} divides {}", form(t, names)),
        _ => format!("note: {}", note(field)),
    }
}

/// A note's contents: as words where they are such.
pub fn note(field: &Field) -> String {
    let bytes: Vec<u8> = field.numbers.iter().map(|number| *number as u8).collect();
    match std::str::from_utf8(&bytes) {
        Ok(text) if !text.is_empty() && text.chars().all(|c| c == ' ' || c.is_ascii_graphic()) => {
            format!("\"{}\"", cut(text, 60))
        }
        _ => count(bytes.len(), "byte"),
    }
}

/// A guard in the library's words, its registers by name. Behind a part without registers stands whether it is true;
/// what is long is broken before each and/or.
pub fn guard(formula: &[u8], names: &[String]) -> Result<String, Refusal> {
    let text = dulgaverk::print_words(formula)?;
    let broken = text.len() > 100;
    let (mut out, mut part) = (String::new(), String::new());
    let mut depth = 0;
    for word in text.split(' ') {
        if word == "or" || word == "and" {
            out.push_str(&finished(&part));
            part.clear();
            match broken {
                true => out.push_str(&format!("\n{}{word} ", "  ".repeat(depth.min(24) + 1))),
                false => out.push_str(&format!(" {word} ")),
            }
            continue;
        }
        let opened = word.bytes().take_while(|b| *b == b'(').count();
        let closed = word.bytes().rev().take_while(|b| *b == b')').count();
        depth = (depth + opened).saturating_sub(closed);
        if !part.is_empty() {
            part.push(' ');
        }
        part.push_str(word);
    }
    out.push_str(&finished(&part));
    Ok(names::put(&out, names))
}

/// A part of a guard; one without registers is told to be true or false, inside the brackets that it closes.
fn finished(part: &str) -> String {
    let open = part.trim_end_matches(')');
    let words: Vec<&str> = open.trim_start_matches('(').split(' ').collect();
    let truth = match words[..] {
        [g, "divides", d] => parsed(g).zip(parsed(d)).map(|(g, d)| d % g.max(1) == 0),
        [d, "<=", "0"] => parsed(d).map(|d| d <= 0),
        [d, "=", "0"] => parsed(d).map(|d| d == 0),
        _ => None,
    };
    match truth {
        Some(truth) => format!("{open} [{truth}]{}", &part[open.len()..]),
        None => part.into(),
    }
}

fn parsed(text: &str) -> Option<i64> {
    text.parse().ok()
}

/// A text, cut where it is long.
pub fn cut(text: &str, most: usize) -> String {
    if text.chars().count() <= most {
        return text.into();
    }
    let start: String = text.chars().take(most - 1).collect();
    format!("{start}…")
}

pub fn hex(bytes: &[u8]) -> String {
    bytes.iter().map(|byte| format!("{byte:02X}")).collect()
}

/// "1 row", "2 rows".
pub fn count(number: usize, one: &str) -> String {
    let end = if number == 1 { "" } else { "s" };
    format!("{number} {one}{end}")
}

/// Where a refusal is: "row 5, in branch 1 of the strengthen in row 4". `proof` has the proof's fields.
pub fn place(refusal: &Refusal, proof: &[Field]) -> Option<String> {
    let inside = refusal.step.zip(refusal.branch).map(|(step, branch)| {
        let mut rows = proof.iter().filter(|field| field.is_row());
        let name = rows
            .nth(step.into())
            .map_or("step", |row| self::step(row.tag));
        format!("in branch {branch} of the {name} in row {step}")
    });
    match (refusal.row, inside) {
        (Some(row), Some(inside)) => Some(format!("row {row}, {inside}")),
        (Some(row), None) => Some(format!("row {row}, on the root branch")),
        (None, inside) => inside,
    }
}

/// A refusal of check, whole: what ./check prints, then the meaning, the file, and row, step and branch.
pub fn refusal(refusal: &Refusal, proof: &[Field]) -> String {
    let file = match refusal.file {
        1 => "A",
        2 => "B",
        3 => "the proof",
        _ => "the guard that would be written",
    };
    let inside = place(refusal, proof).map_or(String::new(), |place| format!(", {place}"));
    format!(
        "{}: {}: {file}{inside}",
        numbers(refusal),
        refusal.meaning()
    )
}

/// A refusal as document 01 prints it.
pub fn numbers(refusal: &Refusal) -> String {
    let Refusal {
        number,
        file,
        place,
        ..
    } = refusal;
    format!("refused {number} file {file} at {place}")
}

/// The sort of a file.
pub fn sort(sort: Sort) -> &'static str {
    match sort {
        Sort::Bundle => "bundle",
        Sort::Proof => "proof",
        Sort::Formula => "formula",
    }
}
