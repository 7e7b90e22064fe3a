//! A stage as text (docs/TEXT.md), written from its files; `parse` reads it.

use crate::fields::{tag::*, Field, File};
use crate::rows::{Part, ROWS};
use crate::tree::{self, Line, What};
use crate::words;

/// The text of a stage, or what of it is not laid out.
pub fn write(names: &[String], a: &File, b: &File, p: &File) -> Result<String, String> {
    for (name, file) in [("a", a), ("b", b), ("p", p)] {
        if let Some((place, why)) = &file.fault {
            return Err(format!("{name} is not laid out at byte {place}: {why}"));
        }
        if file.constants != a.constants {
            let (found, expected) = (file.constants, a.constants);
            return Err(format!("{name} has {found} constants, a has {expected}"));
        }
    }
    let tree = tree::tree(a, b, p, usize::MAX);
    if let Some(place) = tree.misplaced {
        return Err(format!(
            "p is not laid out at byte {place}: a field out of place"
        ));
    }
    let mut out = Writer {
        text: format!("registers {}\n", names.join(" ")),
        of_a: a.constraints(),
        of_both: a.constraints() + b.constraints(),
    };
    for (letter, file) in [("A", a), ("B", b)] {
        out.header(letter, file);
        let mut index = 0;
        for field in file.parts().1 {
            if field.is_constraint() {
                let constraint = words::constraint(field.tag, &field.numbers, names);
                out.line(1, &constraint, &format!("{letter}{index}"));
                index += 1;
            } else {
                out.note(1, field, "");
            }
        }
    }
    out.header("proof", p);
    for node in &tree.nodes {
        let depth = node.depth + 1;
        let said = |line: &Option<Line>| match (node.number, line) {
            (Some(number), Some(line)) => format!("n{number}: {}", words::line(line, names)),
            _ => String::new(),
        };
        match node.what {
            What::Branch(step) => {
                out.line(depth, &format!("branch {}", step.branch), &said(&node.line));
            }
            What::Field(field) if field.is_row() => {
                let said = if field.makes_line() {
                    said(&node.line)
                } else {
                    String::new()
                };
                out.line(depth, &out.row(field, node.lines), &said);
            }
            What::Field(field) if field.tag == CLAIM => {
                let (t, ta) = field.numbers.split_at(field.numbers.len() / 2);
                let (t, ta) = (words::form(t, names), words::form(ta, names));
                out.line(depth, &format!("claim {t} ; {ta}"), "");
            }
            What::Field(field) => out.note(depth, field, ""),
        }
    }
    if !tree.closed {
        out.line(1, "unfinished", "");
    }
    Ok(out.text)
}

/// Lines that stand deeper than a proof that can be accepted are moved no further to the right.
const DEEPEST: usize = 40;

struct Writer {
    text: String,
    of_a: usize,
    of_both: usize,
}

impl Writer {
    fn line(&mut self, depth: usize, line: &str, comment: &str) {
        let mut line = format!("{}{line}", "  ".repeat(depth.min(DEEPEST)));
        if !comment.is_empty() {
            line = format!("{line:<39} # {comment}");
        }
        self.text.push_str(&line);
        self.text.push('\n');
    }

    /// A section's first line, and the notes up to the end of the header.
    fn header(&mut self, name: &str, file: &File) {
        self.line(0, &format!("{name} edition {}", file.edition), "");
        let mut place = " before edition";
        for field in file.parts().0 {
            match field.tag {
                EDITION => place = " before constants",
                CONSTANTS => {}
                _ => self.note(1, field, place),
            }
        }
    }

    fn note(&mut self, depth: usize, note: &Field, place: &str) {
        let bytes: String = note
            .numbers
            .iter()
            .map(|byte| format!("{byte:02X}"))
            .collect();
        let space = if bytes.is_empty() { "" } else { " " };
        let line = format!("note {:02X}{space}{bytes}{place}", note.tag);
        self.line(depth, &line, &words::note(note));
    }

    /// A line's name, or its number where the branch has no such line.
    fn name(&self, number: i64, lines: usize) -> String {
        let number = number as usize;
        if number < self.of_a {
            format!("A{number}")
        } else if number < self.of_both {
            format!("B{}", number - self.of_a)
        } else if number < lines {
            format!("n{number}")
        } else {
            number.to_string()
        }
    }

    fn row(&self, field: &Field, lines: usize) -> String {
        let row = ROWS.iter().find(|row| row.tag == field.tag);
        let (word, parts) = row.map_or(("", &[][..]), |row| (row.word, row.parts));
        let mut text = word.to_string();
        let mut numbers = field.numbers.iter();
        for part in parts {
            text.push(' ');
            text.push_str(&match part {
                Part::Word(word) => word.to_string(),
                Part::Line => numbers
                    .next()
                    .map_or(String::new(), |n| self.name(*n, lines)),
                Part::Number(..) => numbers.next().map_or(String::new(), |n| n.to_string()),
            });
        }
        match (field.makes_line(), field.is_close()) {
            (true, _) => format!("n{lines} = {text}"),
            (false, true) => text,
            (false, false) => format!("{text} as n{lines}"),
        }
    }
}
