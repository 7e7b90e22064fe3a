//! The text of a stage (docs/TEXT.md), read into the fields of its files.

use crate::fields::{tag::*, Field};
use crate::line::{Line, Wrong};
use crate::rows::{Part, ROWS};
use crate::steps::Steps;
use crate::words;
use std::collections::HashMap;

/// What a text states: the registers' names, and the fields of a, b and p.
#[derive(Default)]
pub struct Stated {
    pub registers: Vec<String>,
    pub files: [Vec<Field>; 3],
}

/// What is kept for an open step: the name of its branches' new line, and how many names and lines are around it.
struct Around {
    name: Option<String>,
    names: usize,
    lines: usize,
}

#[derive(Default)]
struct Parser {
    stated: Stated,
    /// Which of the files is being read.
    section: Option<usize>,
    edition: i64,
    /// How many constraints A and B have.
    constraints: [usize; 2],
    /// The lines by name, and the names in the order given.
    called: HashMap<String, usize>,
    names: Vec<String>,
    /// How many lines the branch has.
    lines: usize,
    steps: Steps<Around>,
    /// Whether a branch has to start before the next row.
    waits: bool,
    /// Whether the root is closed, or the text says that the proof is unfinished.
    ended: bool,
    /// Whether a claim may stand here.
    made: bool,
}

const MAKES: &str = "combine, reduce or scale";
const ALL: &str =
    "a row (combine, reduce, scale, strengthen, round, split or close), a claim or a note";

const SECTIONS: [&str; 3] = ["A", "B", "proof"];

/// Reads a text; `name` is what errors call it.
pub fn parse(name: &str, text: &str) -> Result<Stated, String> {
    let mut parser = Parser::default();
    let mut last = 1;
    for (index, line) in text.lines().enumerate() {
        let line = line.split('#').next().unwrap_or("").trim();
        if !line.is_empty() {
            last = index + 1;
            let read = parser.line(line);
            read.map_err(|wrong| format!("{name}:{last}: {wrong}"))?;
        }
    }
    let missing = match parser.section {
        _ if parser.ended => return Ok(parser.stated),
        None if parser.stated.registers.is_empty() => "registers and their names",
        Some(2) if parser.waits => "the next branch, or \"unfinished\"",
        Some(2) => "a row that closes the branch, or \"unfinished\"",
        section => SECTIONS[section.map_or(0, |section| section + 1)],
    };
    Err(format!(
        "{name}:{last}: expected {missing}, found the end of the text"
    ))
}

/// Two hexadecimal digits.
fn byte(digits: &[u8]) -> Option<i64> {
    let digit = |index: usize| char::from(*digits.get(index)?).to_digit(16);
    let value = 16 * digit(0)? + digit(1)?;
    (digits.len() == 2).then_some(value.into())
}

impl Parser {
    fn line(&mut self, text: &str) -> Result<(), Wrong> {
        if text.split_whitespace().next() == Some("note") && self.section.is_some() {
            return self.note(text);
        }
        let mut line = Line::new(text)?;
        let next = self.section.map_or(0, |section| section + 1);
        match (self.section, line.peek()) {
            (None, _) if self.stated.registers.is_empty() => self.registers(&mut line)?,
            (_, word) if SECTIONS.get(next) == Some(&word) => self.start(&mut line, next)?,
            (None, _) => return line.expected("A"),
            (Some(2), _) if self.ended => return line.expected("a note or the end of the text"),
            (Some(2), "branch") => self.branch(&mut line)?,
            (Some(2), "claim") => self.claim(&mut line)?,
            (Some(2), "unfinished") => {
                line.skip();
                self.ended = true;
            }
            (Some(2), _) => self.row(&mut line)?,
            (Some(_), word) if SECTIONS.contains(&word) => {
                return line.expected(&format!("a constraint, a note or {}", SECTIONS[next]));
            }
            (Some(section), _) => self.constraint(&mut line, section)?,
        }
        line.end()
    }

    fn fields(&mut self) -> &mut Vec<Field> {
        &mut self.stated.files[self.section.unwrap_or(0)]
    }

    fn registers(&mut self, line: &mut Line) -> Result<(), Wrong> {
        line.word("registers")?;
        while !line.is_at_end() {
            let name = line.name("a register's name")?;
            if self.stated.registers.contains(&name) {
                return Err(format!("expected another name, found \"{name}\" again"));
            }
            self.stated.registers.push(name);
        }
        match self.stated.registers.len() {
            1..=16 => Ok(()),
            found => Err(format!("expected 1 to 16 registers, found {found}")),
        }
    }

    /// A | B | proof, with its edition if that is not 1.
    fn start(&mut self, line: &mut Line, section: usize) -> Result<(), Wrong> {
        line.skip();
        self.edition = 1;
        if !line.is_at_end() {
            line.word("edition")?;
            self.edition = line.number("an edition", 1, 2)?;
        }
        self.section = Some(section);
        self.lines = self.constraints[0] + self.constraints[1];
        let (edition, k) = (self.edition, self.stated.registers.len() as i64);
        self.fields().push(Field::new(EDITION, &[edition]));
        self.fields().push(Field::new(CONSTANTS, &[k]));
        Ok(())
    }

    /// note TAG [BYTES] [before edition | before constants]
    fn note(&mut self, text: &str) -> Result<(), Wrong> {
        let mut parts = text.split_whitespace().skip(1).peekable();
        let tag = parts.next().unwrap_or("the end of the line");
        let tag = byte(tag.as_bytes())
            .filter(|tag| *tag >= NOTE.into())
            .ok_or(format!(
                "expected a tag from 80 to FF, found \"{}\"",
                words::cut(tag, 40)
            ))?;
        let digits = parts.next_if(|word| *word != "before").unwrap_or("");
        let bytes: Option<Vec<i64>> = digits.as_bytes().chunks(2).map(byte).collect();
        let bytes = bytes.ok_or(format!(
            "expected bytes of two hexadecimal digits each, found \"{}\"",
            words::cut(digits, 40)
        ))?;
        if bytes.len() > 65_535 {
            let found = bytes.len();
            return Err(format!("expected at most 65535 bytes, found {found}"));
        }
        let note = Field::new(tag as u8, &bytes);
        let place: Vec<&str> = parts.collect();
        let before = match place[..] {
            [] => NOTE,
            ["before", "edition"] => EDITION,
            ["before", "constants"] => CONSTANTS,
            _ => {
                let found = words::cut(&place.join(" "), 40);
                return Err(format!(
                    "expected \"before edition\", \"before constants\" or the end of the line, found \"{found}\""
                ));
            }
        };
        let fields = self.fields();
        let place = fields
            .iter()
            .position(|field| field.tag == before && before != NOTE);
        fields.insert(place.unwrap_or(fields.len()), note);
        Ok(())
    }

    /// [NAME:] CONSTRAINT
    fn constraint(&mut self, line: &mut Line, section: usize) -> Result<(), Wrong> {
        if line.has_second(":") {
            let name = line.name("a line's name")?;
            self.call(name, self.constraints[0] + self.constraints[1])?;
            line.skip();
        }
        let (tag, form) = line.constraint(&self.stated.registers)?;
        let bits = 16 * self.edition - 1;
        self.in_range(&form, bits)?;
        self.stated.files[section].push(Field::new(tag, &form));
        self.constraints[section] += 1;
        Ok(())
    }

    fn in_range(&self, form: &[i64], bits: i64) -> Result<(), Wrong> {
        let (least, most) = (-(1 << bits), (1 << bits) - 1);
        match form.iter().find(|number| !(least..=most).contains(*number)) {
            Some(number) => Err(format!(
                "expected numbers from {least} to {most} in edition {}, found {number}",
                self.edition
            )),
            None => Ok(()),
        }
    }

    /// Gives a line a name of its own.
    fn call(&mut self, name: String, number: usize) -> Result<(), Wrong> {
        if bundle_line(&name).is_some() || self.called.contains_key(&name) {
            return Err(format!(
                "expected another name, found \"{name}\", which is a line already"
            ));
        }
        self.names.push(name.clone());
        self.called.insert(name, number);
        Ok(())
    }

    /// A line by its name or number.
    fn named(&self, line: &mut Line) -> Result<i64, Wrong> {
        let of_bundle = bundle_line(line.peek()).and_then(|(file, index)| {
            let before = if file == 0 { 0 } else { self.constraints[0] };
            (index < self.constraints[file]).then_some(before + index)
        });
        let number = match of_bundle.or(self.called.get(line.peek()).copied()) {
            Some(number) => {
                line.skip();
                number as i64
            }
            None => match line.size() {
                Some(number) => number,
                None => return line.expected("a line's name or number"),
            },
        };
        let most = if self.edition == 1 { 255 } else { 65_535 };
        if number > most {
            let edition = self.edition;
            return Err(format!(
                "expected a line up to {most} in edition {edition}, found {number}"
            ));
        }
        Ok(number)
    }

    /// [NAME =] ROW [as NAME]
    fn row(&mut self, line: &mut Line) -> Result<(), Wrong> {
        if self.waits {
            let branch = self.steps.innermost().map_or(0, |open| open.branch);
            return line.expected(&format!("\"branch {branch}\""));
        }
        let mut name = None;
        if line.has_second("=") {
            name = Some(line.name("a line's name")?);
            line.skip();
        }
        let row = self.inference(line, name.is_some())?;
        self.made = row.makes_line();
        if self.made {
            if let Some(name) = name {
                self.call(name, self.lines)?;
            }
            self.lines += 1;
        } else if row.is_close() {
            self.steps.close();
            self.waits = self.steps.depth() > 0;
            self.ended = !self.waits;
        } else {
            if !line.is_at_end() {
                line.word("as")?;
                name = Some(line.name("a line's name")?);
            }
            let around = Around {
                name,
                names: self.names.len(),
                lines: self.lines,
            };
            self.steps.open(row.branches(), around);
            self.waits = true;
        }
        self.fields().push(row);
        Ok(())
    }

    fn inference(&self, line: &mut Line, named: bool) -> Result<Field, Wrong> {
        let word = line.peek().to_string();
        let mut rows = ROWS.iter().filter(|row| row.word == word);
        let Some(mut row) = rows.next() else {
            return line.expected(if named { MAKES } else { ALL });
        };
        let mut field = Field::new(row.tag, &[]);
        if named && !field.makes_line() {
            return line.expected(MAKES);
        }
        line.skip();
        let mut parts = row.parts;
        while let Some((part, rest)) = parts.split_first() {
            match part {
                Part::Line => field.numbers.push(self.named(line)?),
                Part::Number(what, least, most) => {
                    field.numbers.push(line.number(what, *least, *most)?);
                }
                Part::Word(word) => line.word(word)?,
            }
            parts = rest;
            // A close by stride starts as one by number does.
            if let (true, false, Some(longer)) = (rest.is_empty(), line.is_at_end(), rows.next()) {
                (row, parts) = (longer, &longer.parts[row.parts.len()..]);
                field.tag = row.tag;
            }
        }
        Ok(field)
    }

    /// branch N
    fn branch(&mut self, line: &mut Line) -> Result<(), Wrong> {
        let Some(open) = self.steps.innermost().filter(|_| self.waits) else {
            return line.expected("a row");
        };
        line.skip();
        let branch = open.branch as i64;
        line.number("branch", branch, branch)?;
        let (name, lines) = (open.kept.name.clone(), open.kept.lines);
        for name in self.names.drain(open.kept.names..) {
            self.called.remove(&name);
        }
        if let Some(name) = name {
            self.call(name, lines)?;
        }
        self.lines = lines + 1;
        (self.waits, self.made) = (false, false);
        Ok(())
    }

    /// claim SUM ; SUM
    fn claim(&mut self, line: &mut Line) -> Result<(), Wrong> {
        if !self.made {
            return line.expected("a row (a claim stands behind combine, reduce or scale, once)");
        }
        line.skip();
        let mut both = line.sum(&self.stated.registers)?;
        if !line.skips(";") {
            return line.expected("\";\" between t and tA");
        }
        both.extend(line.sum(&self.stated.registers)?);
        self.in_range(&both, 31)?;
        self.made = false;
        self.fields().push(Field::new(CLAIM, &both));
        Ok(())
    }
}

/// A name such as A0 or B12: the bundle, and the constraint's index.
fn bundle_line(name: &str) -> Option<(usize, usize)> {
    let (letter, digits) = name.split_at_checked(1)?;
    let file = SECTIONS[..2]
        .iter()
        .position(|section| *section == letter)?;
    let is_number = !digits.is_empty() && digits.bytes().all(|b| b.is_ascii_digit());
    is_number.then(|| (file, digits.parse().unwrap_or(usize::MAX)))
}
