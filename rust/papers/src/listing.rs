//! A stage in words: its lines, the rows of its proof with the line that each makes, and the answer.

use crate::formula::Formula;
use crate::stage::{constraints, Kind, Stage};
use crate::words;
use reference::{meaning, Answer, NONE};

#[derive(Clone)]
struct Line {
    kind: Kind,
    t: Vec<i64>,
    own: Vec<i64>,
}

impl Line {
    fn said(&self, names: &[String]) -> String {
        let t = words::form(&self.t, names);
        let own = words::form(&self.own, names);
        format!("{t} {}   [{own}]", words::sign(self.kind))
    }
}

/// A step whose last branch is not yet closed: the new lines of the branches to come, and the lines around them.
struct Step {
    left: Vec<Line>,
    around: usize,
}

struct Rows<'a> {
    names: &'a [String],
    lines: Vec<Line>,
    of_a: usize,
    steps: Vec<Step>,
    out: String,
}

/// The listing. A row that a check refuses ends it.
pub fn listing(stage: &Stage) -> String {
    let names = &stage.constants;
    let [a, b] = [&stage.a, &stage.b].map(|bundle| constraints(bundle));
    let mut rows = Rows {
        names,
        lines: Vec::new(),
        of_a: a.len(),
        steps: Vec::new(),
        out: String::new(),
    };
    for (side, constraint) in a.iter().map(|c| ("A", c)).chain(b.iter().map(|c| ("B", c))) {
        let t: Vec<i64> = constraint.form.iter().map(|&n| n.into()).collect();
        let own = if side == "A" {
            t.clone()
        } else {
            vec![0; t.len()]
        };
        let number = rows.lines.len();
        let said = words::constraint(constraint, names);
        rows.out += &format!("{side} line {number}: {said}\n");
        let kind = constraint.kind;
        rows.lines.push(Line { kind, t, own });
    }
    let answer = stage.check();
    let end = match &answer {
        Err(refusal) if refusal.file < 3 => 0,
        Err(refusal) if refusal.file == 3 => refusal.place,
        _ => stage.p.len(),
    };
    rows.list(&stage.p, end);
    rows.out += &answer_said(&answer, names);
    rows.out
}

fn answer_said(answer: &Result<Vec<u8>, Answer>, names: &[String]) -> String {
    match answer {
        Ok(file) => format!(
            "accepted: {}\n",
            words::formula(&Formula::read(file), names)
        ),
        Err(refusal) => {
            let mut said = format!("refused {}", refusal.number);
            for (word, number) in [
                ("row", refusal.row),
                ("step", refusal.step),
                ("branch", refusal.branch),
            ] {
                if number != NONE {
                    said += &format!(", {word} {number}");
                }
            }
            format!("{said}: {}\n", meaning(refusal.number))
        }
    }
}

impl Rows<'_> {
    /// The rows up to the one at a place, that one too but not what it makes.
    fn list(&mut self, proof: &[u8], end: usize) {
        let width = usize::from(proof[3]);
        let mut place = 8;
        let mut row = 0;
        while place < proof.len() && place <= end {
            let tag = proof[place];
            let length = usize::from(u16::from_be_bytes([proof[place + 1], proof[place + 2]]));
            let contents = &proof[place + 3..place + 3 + length];
            match tag {
                0x10..=0x17 => {
                    self.row(row, tag, contents, width, place == end);
                    row += 1;
                }
                0x20 => self.claim(contents),
                _ => {}
            }
            place += 3 + length;
        }
    }

    fn indent(&self) -> String {
        "    ".repeat(self.steps.len())
    }

    fn claim(&mut self, contents: &[u8]) {
        let numbers: Vec<i64> = contents
            .chunks(4)
            .map(|four| i32::from_be_bytes(four.try_into().expect("four bytes")).into())
            .collect();
        let (t, own) = numbers.split_at(numbers.len() / 2);
        let [t, own] = [t, own].map(|form| words::form(form, self.names));
        self.out += &format!("{}  claim {t}   [{own}]\n", self.indent());
    }

    fn push(&mut self, line: Line) {
        let said = line.said(self.names);
        self.out += &format!("{}  line {}: {said}\n", self.indent(), self.lines.len());
        self.lines.push(line);
    }

    /// Says a row and does what it does, which a refused one does not.
    fn row(&mut self, row: usize, tag: u8, contents: &[u8], width: usize, refused: bool) {
        let number = |bytes: &[u8]| bytes.iter().fold(0, |n, &byte| n * 256 + usize::from(byte));
        let of_lines = if tag <= 0x11 { 2 } else { 1 };
        let (named, rest) = contents.split_at(of_lines * width);
        let named: Vec<usize> = named.chunks(width).map(number).collect();
        let rest: Vec<u16> = rest.chunks(2).map(|two| number(two) as u16).collect();
        let t = named[0];
        let said = match tag {
            0x10 => format!("combine {} {} by {} {}", t, named[1], rest[0], rest[1]),
            0x11 => format!("reduce {} {} by {}", t, named[1], rest[0] as i16),
            0x12 => format!("scale {t} by {}", rest[0]),
            0x13 => format!("strengthen {t}"),
            0x14 => format!("close {t}"),
            0x15 => format!("close {t} by stride {}", rest[0]),
            0x16 => format!("round {t} by stride {} and {}", rest[0], rest[1]),
            _ => format!("split {t}"),
        };
        self.out += &format!("{}row {row}: {said}\n", self.indent());
        if refused {
            return;
        }
        let line = self.lines[t].clone();
        match tag {
            0x10 => {
                let [x, y] = [i64::from(rest[0]), i64::from(rest[1])];
                let sum = sum(&line, x, &self.lines[named[1]], y);
                self.push(sum);
            }
            0x11 => {
                let sum = sum(&line, 1, &self.lines[named[1]], i64::from(rest[0] as i16));
                self.push(sum);
            }
            0x12 => self.push(sum(&line, i64::from(rest[0]), &line, 0)),
            0x14 | 0x15 => self.closed(),
            _ => {
                let left = self.branches(tag, t, &rest);
                self.steps.push(Step {
                    left,
                    around: self.lines.len(),
                });
                self.next_branch();
            }
        }
    }

    /// The new lines of the branches that a step opens, in the order of the file.
    fn branches(&self, tag: u8, t: usize, rest: &[u16]) -> Vec<Line> {
        let line = &self.lines[t];
        let inequality = |up: i64, own: i64| Line {
            kind: Kind::AtMostZero,
            t: plus(&line.t, up),
            own: plus(&line.own, own),
        };
        match tag {
            0x13 => vec![
                inequality(1, 1),
                Line {
                    kind: Kind::Zero,
                    ..line.clone()
                },
                inequality(1, 0),
            ],
            0x16 => {
                let k = i64::from(rest[1]);
                std::iter::once(k)
                    .chain(0..k)
                    .map(|j| inequality(k, j))
                    .collect()
            }
            _ => {
                let below = plus(&line.t, 1);
                let turned: Vec<i64> = line.t.iter().map(|n| -n).collect();
                let above = plus(&turned, 1);
                [below, above]
                    .map(|side| Line {
                        kind: Kind::AtMostZero,
                        own: if t < self.of_a {
                            side.clone()
                        } else {
                            vec![0; side.len()]
                        },
                        t: side,
                    })
                    .to_vec()
            }
        }
    }

    fn next_branch(&mut self) {
        let step = self.steps.last_mut().expect("an open step");
        let line = step.left.remove(0);
        self.lines.truncate(step.around);
        self.push(line);
    }

    fn closed(&mut self) {
        while self.steps.last().is_some_and(|step| step.left.is_empty()) {
            self.steps.pop();
        }
        if !self.steps.is_empty() {
            self.next_branch();
        }
    }
}

fn sum(s: &Line, x: i64, t: &Line, y: i64) -> Line {
    let add = |s: &[i64], t: &[i64]| s.iter().zip(t).map(|(s, t)| x * s + y * t).collect();
    Line {
        kind: s.kind,
        t: add(&s.t, &t.t),
        own: add(&s.own, &t.own),
    }
}

fn plus(form: &[i64], number: i64) -> Vec<i64> {
    let mut out = form.to_vec();
    *out.last_mut().expect("d") += number;
    out
}
