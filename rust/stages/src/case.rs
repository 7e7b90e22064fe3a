//! A case: one call of one operation, and how it is printed with the
//! reference's answer.

use reference::Answer;
use std::fmt::Write;

/// The operations of the paper.
#[derive(Clone, Copy, PartialEq, Eq, Debug)]
pub enum Operation {
    Check,
    Read,
    Write,
    Show,
    Test,
    TurnBundle,
    TurnProof,
    List,
    Print,
    PrintWords,
    NextProof,
}

pub const OPERATIONS: [Operation; 11] = [
    Operation::Check,
    Operation::Read,
    Operation::Write,
    Operation::Show,
    Operation::Test,
    Operation::TurnBundle,
    Operation::TurnProof,
    Operation::List,
    Operation::Print,
    Operation::PrintWords,
    Operation::NextProof,
];

/// One call: the files and lists lent, and the lengths of the outputs.
#[derive(Clone, PartialEq, Eq, Debug)]
pub enum Case {
    Check {
        a: Vec<u8>,
        b: Vec<u8>,
        proof: Vec<u8>,
        out: usize,
    },
    Read {
        file: Vec<u8>,
        kinds: usize,
        numbers: usize,
    },
    Write {
        edition: usize,
        k: usize,
        kinds: Vec<u8>,
        numbers: Vec<i32>,
        out: usize,
    },
    Show {
        a: Vec<u8>,
        b: Vec<u8>,
        line: usize,
    },
    Test {
        formula: Vec<u8>,
        values: Vec<i32>,
    },
    /// The edition is the one asked for.
    TurnBundle {
        file: Vec<u8>,
        edition: usize,
        out: usize,
    },
    TurnProof {
        file: Vec<u8>,
        edition: usize,
        out: usize,
    },
    List {
        formula: Vec<u8>,
        k: usize,
        values: Vec<i32>,
        out: usize,
    },
    Print {
        formula: Vec<u8>,
        out: usize,
    },
    PrintWords {
        formula: Vec<u8>,
        out: usize,
    },
    NextProof {
        a: Vec<u8>,
        b: Vec<u8>,
        table: Vec<u8>,
        out: usize,
    },
}

/// What the reference makes of a case.
#[derive(Clone, PartialEq, Eq, Debug)]
pub struct Outcome {
    pub answer: Answer,
    pub result: Output,
}

#[derive(Clone, PartialEq, Eq, Debug)]
pub enum Output {
    /// A refusal.
    Nothing,
    Bytes(Vec<u8>),
    Bundle {
        k: usize,
        edition: u8,
        kinds: Vec<u8>,
        numbers: Vec<i32>,
    },
    /// File, start and end of a part.
    Part(u8, usize, usize),
    Verdict(bool),
}

impl Case {
    pub fn operation(&self) -> Operation {
        match self {
            Case::Check { .. } => Operation::Check,
            Case::Read { .. } => Operation::Read,
            Case::Write { .. } => Operation::Write,
            Case::Show { .. } => Operation::Show,
            Case::Test { .. } => Operation::Test,
            Case::TurnBundle { .. } => Operation::TurnBundle,
            Case::TurnProof { .. } => Operation::TurnProof,
            Case::List { .. } => Operation::List,
            Case::Print { .. } => Operation::Print,
            Case::PrintWords { .. } => Operation::PrintWords,
            Case::NextProof { .. } => Operation::NextProof,
        }
    }

    /// The length of the longest file.
    pub fn longest_file(&self) -> usize {
        match self {
            Case::Check { a, b, proof, .. } => a.len().max(b.len()).max(proof.len()),
            Case::Read { file, .. }
            | Case::TurnBundle { file, .. }
            | Case::TurnProof { file, .. } => file.len(),
            Case::Write { .. } => 0,
            Case::Show { a, b, .. } => a.len().max(b.len()),
            Case::Test { formula, .. }
            | Case::List { formula, .. }
            | Case::Print { formula, .. }
            | Case::PrintWords { formula, .. } => formula.len(),
            Case::NextProof { a, b, table, .. } => a.len().max(b.len()).max(table.len()),
        }
    }

    /// The length of the longest file, that of a formula which a check writes
    /// or finds too long among them, and that of a turned file.
    pub fn largest_file(&self) -> usize {
        let Outcome { answer, result } = self.outcome();
        let made = match (self.operation(), result) {
            (Operation::Write, _) => 0,
            (_, Output::Bytes(bytes)) => bytes.len(),
            _ if (answer.number, answer.file) == (1, 4) => answer.place,
            _ => 0,
        };
        made.max(self.longest_file())
    }

    /// Calls the reference.
    pub fn outcome(&self) -> Outcome {
        let (answer, result) = match self {
            Case::Check { a, b, proof, out } => {
                let mut output = vec![0; *out];
                let result = reference::check(a, b, proof, &mut output);
                output.truncate(result.written);
                (result.answer, Output::Bytes(output))
            }
            Case::Read {
                file,
                kinds,
                numbers,
            } => {
                let mut kinds = vec![0; *kinds];
                let mut numbers = vec![0; *numbers];
                let result = reference::read_bundle(file, &mut kinds, &mut numbers);
                kinds.truncate(result.count);
                numbers.truncate(result.count * (result.k + 1));
                let bundle = Output::Bundle {
                    k: result.k,
                    edition: result.edition,
                    kinds,
                    numbers,
                };
                (result.answer, bundle)
            }
            Case::Write {
                edition,
                k,
                kinds,
                numbers,
                out,
            } => {
                let mut output = vec![0; *out];
                let result = reference::write_bundle(*edition, *k, kinds, numbers, &mut output);
                output.truncate(result.written);
                (result.answer, Output::Bytes(output))
            }
            Case::Show { a, b, line } => {
                let part = reference::show(a, b, *line);
                let start =
                    |file: &[u8]| (part.as_ptr() as usize).checked_sub(file.as_ptr() as usize);
                let place = |name, file: &[u8]| {
                    start(file)
                        .filter(|&start| start < file.len())
                        .map(|start| Output::Part(name, start, start + part.len()))
                };
                let found = place(1, a).or_else(|| place(2, b));
                let answer = reference::show_answer(a, b, *line);
                (answer, found.unwrap_or(Output::Nothing))
            }
            Case::Test { formula, values } => {
                let result = reference::test_formula(formula, values);
                (result.answer, Output::Verdict(result.holds))
            }
            Case::TurnBundle { file, edition, out } => {
                let mut output = vec![0; *out];
                let result = reference::turn_bundle(file, *edition, &mut output);
                output.truncate(result.written);
                (result.answer, Output::Bytes(output))
            }
            Case::TurnProof { file, edition, out } => {
                let mut output = vec![0; *out];
                let result = reference::turn_proof(file, *edition, &mut output);
                output.truncate(result.written);
                (result.answer, Output::Bytes(output))
            }
            Case::List {
                formula,
                k,
                values,
                out,
            } => {
                let mut output = vec![0; *out];
                let result = reference::test_list(formula, *k, values, &mut output);
                output.truncate(result.written);
                (result.answer, Output::Bytes(output))
            }
            Case::Print { formula, out } => {
                let mut output = vec![0; *out];
                let result = reference::print(formula, &mut output);
                output.truncate(result.written);
                (result.answer, Output::Bytes(output))
            }
            Case::PrintWords { formula, out } => {
                let mut output = vec![0; *out];
                let result = reference::print_words(formula, &mut output);
                output.truncate(result.written);
                (result.answer, Output::Bytes(output))
            }
            // The quick one of two that agree.
            Case::NextProof { a, b, table, out } => {
                let mut output = vec![0; *out];
                let result = reference::search_next_proof(a, b, table, &mut output);
                output.truncate(result.written);
                (result.answer, Output::Bytes(output))
            }
        };
        Outcome {
            answer,
            result: if answer.number == 0 {
                result
            } else {
                Output::Nothing
            },
        }
    }

    /// The printed line, with the reference's answer.
    pub fn print(&self) -> String {
        let mut text = String::new();
        match self {
            Case::Check { a, b, proof, out } => {
                text.push_str("check ");
                push_bytes(&mut text, a);
                push_bytes(&mut text, b);
                push_bytes(&mut text, proof);
                push(&mut text, out);
            }
            Case::Read {
                file,
                kinds,
                numbers,
            } => {
                text.push_str("read ");
                push_bytes(&mut text, file);
                push(&mut text, kinds);
                push(&mut text, numbers);
            }
            Case::Write {
                edition,
                k,
                kinds,
                numbers,
                out,
            } => {
                text.push_str("write ");
                push(&mut text, edition);
                push(&mut text, k);
                push_list(&mut text, kinds);
                push_list(&mut text, numbers);
                push(&mut text, out);
            }
            Case::Show { a, b, line } => {
                text.push_str("show ");
                push_bytes(&mut text, a);
                push_bytes(&mut text, b);
                push(&mut text, line);
            }
            Case::Test { formula, values } => {
                text.push_str("test ");
                push_bytes(&mut text, formula);
                push_list(&mut text, values);
            }
            Case::TurnBundle { file, edition, out } => {
                text.push_str("turn-bundle ");
                push_bytes(&mut text, file);
                push(&mut text, edition);
                push(&mut text, out);
            }
            Case::TurnProof { file, edition, out } => {
                text.push_str("turn-proof ");
                push_bytes(&mut text, file);
                push(&mut text, edition);
                push(&mut text, out);
            }
            Case::List {
                formula,
                k,
                values,
                out,
            } => {
                text.push_str("list ");
                push_bytes(&mut text, formula);
                push(&mut text, k);
                push_list(&mut text, values);
                push(&mut text, out);
            }
            Case::Print { formula, out } => {
                text.push_str("print ");
                push_bytes(&mut text, formula);
                push(&mut text, out);
            }
            Case::PrintWords { formula, out } => {
                text.push_str("print-words ");
                push_bytes(&mut text, formula);
                push(&mut text, out);
            }
            Case::NextProof { a, b, table, out } => {
                text.push_str("next-proof ");
                push_bytes(&mut text, a);
                push_bytes(&mut text, b);
                push_bytes(&mut text, table);
                push(&mut text, out);
            }
        }
        let Outcome { answer, result } = self.outcome();
        push_answer(&mut text, answer);
        match result {
            Output::Nothing if self.operation() == Operation::Read => text.push_str("0 0 0 - - "),
            Output::Nothing => text.push_str("- "),
            Output::Bytes(bytes) => push_bytes(&mut text, &bytes),
            Output::Bundle {
                k,
                edition,
                kinds,
                numbers,
            } => {
                push(&mut text, kinds.len());
                push(&mut text, k);
                push(&mut text, edition);
                push_list(&mut text, &kinds);
                push_list(&mut text, &numbers);
            }
            Output::Part(name, start, end) => {
                push(&mut text, format_args!("{name}:{start}:{end}"));
            }
            Output::Verdict(holds) => push(&mut text, holds),
        }
        text.pop();
        text
    }
}

pub(crate) fn push(text: &mut String, item: impl std::fmt::Display) {
    // Writing to a string does not fail.
    let _ = write!(text, "{item} ");
}

pub(crate) fn push_answer(text: &mut String, answer: Answer) {
    push(text, answer.number);
    push(text, answer.file);
    push(text, answer.place);
    push(text, answer.row);
    push(text, answer.step);
    push(text, answer.branch);
}

pub(crate) fn push_list(text: &mut String, list: &[impl std::fmt::Display]) {
    if list.is_empty() {
        text.push('-');
    }
    for (index, item) in list.iter().enumerate() {
        let comma = if index > 0 { "," } else { "" };
        let _ = write!(text, "{comma}{item}");
    }
    text.push(' ');
}

/// Bytes in hexadecimal, long repetitions written once with their count.
pub(crate) fn push_bytes(text: &mut String, bytes: &[u8]) {
    if bytes.is_empty() {
        text.push_str("- ");
        return;
    }
    let mut place = 0;
    let mut first = true;
    while place < bytes.len() {
        let rest = &bytes[place..];
        let (length, times) = match repetition(rest) {
            Some(found) => found,
            // What stands before the next repetition.
            None => {
                let plain = (1..rest.len()).find(|&next| repetition(&rest[next..]).is_some());
                (plain.unwrap_or(rest.len()), 1)
            }
        };
        if !first {
            text.push('+');
        }
        first = false;
        for byte in &rest[..length] {
            let _ = write!(text, "{byte:02X}");
        }
        if times > 1 {
            let _ = write!(text, "*{times}");
        }
        place += length * times;
    }
    text.push(' ');
}

/// The length and count of a piece that the bytes start with and repeat at
/// once, if that is worth writing down.
fn repetition(bytes: &[u8]) -> Option<(usize, usize)> {
    (1..=12).find_map(|length| {
        let piece = bytes.get(..length)?;
        // Looking at the next piece first keeps this quick.
        if bytes.get(length..2 * length)? != piece {
            return None;
        }
        let times = bytes
            .chunks_exact(length)
            .take_while(|&next| next == piece)
            .count();
        (times >= 5 && length * times >= 32).then_some((length, times))
    })
}

/// Bytes from the printed form.
pub fn parse_bytes(text: &str) -> Option<Vec<u8>> {
    let mut bytes = Vec::new();
    if text == "-" {
        return Some(bytes);
    }
    for chunk in text.split('+') {
        let (digits, times) = match chunk.split_once('*') {
            Some((digits, times)) => (digits, times.parse().ok()?),
            None => (chunk, 1),
        };
        if digits.len() % 2 != 0 {
            return None;
        }
        let piece: Option<Vec<u8>> = (0..digits.len() / 2)
            .map(|i| u8::from_str_radix(digits.get(2 * i..2 * i + 2)?, 16).ok())
            .collect();
        let piece = piece?;
        for _ in 0..times {
            bytes.extend_from_slice(&piece);
        }
    }
    Some(bytes)
}
