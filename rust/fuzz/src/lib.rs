//! The comparison for libFuzzer: bytes to a case, to calls at the scheduler or to a run of stages and back, and the entry that
//! libFuzzer calls.
//!
//! What steers it is the coverage of the Rust checker; the verified code is compared with that on every input.

use compare::{
    compare, guard_run, play, shorten_stage, turn_back, Calls, Runs, Shortenings, Tally, Turnings,
};
use stages::calls::{Call, Sequence};
use stages::rng::Rng;
use stages::runs::Run;
use stages::Case;

/// Takes bytes from the front; past the end they are 0.
struct Reader<'a>(&'a [u8]);

impl<'a> Reader<'a> {
    fn byte(&mut self) -> u8 {
        self.bytes(1).first().copied().unwrap_or(0)
    }

    fn short(&mut self) -> usize {
        let high = usize::from(self.byte());
        high * 256 + usize::from(self.byte())
    }

    fn bytes(&mut self, count: usize) -> &'a [u8] {
        let (front, rest) = self.0.split_at(count.min(self.0.len()));
        self.0 = rest;
        front
    }

    fn rest(&mut self) -> Vec<u8> {
        std::mem::take(&mut self.0).to_vec()
    }
}

/// What some bytes stand for.
pub enum Input {
    One(Case),
    AtSeats(Sequence),
    Run(Run),
}

/// The case, the calls or the run that some bytes stand for; every list of bytes is one.
pub fn decode(bytes: &[u8]) -> Input {
    let mut reader = Reader(bytes);
    let case = match reader.byte() % 13 {
        7 => return Input::AtSeats(sequence(&mut reader)),
        12 => return Input::Run(run(&mut reader)),
        0 => Case::Read {
            kinds: usize::from(reader.byte()),
            numbers: reader.short(),
            file: reader.rest(),
        },
        1 => {
            let edition = reader.short();
            let k = reader.short();
            let out = reader.short();
            let count = usize::from(reader.byte());
            let kinds = reader.bytes(count).to_vec();
            let numbers = reader
                .rest()
                .chunks_exact(4)
                .map(|four| i32::from_be_bytes([four[0], four[1], four[2], four[3]]))
                .collect();
            Case::Write {
                edition,
                k,
                kinds,
                numbers,
                out,
            }
        }
        2 => {
            let line = reader.short();
            let length = reader.short();
            Case::Show {
                a: reader.bytes(length).to_vec(),
                b: reader.rest(),
                line,
            }
        }
        3 => {
            let count = usize::from(reader.byte() % 20);
            let values = reader
                .bytes(4 * count)
                .chunks_exact(4)
                .map(|four| i32::from_be_bytes([four[0], four[1], four[2], four[3]]))
                .collect();
            Case::Test {
                formula: reader.rest(),
                values,
            }
        }
        5 => Case::TurnBundle {
            edition: reader.short(),
            out: reader.short(),
            file: reader.rest(),
        },
        6 => Case::TurnProof {
            edition: reader.short(),
            out: reader.short(),
            file: reader.rest(),
        },
        8 => {
            // K has two bytes, so that one above 255 comes.
            let k = reader.short();
            let out = usize::from(reader.byte());
            let count = usize::from(reader.byte());
            let values = reader
                .bytes(4 * count)
                .chunks_exact(4)
                .map(|four| i32::from_be_bytes([four[0], four[1], four[2], four[3]]))
                .collect();
            Case::List {
                formula: reader.rest(),
                k,
                values,
                out,
            }
        }
        9 => Case::Print {
            out: reader.short(),
            formula: reader.rest(),
        },
        10 => Case::PrintWords {
            out: reader.short(),
            formula: reader.rest(),
        },
        11 => {
            let out = usize::from(reader.byte());
            let (first, second) = (reader.short(), reader.short());
            Case::NextProof {
                a: reader.bytes(first).to_vec(),
                b: reader.bytes(second).to_vec(),
                table: reader.rest(),
                out,
            }
        }
        _ => {
            let out = reader.short();
            let (first, second) = (reader.short(), reader.short());
            Case::Check {
                a: reader.bytes(first).to_vec(),
                b: reader.bytes(second).to_vec(),
                proof: reader.rest(),
                out,
            }
        }
    };
    Input::One(case)
}

/// The largest number, and one that is too large for a byte, have a code of their own.
const NUMBERS: [usize; 2] = [256, usize::MAX];

/// A buffer, then calls up to the end.
fn sequence(reader: &mut Reader) -> Sequence {
    let length = reader.short();
    let buffer = reader.bytes(length).to_vec();
    let mut calls = Vec::new();
    while !reader.0.is_empty() {
        calls.push(match reader.byte() % 4 {
            0 => Call::Submit {
                seat: seat(reader),
                parts: [(); 3].map(|()| (number(reader), number(reader))),
            },
            1 => Call::Cancel { seat: seat(reader) },
            2 => Call::Turn {
                lent: reader.short().min(buffer.len()),
                room: reader.short(),
            },
            _ => {
                let (place, byte) = (reader.short(), reader.byte());
                if place >= buffer.len() {
                    continue;
                }
                Call::Put { place, byte }
            }
        });
    }
    Sequence { buffer, calls }
}

/// Lengths, then the buffer with a length of its own, then the proof.
fn run(reader: &mut Reader) -> Run {
    let count = usize::from(reader.byte() % 20);
    let lengths = (0..count).map(|_| number(reader)).collect();
    let length = reader.short();
    Run {
        lengths,
        buffer: reader.bytes(length).to_vec(),
        proof: reader.rest(),
    }
}

fn seat(reader: &mut Reader) -> usize {
    let byte = usize::from(reader.byte());
    *NUMBERS.get(byte.wrapping_sub(254)).unwrap_or(&byte)
}

fn number(reader: &mut Reader) -> usize {
    match reader.short() {
        65_535 => usize::MAX,
        short => short,
    }
}

/// Bytes that stand for calls, where their numbers have room in two bytes.
pub fn encode_calls(sequence: &Sequence) -> Vec<u8> {
    let short = |number: usize| (number.min(65_535) as u16).to_be_bytes();
    let seat = |seat: usize| match NUMBERS.iter().position(|&number| number == seat) {
        Some(index) => 254 + index as u8,
        None => seat.min(253) as u8,
    };
    let mut bytes = [&[7][..], &short(sequence.buffer.len()), &sequence.buffer].concat();
    for call in &sequence.calls {
        match *call {
            Call::Submit { seat: at, parts } => {
                bytes.extend([0, seat(at)]);
                for (start, end) in parts {
                    bytes.extend([short(start), short(end)].concat());
                }
            }
            Call::Cancel { seat: at } => bytes.extend([1, seat(at)]),
            Call::Turn { lent, room } => {
                bytes.push(2);
                bytes.extend([short(lent), short(room)].concat());
            }
            Call::Put { place, byte } => {
                bytes.push(3);
                bytes.extend(short(place));
                bytes.push(byte);
            }
        }
    }
    bytes
}

/// Bytes that stand for a run, where its lengths have room in two bytes or are the largest number.
pub fn encode_run(run: &Run) -> Vec<u8> {
    let short = |number: usize| (number.min(65_535) as u16).to_be_bytes();
    let mut bytes = vec![12, run.lengths.len() as u8];
    for &length in &run.lengths {
        bytes.extend(short(length));
    }
    bytes.extend(short(run.buffer.len()));
    bytes.extend_from_slice(&run.buffer);
    bytes.extend_from_slice(&run.proof);
    bytes
}

/// Bytes that stand for a case, where its lengths have room in two bytes.
pub fn encode(case: &Case) -> Vec<u8> {
    let short = |number: usize| (number.min(65_535) as u16).to_be_bytes();
    let byte = |number: usize| number.min(255) as u8;
    match case {
        Case::Read {
            file,
            kinds,
            numbers,
        } => [&[0, byte(*kinds)], &short(*numbers)[..], file].concat(),
        Case::Write {
            edition,
            k,
            kinds,
            numbers,
            out,
        } => {
            let numbers: Vec<u8> = numbers.iter().flat_map(|n| n.to_be_bytes()).collect();
            let count = [byte(kinds.len())];
            [
                &[1][..],
                &short(*edition),
                &short(*k),
                &short(*out),
                &count,
                kinds,
                &numbers,
            ]
            .concat()
        }
        Case::Show { a, b, line } => [&[2][..], &short(*line), &short(a.len()), a, b].concat(),
        Case::Test { formula, values } => {
            let list: Vec<u8> = values.iter().flat_map(|v| v.to_be_bytes()).collect();
            [&[3, byte(values.len())][..], &list, formula].concat()
        }
        Case::List {
            formula,
            k,
            values,
            out,
        } => {
            let values = &values[..values.len().min(255)];
            let list: Vec<u8> = values.iter().flat_map(|v| v.to_be_bytes()).collect();
            let sizes = [byte(*out), byte(values.len())];
            [&[8][..], &short(*k), &sizes, &list, formula].concat()
        }
        Case::Check { a, b, proof, out } => [
            &[4][..],
            &short(*out),
            &short(a.len()),
            &short(b.len()),
            a,
            b,
            proof,
        ]
        .concat(),
        Case::Print { formula, out } => [&[9][..], &short(*out), formula].concat(),
        Case::PrintWords { formula, out } => [&[10][..], &short(*out), formula].concat(),
        Case::NextProof { a, b, table, out } => [
            &[11, byte(*out)][..],
            &short(a.len()),
            &short(b.len()),
            a,
            b,
            table,
        ]
        .concat(),
        Case::TurnBundle { file, edition, out } => {
            [&[5], &short(*edition)[..], &short(*out), file].concat()
        }
        Case::TurnProof { file, edition, out } => {
            [&[6], &short(*edition)[..], &short(*out), file].concat()
        }
    }
}

/// Stops the program where the two sides differ.
pub fn judge(bytes: &[u8]) {
    let mut rng = Rng::new(bytes.len() as u64);
    match decode(bytes) {
        Input::One(case) => {
            let mut tally = Tally::default();
            compare(&case, &mut rng, &mut tally);
            assert_eq!(tally.differences(), 0, "{tally}");
            let mut turnings = Turnings::default();
            turn_back(&case, &mut turnings);
            assert_eq!(turnings.differences, 0, "{}", case.print());
            let mut shortenings = Shortenings::default();
            shorten_stage(&case, &mut rng, &mut shortenings);
            assert_eq!(shortenings.differences, 0, "{shortenings}");
        }
        Input::Run(run) => {
            let mut seen = Runs::default();
            guard_run(&run, &mut rng, &mut seen);
            assert_eq!(seen.differences, 0, "{seen}");
        }
        Input::AtSeats(calls) => {
            let mut seen = Calls::default();
            play(&calls, &mut rng, &mut seen);
            assert_eq!(seen.differences, 0, "{seen}");
        }
    }
}

/// What libFuzzer calls for each input.
///
/// # Safety
/// `data` points to `size` bytes.
#[no_mangle]
pub unsafe extern "C" fn LLVMFuzzerTestOneInput(data: *const u8, size: usize) -> i32 {
    if size > 0 {
        judge(std::slice::from_raw_parts(data, size));
    }
    0
}
