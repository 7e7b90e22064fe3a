//! Sequences of calls at the scheduler (document 02, point 13), over the files
//! of some checks that stand end to end in one buffer.

use crate::case::Case;
use crate::rng::Rng;
use reference::{Answer, Parts, Scheduler};
use std::fmt::Write;

/// One call, and what happens to the buffer between calls.
#[derive(Clone, PartialEq, Eq, Debug)]
pub enum Call {
    Submit {
        seat: usize,
        parts: Parts,
    },
    Cancel {
        seat: usize,
    },
    /// So many bytes of the buffer are lent, and an output of so many.
    Turn {
        lent: usize,
        room: usize,
    },
    /// A laptop writes a byte.
    Put {
        place: usize,
        byte: u8,
    },
}

/// The buffer at the start, and the calls from an empty state on.
#[derive(Clone, PartialEq, Eq, Debug)]
pub struct Sequence {
    pub buffer: Vec<u8>,
    pub calls: Vec<Call>,
}

/// Numbers that name a seat, and some that do not, also none that one byte
/// could hold.
const SEATS: [usize; 19] = [
    0,
    1,
    2,
    3,
    4,
    5,
    6,
    7,
    0,
    1,
    2,
    3,
    4,
    5,
    6,
    7,
    8,
    256,
    usize::MAX,
];

/// The files of some checks end to end, and jobs over them: right ones, and
/// some with a part that is not as it should be.
fn jobs(rng: &mut Rng, cases: &[Case]) -> (Vec<u8>, Vec<Parts>) {
    let (mut buffer, mut jobs) = (Vec::new(), Vec::new());
    for case in cases {
        let Case::Check { a, b, proof, .. } = case else {
            continue;
        };
        let mut place = |file: &[u8]| {
            let start = buffer.len();
            buffer.extend_from_slice(file);
            (start, buffer.len())
        };
        jobs.push([place(a), place(b), place(proof)]);
    }
    let n = buffer.len();
    for part in [
        (0, n + 1),
        (n + 1, n + 1),
        (5, 4),
        (n, n),
        (usize::MAX, usize::MAX),
        (usize::MAX, 0),
    ] {
        let mut job = *rng.pick(&jobs);
        job[rng.below(3)] = part;
        jobs.push(job);
    }
    (buffer, jobs)
}

/// So many calls over the files of some checks.
pub fn sequence(rng: &mut Rng, cases: &[Case], count: usize) -> Sequence {
    let (buffer, jobs) = jobs(rng, cases);
    // Some sequences have more turns than submissions, some the other way round.
    let turns = *rng.pick(&[2, 5, 8]);
    let mut calls = Vec::new();
    for _ in 0..count {
        let seat = *rng.pick(&SEATS);
        match rng.below(12) {
            0 => calls.push(Call::Cancel { seat }),
            kind if kind <= turns => {
                if rng.chance(1, 20) {
                    calls.push(Call::Put {
                        place: rng.below(buffer.len()),
                        byte: rng.byte(),
                    });
                }
                calls.push(Call::Turn {
                    lent: if rng.chance(1, 10) {
                        buffer.len() / 2
                    } else {
                        buffer.len()
                    },
                    room: *rng.pick(&[0, 40, 3_000]),
                });
            }
            _ => calls.push(Call::Submit {
                seat,
                parts: *rng.pick(&jobs),
            }),
        }
    }
    Sequence { buffer, calls }
}

impl Sequence {
    /// The calls with the reference's answers on one line: a word each, the
    /// call and what it tells joined by `=`. A call tells its answer, for a
    /// turn that serves with the seat before it and the count after it; then
    /// the seat to look at first, and for each seat whether a job waits.
    pub fn print(&self) -> String {
        let mut line = String::from("seats");
        let mut buffer = self.buffer.clone();
        let mut state = Scheduler::default();
        for call in &self.calls {
            let (words, mut tells) = match call {
                Call::Put { place, byte } => {
                    buffer[*place] = *byte;
                    continue;
                }
                Call::Submit { seat, parts } => {
                    let [a, b, c] = parts.map(|(start, end)| format!("{start},{end}"));
                    let answer = state.submit(*seat, *parts);
                    (format!("submit:{seat}:{a},{b},{c}"), told(&answer))
                }
                Call::Cancel { seat } => (format!("cancel:{seat}"), told(&state.cancel(*seat))),
                Call::Turn { lent, room } => {
                    let lent = &buffer[..*lent];
                    let hex: String = lent.iter().map(|byte| format!("{byte:02X}")).collect();
                    let tells = match state.turn(lent, &mut vec![0; *room]) {
                        Err(idle) => told(&idle),
                        Ok((seat, result)) => {
                            let mut tells = vec![seat];
                            tells.extend(told(&result.answer));
                            tells.push(result.written);
                            tells
                        }
                    };
                    (format!("turn:{room}:{hex}"), tells)
                }
            };
            let (waiting, first) = state.waiting();
            tells.push(first);
            tells.extend(waiting.map(usize::from));
            let tells: Vec<_> = tells.iter().map(usize::to_string).collect();
            let _ = write!(line, " {words}={}", tells.join(","));
        }
        line
    }
}

fn told(answer: &Answer) -> Vec<usize> {
    let tree = [answer.row, answer.step, answer.branch].map(usize::from);
    let front = [
        usize::from(answer.number),
        usize::from(answer.file),
        answer.place,
    ];
    [front, tree].concat()
}
