//! Sequences of calls at the verified scheduler beside the independent one (document 02, point 13).

use crate::outcome;
use dulgaverk::{Job, Scheduler, Served};
use stages::calls::{Call, Sequence};
use stages::rng::Rng;
use std::collections::BTreeMap;

/// The calls that were compared, by the number of their answer; turns that are idle by themselves.
#[derive(Default, Debug)]
pub struct Calls {
    pub submitted: BTreeMap<u8, u64>,
    pub cancelled: BTreeMap<u8, u64>,
    pub served: BTreeMap<u8, u64>,
    pub idle: BTreeMap<u8, u64>,
    /// The most turns that a job waited, the one that served it included.
    pub longest: usize,
    pub differences: u64,
}

impl Calls {
    pub fn all(&self) -> u64 {
        let sum = |numbers: &BTreeMap<u8, u64>| numbers.values().sum::<u64>();
        sum(&self.submitted) + sum(&self.cancelled) + sum(&self.served) + sum(&self.idle)
    }
}

impl std::fmt::Display for Calls {
    fn fmt(&self, f: &mut std::fmt::Formatter<'_>) -> std::fmt::Result {
        write!(
            f,
            "at seats: {} calls, submissions {:?}, cancellations {:?}, turns {:?}, idle ones {:?}, longest wait {} turns, {} differences",
            self.all(),
            self.submitted,
            self.cancelled,
            self.served,
            self.idle,
            self.longest,
            self.differences
        )
    }
}

/// The calls of a sequence on both sides, from an empty state on.
pub fn play(sequence: &Sequence, rng: &mut Rng, seen: &mut Calls) {
    let mut buffer = sequence.buffer.clone();
    let (mut verified, mut other) = (Scheduler::new(), reference::Scheduler::default());
    let mut waited = [None; 8];
    for call in &sequence.calls {
        let same = match *call {
            Call::Put { place, byte } => {
                buffer[place] = byte;
                continue;
            }
            Call::Cancel { seat } => {
                let answer = other.cancel(seat);
                *seen.cancelled.entry(answer.number).or_default() += 1;
                if answer.number == 0 {
                    waited[seat] = None;
                }
                verified.cancel(seat) == outcome(answer, ())
            }
            Call::Submit { seat, parts } => {
                let answer = other.submit(seat, parts);
                *seen.submitted.entry(answer.number).or_default() += 1;
                if answer.number == 0 {
                    waited[seat] = Some(0);
                }
                let [a, b, proof] = parts.map(|(start, end)| start..end);
                verified.submit(seat, &Job { a, b, proof }) == outcome(answer, ())
            }
            Call::Turn { lent, room } => {
                let before = crate::bytes(rng, room);
                let (mut left, mut right) = (before.clone(), before);
                let expected = other.turn(&buffer[..lent], &mut right);
                let got = verified.turn(&buffer[..lent], &mut left);
                for turns in waited.iter_mut().flatten() {
                    *turns += 1;
                }
                let same = match expected {
                    Err(idle) => {
                        *seen.idle.entry(idle.number).or_default() += 1;
                        got.map(|_| ()) == outcome(idle, ()) && waited.iter().all(Option::is_none)
                    }
                    Ok((seat, r)) => {
                        *seen.served.entry(r.answer.number).or_default() += 1;
                        let turns = waited[seat].take().unwrap_or(usize::MAX);
                        seen.longest = seen.longest.max(turns);
                        let result = outcome(r.answer, r.written);
                        got == Ok(Served { seat, result }) && turns <= 8
                    }
                };
                same && left == right
            }
        };
        let same = same && verified.waiting() == other.waiting();
        seen.differences += u64::from(!same);
    }
}
