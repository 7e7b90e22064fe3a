//! Jobs that wait at eight seats: document 02's desk.
//!
//! Kept differently from the paper's words: the seats stand in one queue in the
//! order in which the next turn looks at them, and a turn that serves moves the
//! seats up to the one served to the back.

use crate::answer::{Answer, EMPTY, FILE_OUTPUT, IDLE, NO_SEAT, OCCUPIED, OUTSIDE};
use crate::bundle::WriteResult;
use crate::check::check;

/// Start and end of A, B and the proof in the buffer.
pub type Parts = [(usize, usize); 3];

#[derive(Clone)]
pub struct Scheduler {
    /// Every seat once, with its job.
    queue: [(usize, Option<Parts>); 8],
}

impl Default for Scheduler {
    fn default() -> Scheduler {
        Scheduler {
            queue: [0, 1, 2, 3, 4, 5, 6, 7].map(|seat| (seat, None)),
        }
    }
}

impl Scheduler {
    fn seat(&mut self, seat: usize) -> Result<&mut Option<Parts>, Answer> {
        self.queue
            .iter_mut()
            .find(|(own, _)| *own == seat)
            .map(|(_, job)| job)
            .ok_or(Answer::refused(NO_SEAT, FILE_OUTPUT, 0))
    }

    pub fn submit(&mut self, seat: usize, parts: Parts) -> Answer {
        match self.seat(seat) {
            Err(answer) => answer,
            Ok(Some(_)) => Answer::refused(OCCUPIED, FILE_OUTPUT, 0),
            Ok(free) => {
                *free = Some(parts);
                Answer::ACCEPTED
            }
        }
    }

    pub fn cancel(&mut self, seat: usize) -> Answer {
        match self.seat(seat).map(Option::take) {
            Err(answer) => answer,
            Ok(None) => Answer::refused(EMPTY, FILE_OUTPUT, 0),
            Ok(Some(_)) => Answer::ACCEPTED,
        }
    }

    /// The seat served and what its check gave; a refusal of its own where no
    /// job waits.
    pub fn turn(&mut self, buffer: &[u8], out: &mut [u8]) -> Result<(usize, WriteResult), Answer> {
        let mut served = None;
        for (index, (seat, job)) in self.queue.iter_mut().enumerate() {
            if let Some(parts) = job.take() {
                served = Some((index, *seat, parts));
                break;
            }
        }
        let (index, seat, parts) = served.ok_or(Answer::refused(IDLE, FILE_OUTPUT, 0))?;
        self.queue.rotate_left(index + 1);
        let [a, b, proof] = parts.map(|(start, end)| buffer.get(start..end));
        let result = match (a, b, proof) {
            (Some(a), Some(b), Some(proof)) => check(a, b, proof, out),
            _ => WriteResult::refused(Answer::refused(OUTSIDE, FILE_OUTPUT, 0)),
        };
        Ok((seat, result))
    }

    /// At which seats a job waits, by seat, and the seat that is looked at first.
    pub fn waiting(&self) -> ([bool; 8], usize) {
        let mut by_seat = [false; 8];
        for (seat, job) in &self.queue {
            by_seat[*seat] = job.is_some();
        }
        (by_seat, self.queue[0].0)
    }
}
