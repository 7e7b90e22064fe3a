//! Checks that wait at eight seats and are served in turn (document 02's desk).

use crate::boundary;
use crate::{accepted, Refusal};
use std::ops::Range;

/// Where a job's three files stand in the buffer that is lent at each turn. Any numbers may be given.
#[derive(Clone, PartialEq, Eq, Debug)]
pub struct Job {
    pub a: Range<usize>,
    pub b: Range<usize>,
    pub proof: Range<usize>,
}

/// What a turn served: the seat, and the bytes written or the refusal.
#[derive(Clone, Copy, PartialEq, Eq, Debug)]
pub struct Served {
    pub seat: usize,
    pub result: Result<usize, Refusal>,
}

/// One waiting job for each of the seats 0 to 7. A turn serves one, and none waits longer than eight turns.
///
/// ```
/// use dulgaverk::{Job, Scheduler};
/// // Stage 6: 1 ≤ 0 in A, nothing in B; close line 0 by number.
/// let buffer = b"\x01\0\x01\x01\x02\0\x01\x01\x03\0\x04\0\0\0\x01\x01\0\x01\x01\x02\0\x01\x01\x14\0\x01\0";
/// let job = Job { a: 0..15, b: 0..8, proof: 15..27 };
/// let mut out = [0; 64];
/// let mut scheduler = Scheduler::new();
/// assert_eq!(scheduler.turn(buffer, &mut out).unwrap_err().number, 35);
/// scheduler.submit(5, &job)?;
/// assert_eq!(scheduler.submit(5, &job).unwrap_err().number, 30);
/// scheduler.submit(2, &Job { a: 0..28, ..job })?;
/// let served = scheduler.turn(buffer, &mut out)?;
/// assert_eq!((served.seat, served.result.unwrap_err().number), (2, 34));
/// let served = scheduler.turn(buffer, &mut out)?;
/// assert_eq!((served.seat, served.result), (5, Ok(19)));
/// assert_eq!(scheduler.cancel(5).unwrap_err().number, 31);
/// # Ok::<(), dulgaverk::Refusal>(())
/// ```
#[derive(Clone, Copy)]
pub struct Scheduler {
    state: boundary::Scheduler,
}

impl Default for Scheduler {
    fn default() -> Scheduler {
        Scheduler::new()
    }
}

impl Scheduler {
    /// No job waits, and seat 0 is looked at first.
    pub fn new() -> Scheduler {
        let state = unsafe { boundary::dulgaverk_scheduler_empty() };
        Scheduler { state }
    }

    /// Submits a job for a seat. 29, 30.
    pub fn submit(&mut self, seat: usize, job: &Job) -> Result<(), Refusal> {
        let part = |part: &Range<usize>| boundary::Part {
            start: part.start,
            end: part.end,
        };
        let job = boundary::Job {
            a: part(&job.a),
            b: part(&job.b),
            proof: part(&job.proof),
        };
        let r = unsafe { boundary::dulgaverk_scheduler_submit(self.state, seat, job) };
        self.state = r.scheduler;
        accepted(r.answer, ())
    }

    /// Cancels the job that waits at a seat. 29, 31.
    pub fn cancel(&mut self, seat: usize) -> Result<(), Refusal> {
        let r = unsafe { boundary::dulgaverk_scheduler_cancel(self.state, seat) };
        self.state = r.scheduler;
        accepted(r.answer, ())
    }

    /// Checks the next job on the buffer as it is now, and clears its slot. Where no job waits, 35.
    pub fn turn(&mut self, buffer: &[u8], out: &mut [u8]) -> Result<Served, Refusal> {
        let r = unsafe {
            boundary::dulgaverk_scheduler_turn(
                self.state,
                buffer.as_ptr(),
                buffer.len(),
                out.as_mut_ptr(),
                out.len(),
            )
        };
        self.state = r.scheduler;
        // An idle turn is refused. If it were not, that would be handed on, so that a comparison sees it.
        match accepted(r.result.answer, r.result.count) {
            Err(refusal) if r.idle => Err(refusal),
            result => Ok(Served {
                seat: r.seat,
                result,
            }),
        }
    }

    /// The seats at which a job waits, and the one that the next turn looks at first.
    pub fn waiting(&self) -> ([bool; 8], usize) {
        (
            self.state.slots.map(|slot| slot.waiting != 0),
            self.state.first,
        )
    }
}
