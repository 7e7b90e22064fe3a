//! Jobs at seats, by the words of document 02, point 13.

mod common;
use common::*;
use reference::{check, Answer, Parts, Scheduler};

/// The files of stage 3, then a proof of it with a wrong close, in one buffer.
fn buffer() -> (Vec<u8>, Parts, Parts) {
    let a = file(1, &[le(&[1, 0])]);
    let b = file(1, &[le(&[-1, 1])]);
    let right = file(1, &[combine(0, 1, 1, 1), close(2)]);
    let wrong = file(1, &[combine(0, 1, 1, 1), close(1)]);
    let mut buffer = Vec::new();
    let mut put = |file: &[u8]| {
        let start = buffer.len();
        buffer.extend_from_slice(file);
        (start, buffer.len())
    };
    let (a, b, right, wrong) = (put(&a), put(&b), put(&right), put(&wrong));
    (buffer, [a, b, right], [a, b, wrong])
}

/// The seat served and the answer, or the refusal of an idle turn.
fn turn(state: &mut Scheduler, buffer: &[u8]) -> Result<(usize, Answer), Answer> {
    let served = state.turn(buffer, &mut [0; 64]);
    served.map(|(seat, result)| (seat, result.answer))
}

#[test]
fn a_seat_above_7_an_occupied_one_and_an_empty_one() {
    let (_, right, wrong) = buffer();
    let mut state = Scheduler::default();
    for seat in [8, 255, 256, usize::MAX] {
        assert_eq!(state.submit(seat, right), refused(29, 4, 0));
        assert_eq!(state.cancel(seat), refused(29, 4, 0));
    }
    assert_eq!(state.cancel(7), refused(31, 4, 0));
    assert_eq!(state.submit(7, right), ACCEPTED);
    assert_eq!(state.submit(7, wrong), refused(30, 4, 0));
    assert_eq!(state.cancel(7), ACCEPTED);
    assert_eq!(state.cancel(7), refused(31, 4, 0));
}

#[test]
fn the_answer_is_that_of_check_alone() {
    let (buffer, right, wrong) = buffer();
    let mut state = Scheduler::default();
    for parts in [right, wrong] {
        let [a, b, proof] = parts.map(|(start, end)| &buffer[start..end]);
        for room in [64, 18] {
            let (mut alone, mut lent) = (vec![7; room], vec![7; room]);
            let expected = check(a, b, proof, &mut alone);
            assert_eq!(state.submit(5, parts), ACCEPTED);
            let (seat, result) = state.turn(&buffer, &mut lent).expect("a job waits");
            assert_eq!((seat, result.answer), (5, expected.answer));
            assert_eq!((result.written, lent), (expected.written, alone));
            // accepted or refused, 21 too, its seat is cleared
            assert_eq!(state.cancel(5), refused(31, 4, 0));
        }
    }
}

#[test]
fn a_part_outside_the_buffer_is_served_and_cleared() {
    let (buffer, right, _) = buffer();
    let n = buffer.len();
    let mut state = Scheduler::default();
    for (part, answer) in [
        ((0, n + 1), refused(34, 4, 0)),
        ((n + 1, n + 1), refused(34, 4, 0)),
        ((3, 2), refused(34, 4, 0)),
        ((usize::MAX, 0), refused(34, 4, 0)),
        ((n, n), refused(2, 2, 0)),
    ] {
        let mut parts = right;
        parts[1] = part;
        assert_eq!(state.submit(2, parts), ACCEPTED);
        assert_eq!(turn(&mut state, &buffer), Ok((2, answer)));
        assert_eq!(state.cancel(2), refused(31, 4, 0));
    }
    // the buffer as it is at the turn
    assert_eq!(state.submit(2, right), ACCEPTED);
    assert_eq!(turn(&mut state, &[]), Ok((2, refused(34, 4, 0))));
}

#[test]
fn the_next_look_starts_after_the_seat_served() {
    let (buffer, right, _) = buffer();
    let mut state = Scheduler::default();
    let idle = Err(refused(35, 4, 0));
    assert_eq!(turn(&mut state, &buffer), idle);
    let serves = |state: &mut Scheduler, seats: &[usize]| {
        for seat in seats {
            assert_eq!(turn(state, &buffer), Ok((*seat, ACCEPTED)));
        }
    };
    for seat in [6, 0, 3] {
        assert_eq!(state.submit(seat, right), ACCEPTED);
    }
    serves(&mut state, &[0, 3]);
    // 2 lies behind the look, 5 before the 6 that still waits
    for seat in [2, 5] {
        assert_eq!(state.submit(seat, right), ACCEPTED);
    }
    serves(&mut state, &[5, 6, 2]);
    // neither an idle turn nor a cancelled job moves the look: it stays at 3
    assert_eq!(turn(&mut state, &buffer), idle);
    for seat in [7, 3, 2] {
        assert_eq!(state.submit(seat, right), ACCEPTED);
    }
    assert_eq!(state.cancel(7), ACCEPTED);
    serves(&mut state, &[3, 2]);
    assert_eq!(turn(&mut state, &buffer), idle);
}

#[test]
fn a_job_is_served_in_the_eighth_turn_at_the_latest() {
    let (buffer, right, _) = buffer();
    for late in 0..8 {
        let mut state = Scheduler::default();
        // the look stands behind the late seat
        assert_eq!(state.submit(late, right), ACCEPTED);
        assert_eq!(turn(&mut state, &buffer), Ok((late, ACCEPTED)));
        for seat in 0..8 {
            assert_eq!(state.submit(seat, right), ACCEPTED);
        }
        for wait in 1..=8 {
            let (seat, _) = turn(&mut state, &buffer).expect("a job waits");
            assert_eq!(seat, (late + wait) % 8);
            // the others come again at once
            state.submit(seat, right);
        }
    }
}
