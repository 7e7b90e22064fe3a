//! Three laptops at the seats 1, 4 and 6 of one scheduler: their files stand in one buffer, and each turn serves one.
//!
//! cargo run --example laptops -p dulgaverk

use dulgaverk::{Job, Scheduler};
use std::ops::Range;

const STAGE_1: [&[u8]; 3] = [
    include_bytes!("../../../examples/stage-1/a"),
    include_bytes!("../../../examples/stage-1/b"),
    include_bytes!("../../../examples/stage-1/p"),
];
const STAGE_2: [&[u8]; 3] = [
    include_bytes!("../../../examples/stage-2/a"),
    include_bytes!("../../../examples/stage-2/b"),
    include_bytes!("../../../examples/stage-2/p"),
];
const STAGE_3: [&[u8]; 3] = [
    include_bytes!("../../../examples/stage-3/a"),
    include_bytes!("../../../examples/stage-3/b"),
    include_bytes!("../../../examples/stage-3/p"),
];

/// Puts three files behind what the buffer has, and says where they stand.
fn put(buffer: &mut Vec<u8>, files: [&[u8]; 3]) -> Job {
    let [a, b, proof] = files.map(|file| -> Range<usize> {
        let start = buffer.len();
        buffer.extend_from_slice(file);
        start..buffer.len()
    });
    Job { a, b, proof }
}

/// What is said, a line for each call.
pub fn lines() -> Vec<String> {
    let mut buffer = Vec::new();
    let accepted = put(&mut buffer, STAGE_1);
    let refused = put(&mut buffer, STAGE_2);
    let short = put(&mut buffer, STAGE_3);
    let end = short.proof.end;
    let too_long = Job {
        proof: short.proof.start..end + 1,
        ..short.clone()
    };

    let mut scheduler = Scheduler::new();
    let mut said = Vec::new();
    let mut out = [0; 64];
    let submit = |scheduler: &mut Scheduler, said: &mut Vec<String>, seat, job, what| {
        let answer = scheduler.submit(seat, job);
        said.push(match answer {
            Ok(()) => format!("seat {seat} submits {what}"),
            Err(refusal) => format!("seat {seat} submits {what}: refused {}", refusal.number),
        });
    };
    let mut turn = |scheduler: &mut Scheduler, said: &mut Vec<String>| {
        said.push(match scheduler.turn(&buffer, &mut out) {
            Err(idle) => format!("turn: {}", idle.meaning()),
            Ok(served) => match served.result {
                Ok(bytes) => format!("turn: seat {}, accepted {bytes}", served.seat),
                Err(r) => format!(
                    "turn: seat {}, refused {} file {} at {}",
                    served.seat, r.number, r.file, r.place
                ),
            },
        });
    };

    submit(&mut scheduler, &mut said, 4, &refused, "stage 2");
    submit(
        &mut scheduler,
        &mut said,
        6,
        &too_long,
        "stage 3, a byte too long",
    );
    submit(&mut scheduler, &mut said, 1, &accepted, "stage 1");
    submit(&mut scheduler, &mut said, 1, &short, "stage 3");
    turn(&mut scheduler, &mut said);
    submit(&mut scheduler, &mut said, 1, &short, "stage 3");
    for _ in 0..4 {
        turn(&mut scheduler, &mut said);
    }
    said
}

#[allow(dead_code)] // the test that includes this file calls `lines` alone
fn main() {
    for line in lines() {
        println!("{line}");
    }
}
