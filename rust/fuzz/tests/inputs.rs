//! What the fuzzer makes of its bytes.

use fuzz::{decode, encode, encode_calls, encode_run, judge, Input};
use stages::calls::sequence;
use stages::rng::Rng;
use stages::runs;
use stages::table::Size;
use stages::{stream, Class, Operation, OPERATIONS};

#[test]
fn a_case_comes_back_from_its_bytes() {
    for operation in OPERATIONS {
        for case in stream(operation, Class::Sound, Size::SMALL, 1).take(500) {
            let Input::One(back) = decode(&encode(&case)) else {
                panic!("no case");
            };
            // An output of 65,536 bytes has no room in two: it is one shorter.
            assert_eq!(encode(&back), encode(&case));
        }
    }
}

#[test]
fn calls_come_back_from_their_bytes() {
    let mut rng = Rng::new(1);
    let mut files = stream(Operation::Check, Class::Sound, Size::SMALL, 1);
    for _ in 0..500 {
        let some: Vec<_> = files.by_ref().take(3).collect();
        let calls = sequence(&mut rng, &some, 30);
        match decode(&encode_calls(&calls)) {
            Input::AtSeats(back) => assert_eq!(back, calls),
            _ => panic!("no calls"),
        }
    }
}

#[test]
fn runs_come_back_from_their_bytes() {
    let mut rng = Rng::new(2);
    let (mut seen, mut largest) = (0, 0);
    for _ in 0..500 {
        let run = runs::any(&mut rng, &Size::SMALL);
        // Lengths of half the numbers that there are have no room.
        if run.lengths.iter().any(|n| (65_535..usize::MAX).contains(n)) {
            continue;
        }
        largest += usize::from(run.lengths.contains(&usize::MAX));
        match decode(&encode_run(&run)) {
            Input::Run(back) => assert_eq!(back, run),
            _ => panic!("no run"),
        }
        seen += 1;
    }
    assert!(seen > 450 && largest > 0, "{seen} {largest}");
}

#[test]
fn any_bytes_are_a_case_without_a_difference() {
    let mut rng = Rng::new(1);
    for _ in 0..20_000 {
        let length = 1 + rng.below(60);
        judge(&rng.bytes(length));
    }
}
