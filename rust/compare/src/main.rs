//! Compares the verified operations with the independent checker until so many calls are made.

use compare::{
    compare, guard_run, list_proofs, play, print_tested, reorder, shorten_padded, shorten_stage,
    turn_back, turn_stage, Calls, Listings, Reorderings, Runs, Shortenings, Tally, Turnings,
    COMPARED,
};
use stages::calls::sequence;
use stages::rng::Rng;
use stages::runs;
use stages::short::pair;
use stages::table::Size;
use stages::turning::many_lines;
use stages::{stream, Class, Operation, CLASSES};
use std::io::{stderr, IsTerminal};
use std::process::ExitCode;
use std::time::{Duration, Instant};

/// How often a terminal is told how far the comparison is.
const TOLD_EVERY: Duration = Duration::from_millis(500);

fn main() -> ExitCode {
    let numbers: Option<Vec<u64>> = std::env::args()
        .skip(1)
        .map(|word| word.parse().ok())
        .collect();
    let (seed, calls) = match numbers.as_deref() {
        Some([]) => (1, 10_000_000),
        Some([seed]) => (*seed, 10_000_000),
        Some([seed, calls]) => (*seed, *calls),
        _ => {
            eprintln!("usage: compare [SEED [CALLS]]");
            return ExitCode::from(2);
        }
    };
    let start = Instant::now();
    let mut told = stderr().is_terminal().then_some(start);
    let mut rng = Rng::new(seed);
    let mut tally = Tally::default();
    let mut reorderings = Reorderings::default();
    let mut calls_at_seats = Calls::default();
    let mut turnings = Turnings::default();
    let mut listings = Listings::default();
    let mut shortenings = Shortenings::default();
    let mut guarded = Runs::default();
    let mut streams = Vec::new();
    for operation in COMPARED {
        for class in CLASSES {
            for size in [Size::SMALL, Size::MEDIUM, Size::LARGE] {
                streams.push((class, stream(operation, class, size, rng.word())));
            }
        }
    }
    let mut closed = stream(Operation::Check, Class::Sound, Size::SMALL, rng.word());
    let mut damaged = stream(Operation::Check, Class::Damaged, Size::SMALL, rng.word());
    while tally.all_calls() < calls {
        let files: Vec<_> = closed
            .by_ref()
            .take(3)
            .chain(damaged.by_ref().take(3))
            .collect();
        let at_seats = sequence(&mut rng, &files, 60);
        play(&at_seats, &mut rng, &mut calls_at_seats);
        // All tables of two constraints take some milliseconds; of four, a hundred times that.
        let constraints = *rng.pick(&[0, 1, 1, 1, 1, 1, 2, 2]);
        let constraints = match rng.below(64) {
            0 => 4,
            1 | 2 => 3,
            _ => constraints,
        };
        let few = pair(&mut rng, constraints);
        list_proofs(&few, constraints, &mut rng, &mut listings);
        for _ in 0..8 {
            let case = many_lines(&mut rng);
            turn_stage(&case, &mut rng, &mut turnings);
        }
        for size in [Size::SMALL, Size::MEDIUM, Size::LARGE] {
            for _ in 0..8 {
                shorten_padded(&mut rng, &size, &mut shortenings);
            }
        }
        for (size, share) in [(Size::SMALL, 96), (Size::MEDIUM, 16), (Size::LARGE, 4)] {
            for _ in 0..share {
                let run = runs::any(&mut rng, &size);
                guard_run(&run, &mut rng, &mut guarded);
            }
        }
        for run in [
            runs::long(&mut rng),
            runs::full(&mut rng),
            runs::lengthy(&mut rng, &Size::SMALL),
        ] {
            guard_run(&run, &mut rng, &mut guarded);
        }
        for (class, cases) in &mut streams {
            // Limits and edges are dear; most of the rest is random tables and damaged ones.
            let share = match class {
                Class::Sound | Class::Damaged => 40,
                Class::Noise => 20,
                Class::Directed => 10,
                Class::Limit | Class::Edge => 4,
            };
            for case in cases.take(share) {
                compare(&case, &mut rng, &mut tally);
                reorder(&case, &mut rng, &mut reorderings);
                shorten_stage(&case, &mut rng, &mut shortenings);
                if let Some(run) = runs::of_check(&mut rng, &case) {
                    guard_run(&run, &mut rng, &mut guarded);
                }
                turn_back(&case, &mut turnings);
                print_tested(&case, &mut rng, &mut tally);
                // Seven checks each.
                if rng.chance(1, 4) {
                    turn_stage(&case, &mut rng, &mut turnings);
                }
            }
        }
        if told.is_some_and(|last| last.elapsed() >= TOLD_EVERY) {
            let (made, differences) = (tally.all_calls(), tally.differences());
            eprint!("\r{made} of {calls} calls, {differences} differences");
            told = Some(Instant::now());
        }
    }
    if told.is_some() {
        eprint!("\r\x1b[K");
    }
    println!("{tally}");
    println!("{reorderings}");
    println!("{calls_at_seats}");
    println!("{turnings}");
    println!("{listings}");
    println!("{shortenings}");
    println!("{guarded}");
    println!("seed {seed}, {} s", start.elapsed().as_secs());
    let differences = tally.differences()
        + reorderings.differences
        + calls_at_seats.differences
        + turnings.differences
        + listings.differences
        + shortenings.differences
        + guarded.differences;
    if differences == 0 {
        ExitCode::SUCCESS
    } else {
        ExitCode::FAILURE
    }
}
