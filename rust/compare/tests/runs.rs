//! Runs of stages in the gate: fixed seeds, every sort of run, and the chain of their guards.

use compare::{guard_run, Runs};
use stages::rng::Rng;
use stages::runs;
use stages::table::Size;
use stages::{stream, Class, Operation, CLASSES};

#[test]
fn guards_of_runs() {
    let mut seen = Runs::default();
    let mut rng = Rng::new(7);
    for (size, count) in [
        (Size::SMALL, 40_000),
        (Size::MEDIUM, 4_000),
        (Size::LARGE, 600),
    ] {
        for _ in 0..count {
            let run = runs::any(&mut rng, &size);
            guard_run(&run, &mut rng, &mut seen);
        }
    }
    for _ in 0..300 {
        for run in [
            runs::long(&mut rng),
            runs::full(&mut rng),
            runs::lengthy(&mut rng, &Size::SMALL),
        ] {
            guard_run(&run, &mut rng, &mut seen);
        }
    }
    // The two bundles of a check as stages.
    for class in CLASSES {
        for size in [Size::SMALL, Size::MEDIUM, Size::LARGE] {
            let share = match class {
                Class::Limit | Class::Edge => 600,
                _ => 2_000,
            };
            for case in stream(Operation::Check, class, size, rng.word()).take(share) {
                if let Some(run) = runs::of_check(&mut rng, &case) {
                    guard_run(&run, &mut rng, &mut seen);
                }
            }
        }
    }
    println!("{seen}");
    assert_eq!(seen.differences, 0, "{seen}");
    // Those of a check but 14, and 25 to 28; no other number.
    let numbers = (0..=13).chain(15..=21).chain(25..=28);
    assert!(seen.calls.keys().copied().eq(numbers), "{seen}");
    assert!(seen.calls.values().all(|&times| times >= 100), "{seen}");
    // Runs of every number of stages, and faults inside branches.
    assert!(seen.accepted[1..].iter().all(|&runs| runs >= 100), "{seen}");
    assert!(seen.inside >= 10_000, "{seen}");
    assert!(seen.points >= 500_000 && seen.led_on >= 500_000, "{seen}");
    assert!(seen.checked >= 50_000, "{seen}");
}
