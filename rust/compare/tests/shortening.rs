//! Shortening in the gate: fixed seeds, the checks of every class, proofs with rows put in that nothing uses.

use compare::{shorten_padded, shorten_stage, Shortenings};
use stages::rng::Rng;
use stages::table::Size;
use stages::{stream, Class, Operation, CLASSES};

#[test]
fn shortening_proofs() {
    let mut seen = Shortenings::default();
    let mut rng = Rng::new(12);
    for class in CLASSES {
        for size in [Size::SMALL, Size::MEDIUM, Size::LARGE] {
            let share = match class {
                Class::Limit | Class::Edge => 1_250,
                _ => 10_000,
            };
            for case in stream(Operation::Check, class, size, rng.word()).take(share) {
                shorten_stage(&case, &mut rng, &mut seen);
            }
        }
    }
    println!("{seen}");
    assert_eq!(seen.differences, 0, "{seen}");
    // What a check answers with output enough, and 21; no other number.
    assert!(seen.calls.keys().copied().eq(0..=21), "{seen}");
    assert!(seen.calls.values().all(|&times| times >= 200), "{seen}");
    assert!(seen.rows.iter().all(|&rows| rows >= 300_000), "{seen}");
    assert!(seen.checked >= 30_000 && seen.again == seen.checked);
}

#[test]
fn rows_put_in() {
    let mut seen = Shortenings::default();
    let mut rng = Rng::new(13);
    for size in [Size::SMALL, Size::MEDIUM, Size::LARGE, Size::LONG] {
        for _ in 0..1_000 {
            shorten_padded(&mut rng, &size, &mut seen);
        }
    }
    println!("{seen}");
    assert_eq!(seen.differences, 0, "{seen}");
    assert!(seen.padded == 4_000 && seen.put_in >= 60_000, "{seen}");
}
