//! Medians of many short rounds, the two sides in turn.

use crate::work::Work;
use std::hint::black_box;
use std::time::Instant;

/// Nanoseconds a call.
pub struct Time {
    pub rattle: f64,
    pub rust: f64,
    /// A quarter of the rounds have a ratio below the first, a quarter one above the second.
    pub quartiles: (f64, f64),
}

impl Time {
    pub fn ratio(&self) -> f64 {
        self.rattle / self.rust
    }
}

/// How long a round of one side takes at least, in seconds.
const ROUND: f64 = 0.000_2;

/// How long all rounds of one side take at most, in seconds, as far as a dozen are made.
const ALL: f64 = 2.0;
const FEWEST: usize = 12;

fn seconds(run: &dyn Fn(usize) -> usize, times: usize) -> f64 {
    let start = Instant::now();
    black_box(run(black_box(times)));
    start.elapsed().as_secs_f64()
}

fn sorted(mut list: Vec<f64>) -> Vec<f64> {
    list.sort_by(f64::total_cmp);
    list
}

/// Both sides must give the same; then each round times both, so that what else runs on the machine meets both alike.
pub fn measure(work: &Work, rounds: usize) -> Time {
    assert_eq!((work.rattle)(1), (work.rust)(1), "{}", work.name);
    let mut times = 1;
    while seconds(&*work.rattle, times).max(seconds(&*work.rust, times)) < ROUND {
        times *= 2;
    }
    let longest = seconds(&*work.rattle, times).max(seconds(&*work.rust, times));
    let rounds = rounds.min(((ALL / longest) as usize).max(FEWEST));
    let (mut rattle, mut rust, mut ratios) = (Vec::new(), Vec::new(), Vec::new());
    for _ in 0..rounds {
        let first = seconds(&*work.rattle, times);
        let second = seconds(&*work.rust, times);
        rattle.push(first * 1e9 / times as f64);
        rust.push(second * 1e9 / times as f64);
        ratios.push(first / second);
    }
    let ratios = sorted(ratios);
    Time {
        rattle: sorted(rattle)[rounds / 2],
        rust: sorted(rust)[rounds / 2],
        quartiles: (ratios[rounds / 4], ratios[rounds * 3 / 4]),
    }
}
