//! The table, on a line each and as a page.

use crate::measure::Time;
use crate::work::{Work, PRINTS, TEST};
use std::fmt::Write;

/// Nanoseconds in a unit that reads well.
pub fn duration(nanoseconds: f64) -> String {
    if nanoseconds < 1_000.0 {
        format!("{nanoseconds:.0} ns")
    } else if nanoseconds < 10_000_000.0 {
        format!("{:.1} µs", nanoseconds / 1_000.0)
    } else {
        format!("{:.1} ms", nanoseconds / 1_000_000.0)
    }
}

pub fn line(work: &Work, time: &Time) -> String {
    format!(
        "{:<68} {:>10} {:>10} {:>6.2}",
        work.name,
        duration(time.rattle),
        duration(time.rust),
        time.ratio()
    )
}

/// What was found where Rattle is slower. (Not measured: change it with the code.)
const REASONS: &str = "
## Where Rattle is slower

- Checking a proof of some hundred rows. Working memory is cleared before it is used: 17,544 bytes for the lines as soon \
as a branch may have 128 of them with 16 constants, and for the formula 39 for each byte of the proof up to 248, 12,480 \
up to 960 bytes or 192 fields, and 65,536 beyond.
- Checking any proof. Each branch is a call that hands on four lent buffers, where the Rust checker keeps a stack of its \
own.
- Checking a proof of edition 2 of some hundred rows. As soon as a branch may have more than 128 lines of 16 constants, \
26,520 bytes are cleared for them, and 136,136 where by its bytes it may have more than 194: with claims 32 rows are \
enough, and take some three and a half times as long as in Rust.
- Checking a proof of 249 to 960 bytes whose formula has more than 12,480, as where the branches of roundings are closed by \
their first row: it is checked twice.
- Submitting and cancelling a job. The library is handed the scheduler's state as C does it, 456 bytes copied to the \
stack, and gives it back in the same way; the Rust version's functions take it by value too, but Rust hands on its \
address. That this makes the difference is a guess. A turn is handed the state in the same way.
- Testing a formula of many levels where a level has little to test: two levels of a formula are a call, and a processor \
foretells the returns of some two dozen.
";

/// How many times a test of the same formula its printing takes, the least and the most, in either way.
fn printing(timed: &[(Work, Time)]) -> [(f64, f64); 2] {
    PRINTS.map(|start| {
        let (mut least, mut most) = (f64::INFINITY, 0.0_f64);
        for (work, time) in timed {
            let name = work.name.strip_prefix(start);
            let test = |(other, _): &&(Work, Time)| {
                name.is_some() && other.name.strip_prefix(TEST) == name
            };
            if let Some((_, test)) = timed.iter().find(test) {
                let times = time.rattle / test.rattle;
                (least, most) = (least.min(times), most.max(times));
            }
        }
        (least, most)
    })
}

/// The same in words.
pub fn printing_line(timed: &[(Work, Time)]) -> String {
    let [smt, words] = printing(timed);
    format!(
        "Printing a formula takes {:.1} to {:.1} times as long as a test of it, in words {:.1} to {:.1} times (Rattle both).",
        smt.0, smt.1, words.0, words.1
    )
}

pub fn page(timed: &[(Work, Time)], rounds: usize, machine: &str) -> String {
    let mut text = String::from("# Speed\n\n");
    let most = timed
        .iter()
        .map(|(_, time)| time.ratio())
        .fold(0.0, f64::max);
    let _ = write!(
        text,
        "Written by `./bench --write`: the verified operations, called through the static library, beside the \
         independent Rust checker, called through functions that are not inlined. Both are optimised builds for plain \
         x86-64; Rust's has link-time optimisation. Medians of {rounds} rounds, the two sides in turn; a ratio above 1 \
         says that Rattle is slower. Largest ratio: {most:.2}. Measured on {machine}.\n\n\
         Shortening and the guards of a run stand behind a check of the same proof, beside which they are to be read: \
         shortening is to take at most 3 times as long, the guards of n stages at most 2(n + 1) times. The Rust versions \
         of these two are written plainly, and their times say little.\n\n\
         | Call | Rattle | Rust | Ratio | Middle half of the rounds |\n|---|---|---|---|---|\n"
    );
    for (work, time) in timed {
        let (low, high) = time.quartiles;
        let _ = writeln!(
            text,
            "| {} | {} | {} | {:.2} | {low:.2} to {high:.2} |",
            work.name,
            duration(time.rattle),
            duration(time.rust),
            time.ratio()
        );
    }
    let _ = writeln!(text, "\n{}", printing_line(timed));
    text.push_str(REASONS);
    text.push_str("\n![Ratios, and cost against size](bench.svg)\n");
    text
}
