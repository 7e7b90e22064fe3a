//! Times the verified operations beside the independent Rust checker, or testing at a list beside a simple evaluator, and
//! prints the table; asked to, it also writes it, the first with a plot.
//!
//! usage: bench [--write] [ROUNDS]            (writes docs/BENCHMARKS.md and docs/bench.svg in the working directory)
//!        bench [--write] lists [ROUNDS]      (writes docs/LISTS.md)

mod lists;
mod measure;
mod plot;
mod report;
mod runs;
mod shortening;
mod simple;
mod work;

use measure::measure;
use std::process::ExitCode;

fn main() -> ExitCode {
    let mut arguments: Vec<String> = std::env::args().skip(1).collect();
    let [write, of_lists] = ["--write", "lists"].map(|word| {
        let first = arguments.first().is_some_and(|first| first == word);
        arguments.drain(..usize::from(first));
        first
    });
    let rounds = match arguments.as_slice() {
        [] => Some(if of_lists { 400 } else { 301 }),
        [rounds] => rounds.parse().ok().filter(|&rounds| rounds > 0),
        _ => None,
    };
    let Some(rounds) = rounds else {
        eprintln!("usage: bench [--write] [lists] [ROUNDS], a number above 0");
        return ExitCode::from(2);
    };
    let files = if of_lists {
        vec![("docs/LISTS.md", lists::page(rounds, &machine()))]
    } else {
        tables(rounds)
    };
    if !write {
        return ExitCode::SUCCESS;
    }
    for (path, text) in files {
        if let Err(error) = std::fs::write(path, text) {
            eprintln!("{path}: {error}");
            return ExitCode::from(2);
        }
    }
    ExitCode::SUCCESS
}

/// The page and the plot of the operations; each row is printed as it comes.
fn tables(rounds: usize) -> Vec<(&'static str, String)> {
    let mut timed = Vec::new();
    for work in work::all() {
        let time = measure(&work, rounds);
        println!("{}", report::line(&work, &time));
        timed.push((work, time));
    }
    println!("{}", report::printing_line(&timed));
    vec![
        (
            "docs/BENCHMARKS.md",
            report::page(&timed, rounds, &machine()),
        ),
        ("docs/bench.svg", plot::plot(&timed)),
    ]
}

/// The processor, by name.
fn machine() -> String {
    let text = std::fs::read_to_string("/proc/cpuinfo").unwrap_or_default();
    text.lines()
        .find_map(|line| line.strip_prefix("model name")?.split_once(':'))
        .map_or("an unknown processor".to_string(), |(_, name)| {
            name.trim().to_string()
        })
}
