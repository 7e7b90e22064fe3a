//! Prints test cases with the reference's answers, one a line.

use reference::NOT_GIVEN;
use stages::calls::sequence;
use stages::rng::Rng;
use stages::table::Size;
use stages::unused::Shortening;
use stages::{heavy_list, list, runs, stream, Class, Operation, CLASSES, OPERATIONS};
use std::io::{self, BufWriter, Write};
use std::process::ExitCode;

const USAGE: &str =
    "usage: stages SEED COUNT [--heavy | --light | --seats | --runs | --rows] [--tally]

  --heavy  the cases with long files instead of the usual list
  --light  the usual list without any file above 2,000 bytes
  --seats  sequences of calls at the scheduler instead, over short files
  --runs   guards of runs of stages instead, over short files
  --rows   proofs to be shortened instead, in short files
  --tally  how many cases of each sort there are, instead of the cases";

fn main() -> ExitCode {
    let mut numbers = Vec::new();
    let (mut heavy, mut light, mut tally) = (false, false, false);
    let mut other: Option<fn(&mut Rng, usize)> = None;
    for argument in std::env::args().skip(1) {
        match argument.as_str() {
            "--heavy" => heavy = true,
            "--light" => light = true,
            "--seats" => other = Some(print_seats),
            "--runs" => other = Some(print_runs),
            "--rows" => other = Some(print_rows),
            "--tally" => tally = true,
            other => match other.parse::<u64>() {
                Ok(number) => numbers.push(number),
                Err(_) => {
                    eprintln!("{USAGE}");
                    return ExitCode::FAILURE;
                }
            },
        }
    }
    let &[seed, count] = numbers.as_slice() else {
        eprintln!("{USAGE}");
        return ExitCode::FAILURE;
    };
    if let Some(print) = other {
        print(&mut Rng::new(seed), count as usize);
        return ExitCode::SUCCESS;
    }
    let cases = if heavy {
        heavy_list(seed, count as usize)
    } else {
        list(seed, count as usize, light)
    };
    let mut out = BufWriter::new(io::stdout().lock());
    let result = if tally {
        print_tally(&mut out, &cases)
    } else {
        cases
            .iter()
            .try_for_each(|(_, case)| writeln!(out, "{}", case.print()))
    };
    match result.and_then(|()| out.flush()) {
        Ok(()) => ExitCode::SUCCESS,
        Err(_) => ExitCode::FAILURE,
    }
}

/// Each over four checks, two of them damaged, whose files have at most 120 bytes.
fn print_seats(rng: &mut Rng, count: usize) {
    let mut short = |class| {
        stream(Operation::Check, class, Size::SMALL, rng.word())
            .filter(|case| case.longest_file() <= 120)
    };
    let (mut sound, mut damaged) = (short(Class::Sound), short(Class::Damaged));
    for _ in 0..count {
        let files = sound.by_ref().take(2).chain(damaged.by_ref().take(2));
        let files: Vec<_> = files.collect();
        println!("{}", sequence(rng, &files, 14).print());
    }
}

/// Over files of at most 300 bytes together.
fn print_runs(rng: &mut Rng, count: usize) {
    for _ in 0..count {
        let run = std::iter::repeat_with(|| runs::any(rng, &Size::SMALL))
            .find(|run| run.buffer.len() + run.proof.len() <= 300);
        println!("{}", run.expect("a run").print_call(rng));
    }
}

/// In files of at most 300 bytes together.
fn print_rows(rng: &mut Rng, count: usize) {
    for _ in 0..count {
        let case = std::iter::repeat_with(|| Shortening::any(rng, &Size::SMALL))
            .find(|case| case.a.len() + case.b.len() + case.proof.len() <= 300);
        println!("{}", case.expect("a proof").print());
    }
}

fn print_tally(out: &mut impl Write, cases: &[(stages::Class, stages::Case)]) -> io::Result<()> {
    for operation in OPERATIONS {
        for class in CLASSES {
            let answers: Vec<u8> = cases
                .iter()
                .filter(|(c, case)| *c == class && case.operation() == operation)
                .map(|(_, case)| case.outcome().answer.number)
                .collect();
            assert!(!answers.contains(&NOT_GIVEN), "a number that is not given");
            write!(out, "{operation:?} {class:?}: {}", answers.len())?;
            let mut separator = " (";
            for number in 0..=35 {
                let times = answers.iter().filter(|&&n| n == number).count();
                if times > 0 {
                    write!(out, "{separator}{number}: {times}")?;
                    separator = ", ";
                }
            }
            writeln!(out, "{}", if answers.is_empty() { "" } else { ")" })?;
        }
    }
    Ok(())
}
