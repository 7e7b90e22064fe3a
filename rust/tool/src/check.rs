//! `check`: the verdict on many stages.

use crate::command::{paths, tell, usage, Command, Ended, NO, YES};
use crate::files::Stage;
use crate::words;
use std::ffi::OsString;
use std::io::{self, IsTerminal, Write};
use std::path::Path;

pub const COMMAND: Command = Command {
    name: "check",
    what: "checks the proofs of many stages",
    help: "\
usage: dulgaverk check FOLDER...

Checks the bundles a and b and the proof p of each folder, over all cores. Prints a line for each in the order given, and at
the end how many are accepted and refused. A file that is not there counts as empty, and is told on stderr.
The status is 0 where all are accepted, 1 where one is refused, and 2 where one is no folder.",
    run,
};

/// The line that is printed for a stage, with its verdict.
fn line(folder: &Path, stage: &Stage) -> String {
    let said = match &stage.verdict {
        Ok(guard) => format!("accepted {}", guard.len()),
        Err(refusal) => words::refusal(refusal, &stage.p.fields),
    };
    format!("{}: {said}", folder.display())
}

/// How many folders a core gets at a time.
const SHARE: usize = 16;

/// The stages of a batch, each share read and checked by a thread of its own.
fn read(batch: &[&Path]) -> Vec<Result<Stage, String>> {
    std::thread::scope(|scope| {
        let shares: Vec<_> = batch
            .chunks(SHARE)
            .map(|share| scope.spawn(|| share.iter().map(|folder| Stage::read(folder)).collect()))
            .collect();
        let joined = shares.into_iter().map(|share| share.join());
        joined
            .flat_map(|stages: std::thread::Result<Vec<_>>| stages.unwrap_or_default())
            .collect()
    })
}

fn run(arguments: &[OsString], out: &mut dyn Write) -> Ended {
    let folders = paths(arguments)?;
    if folders.is_empty() {
        return Err(usage("a folder is missing"));
    }
    let cores = std::thread::available_parallelism().map_or(1, |cores| cores.get());
    let progress = io::stderr().is_terminal() && !io::stdout().is_terminal();
    let (mut done, mut accepted, mut refused) = (0, 0, 0);
    // Some folders for each core at a time, so that lines come as soon as they can.
    for batch in folders.chunks(SHARE * cores) {
        for (folder, stage) in batch.iter().zip(read(batch)) {
            match stage {
                Err(why) => tell(&why),
                Ok(stage) => {
                    stage.tell();
                    writeln!(out, "{}", line(folder, &stage))?;
                    match stage.verdict {
                        Ok(_) => accepted += 1,
                        Err(_) => refused += 1,
                    }
                }
            }
        }
        done += batch.len();
        if progress {
            let end = if done == folders.len() { "\n" } else { "" };
            let _ = write!(io::stderr(), "\r{done} of {}{end}", folders.len());
        }
    }
    let all = accepted + refused;
    let stages = words::count(all, "stage");
    writeln!(out, "{stages}: {accepted} accepted, {refused} refused")?;
    Ok(match (all == folders.len(), refused) {
        (false, _) => 2,
        (true, 0) => YES,
        (true, _) => NO,
    })
}
