//! `queue`: checks that wait at eight seats.

use crate::command::{exactly, Command, Ended, Failure, NO, YES};
use crate::files::Stage;
use crate::words;
use dulgaverk::{Job, Scheduler};
use std::ffi::OsString;
use std::fs::File;
use std::io::{self, BufRead, BufReader, Write};
use std::path::Path;

pub const COMMAND: Command = Command {
    name: "queue",
    what: "checks stages that wait at eight seats, in turn",
    help: "\
usage: dulgaverk queue FILE

Reads calls line by line, from - as they come: \"submit SEAT FOLDER\", a stage waits at a seat from 0 to 7; \"cancel SEAT\"; and
\"turn\", which checks the next that waits, seat after seat. Prints what the verified scheduler answers to each call; a job is
served within eight turns. # starts a comment. The status is 1 where a call or a stage was refused.",
    run,
};

fn run(arguments: &[OsString], out: &mut dyn Write) -> Ended {
    let [file] = exactly(arguments, "a file of calls")?;
    let shown = file.display();
    let input: Box<dyn BufRead> = match file.to_str() {
        Some("-") => Box::new(io::stdin().lock()),
        _ => Box::new(BufReader::new(
            File::open(file).map_err(|error| format!("{shown}: {error}"))?,
        )),
    };
    let mut desk = Desk {
        scheduler: Scheduler::new(),
        buffer: Vec::new(),
        formula: vec![0; dulgaverk::FORMULA],
        refused: false,
    };
    for (index, line) in input.lines().enumerate() {
        let at = |why: String| Failure::Message(format!("{shown}:{}: {why}", index + 1));
        let line = line.map_err(|error| at(error.to_string()))?;
        let words: Vec<&str> = line
            .split('#')
            .next()
            .unwrap_or("")
            .split_whitespace()
            .collect();
        if !words.is_empty() {
            let said = desk.call(&words).map_err(at)?;
            writeln!(out, "{said}")?;
            out.flush()?;
        }
    }
    Ok(if desk.refused { NO } else { YES })
}

struct Desk {
    scheduler: Scheduler,
    /// The files of all jobs, end to end.
    buffer: Vec<u8>,
    formula: Vec<u8>,
    refused: bool,
}

impl Desk {
    /// What is answered to a call.
    fn call(&mut self, words: &[&str]) -> Result<String, String> {
        let seat = |text: &str| {
            let wrong = format!("expected a seat's number, found \"{text}\"");
            text.parse::<usize>().map_err(|_| wrong)
        };
        let (said, result) = match words {
            ["submit", number, folder] => {
                let stage = Stage::read(Path::new(folder))?;
                stage.tell();
                let job = self.job(&stage);
                let answer = self.scheduler.submit(seat(number)?, &job);
                (
                    format!("seat {number} submits {folder}"),
                    answer.map(|()| None),
                )
            }
            ["cancel", number] => {
                let answer = self.scheduler.cancel(seat(number)?);
                (format!("seat {number} cancels"), answer.map(|()| None))
            }
            ["turn"] => match self.scheduler.turn(&self.buffer, &mut self.formula) {
                // An idle turn is an answer, and no refusal.
                Err(idle) => return Ok(format!("turn: {}", idle.meaning())),
                Ok(served) => (
                    format!("turn: seat {}", served.seat),
                    served.result.map(Some),
                ),
            },
            _ => {
                let found = words::cut(&words.join(" "), 40);
                return Err(format!(
                    "expected submit SEAT FOLDER, cancel SEAT or turn, found \"{found}\""
                ));
            }
        };
        self.refused |= result.is_err();
        Ok(match result {
            Ok(None) => said,
            Ok(Some(bytes)) => format!("{said}, accepted {bytes}"),
            Err(refusal) => format!(
                "{said}, {}: {}",
                words::numbers(&refusal),
                refusal.meaning()
            ),
        })
    }

    /// Puts a stage's files behind what the buffer has.
    fn job(&mut self, stage: &Stage) -> Job {
        let [a, b, proof] = [&stage.a, &stage.b, &stage.p].map(|file| {
            let start = self.buffer.len();
            self.buffer.extend_from_slice(&file.bytes);
            start..self.buffer.len()
        });
        Job { a, b, proof }
    }
}
