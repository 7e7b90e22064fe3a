//! `shorten`: a proof without the rows that nothing rests on.

use crate::command::{exactly, Command, Ended, NO, YES};
use crate::files::{self, Stage};
use crate::words;
use dulgaverk::RowUse;
use std::ffi::OsString;
use std::io::Write;

pub const COMMAND: Command = Command {
    name: "shorten",
    what: "leaves out the rows of a proof that nothing rests on",
    help: "\
usage: dulgaverk shorten FOLDER NEW

Writes the stage of a folder into the folder NEW, with the proof that the verified operation gives: without notes, and without
the rows that no close and no step rests on. It is accepted with the same guard. Prints the rows that are left out, and how many
are left. A stage that is refused has the status 1, and nothing is written.",
    run,
};

fn run(arguments: &[OsString], out: &mut dyn Write) -> Ended {
    let [folder, new] = exactly(arguments, "two folders")?;
    let stage = Stage::read(folder)?;
    stage.tell();
    let (a, b, p) = (stage.a.bytes, stage.b.bytes, &stage.p);
    let short = match dulgaverk::shorten(&a, &b, &p.bytes) {
        Ok(short) => short,
        Err(refusal) => {
            writeln!(out, "{}", words::refusal(&refusal, &p.fields))?;
            return Ok(NO);
        }
    };
    files::write_stage(folder, new, &[("a", a), ("b", b), ("p", short.table)])?;
    let rows = p.fields.iter().filter(|field| field.is_row());
    let mut left = 0;
    for (index, (row, needed)) in rows.zip(&short.report).enumerate() {
        match needed {
            RowUse::NotNeeded => writeln!(out, "row {index}: {}", words::field(row, &[]))?,
            _ => left += 1,
        }
    }
    let all = short.report.len();
    writeln!(out, "{left} of {} left", words::count(all, "row"))?;
    Ok(YES)
}
