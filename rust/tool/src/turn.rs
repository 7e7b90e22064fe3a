//! `turn`: a stage, or one file, in the other edition.

use crate::command::{exactly, usage, Command, Ended, NO, YES};
use crate::{files, words};
use dulgaverk::Edition;
use std::ffi::OsString;
use std::io::Write;

pub const COMMAND: Command = Command {
    name: "turn",
    what: "turns the files of a stage into the other edition",
    help: "\
usage: dulgaverk turn EDITION FOLDER NEW

Turns the files a, b and p of a folder into edition 1 or 2 by the verified operation, without notes, and writes them into the
folder NEW. Prints the bytes of each. A file that has the edition already is refused, and so is a number or a line number that
has no room; where one is refused nothing is written.",
    run,
};

fn run(arguments: &[OsString], out: &mut dyn Write) -> Ended {
    let [edition, folder, new] = exactly(arguments, "an edition and two folders")?;
    let edition = match edition.to_str() {
        Some("1") => Edition::One,
        Some("2") => Edition::Two,
        _ => return Err(usage("expected edition 1 or 2")),
    };
    files::is_folder(folder)?;
    let mut made = Vec::new();
    for name in ["a", "b", "p"] {
        let path = folder.join(name);
        let bytes = files::required(&path)?;
        let turned = match name {
            "p" => dulgaverk::turn_proof(&bytes, edition),
            _ => dulgaverk::turn_bundle(&bytes, edition),
        };
        match turned {
            Ok(bytes) => made.push((name, bytes)),
            Err(refusal) => {
                let (numbers, meaning) = (words::numbers(&refusal), refusal.meaning());
                writeln!(out, "{}: {numbers}: {meaning}", path.display())?;
                return Ok(NO);
            }
        }
    }
    files::write_stage(folder, new, &made)?;
    for (name, bytes) in &made {
        let size = words::count(bytes.len(), "byte");
        let edition = edition.number();
        writeln!(out, "{name}: {size} in edition {edition}")?;
    }
    Ok(YES)
}
