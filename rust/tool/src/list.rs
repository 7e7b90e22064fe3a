//! `list`: all short proofs of two bundles.

use crate::command::{exactly, Command, Ended, NO, YES};
use crate::fields::{File, Sort};
use crate::{files, words};
use std::ffi::OsString;
use std::io::Write;

pub const COMMAND: Command = Command {
    name: "list",
    what: "lists all short proofs of a stage's bundles",
    help: "\
usage: dulgaverk list FOLDER

Lists every proof of one to three rows that A and B contradict each other, by number of rows and then by bytes: the file in
hexadecimal, and its rows. A and B have at most four constraints together. That none is left out is proved of the library.
The status is 1 where there is none, or A or B is refused.",
    run,
};

fn run(arguments: &[OsString], out: &mut dyn Write) -> Ended {
    let [folder] = exactly(arguments, "a folder")?;
    files::is_folder(folder)?;
    let (a, b) = (
        files::required(&folder.join("a"))?,
        files::required(&folder.join("b"))?,
    );
    let proofs = match dulgaverk::short_proofs(&a, &b) {
        Ok(proofs) => proofs,
        Err(refusal) => {
            writeln!(out, "{}", words::refusal(&refusal, &[]))?;
            return Ok(NO);
        }
    };
    let mut count = 0;
    for proof in proofs {
        let file = File::read(Sort::Proof, proof);
        let rows = file.parts().1.iter().map(|row| words::field(row, &[]));
        let rows: Vec<String> = rows.collect();
        writeln!(out, "{} {}", words::hex(&file.bytes), rows.join("; "))?;
        count += 1;
    }
    writeln!(out, "{}", words::count(count, "proof"))?;
    Ok(if count == 0 { NO } else { YES })
}
