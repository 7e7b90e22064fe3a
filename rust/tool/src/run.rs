//! `run`: the guards of a whole run of stages.

use crate::command::{paths, usage, Command, Ended, NO, YES};
use crate::fields::{File, Sort};
use crate::{files, names, words};
use std::ffi::OsString;
use std::io::Write;
use std::path::Path;

pub const COMMAND: Command = Command {
    name: "run",
    what: "gives the guards of a run of stages",
    help: "\
usage: dulgaverk run PROOF BUNDLE...

Prints the guards of a run: 1 to 16 bundles, one for each stage, and one proof over all their lines in order. Guard i, from 0
to the number of stages, is that of the first i stages as A and the others as B. Registers have the names of the file `names`
beside the proof, if there is one. The status is 1 for a refusal; its file is 10 + i for bundle i, and 3 for the proof.",
    run,
};

fn run(arguments: &[OsString], out: &mut dyn Write) -> Ended {
    let paths = paths(arguments)?;
    let [proof, bundles @ ..] = &paths[..] else {
        return Err(usage("a proof and its bundles are missing"));
    };
    let bytes = files::required(proof)?;
    let stages: Result<Vec<_>, String> = bundles.iter().map(|path| files::required(path)).collect();
    let stages = stages?;
    let parts: Vec<&[u8]> = stages.iter().map(|stage| &stage[..]).collect();
    match dulgaverk::guards(&parts, &bytes) {
        Ok(guards) => {
            let constants = File::read(Sort::Proof, bytes).constants;
            let names = names::read(proof.parent().unwrap_or(Path::new(".")), constants)?;
            for (index, guard) in guards.iter().enumerate() {
                let text = words::guard(guard, &names).map_err(|refusal| refusal.to_string())?;
                writeln!(out, "guard {index}: {text}")?;
            }
            Ok(YES)
        }
        Err(refusal) => {
            let fields = File::read(Sort::Proof, bytes).fields;
            let place = words::place(&refusal, &fields);
            let place = place.map_or(String::new(), |place| format!(": {place}"));
            let (numbers, meaning) = (words::numbers(&refusal), refusal.meaning());
            writeln!(out, "{numbers}: {meaning}{place}")?;
            Ok(NO)
        }
    }
}
