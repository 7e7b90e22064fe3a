//! The guards of a run of stages: reads the bundles `t1`, `t2` and so on of a folder, as many as are there, and the proof
//! `proof`, and prints the word and the bytes of all guards, then each guard's bytes on a line of its own.
//!
//! cargo run --example run -p dulgaverk FOLDER

use std::path::Path;
use std::process::ExitCode;

fn main() -> ExitCode {
    let Some(folder) = std::env::args().nth(1) else {
        eprintln!("usage: run FOLDER");
        return ExitCode::from(2);
    };
    let folder = Path::new(&folder);
    let stages: Vec<Vec<u8>> = (1..)
        .map_while(|number| std::fs::read(folder.join(format!("t{number}"))).ok())
        .collect();
    let stages: Vec<&[u8]> = stages.iter().map(Vec::as_slice).collect();
    let proof = std::fs::read(folder.join("proof")).unwrap_or_default();
    match dulgaverk::guards(&stages, &proof) {
        Ok(guards) => {
            println!("accepted {}", guards.iter().map(Vec::len).sum::<usize>());
            for guard in guards {
                let hex: String = guard.iter().map(|byte| format!("{byte:02X}")).collect();
                println!("{hex}");
            }
            ExitCode::SUCCESS
        }
        Err(r) => {
            println!("refused {} file {} at {}", r.number, r.file, r.place);
            ExitCode::from(1)
        }
    }
}
