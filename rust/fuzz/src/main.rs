//! Writes inputs to start from, a file each: stages of every operation and class, calls at the scheduler, and runs of stages.
//!
//! usage: fuzz FOLDER

use stages::calls::sequence;
use stages::rng::Rng;
use stages::runs;
use stages::table::Size;
use stages::{stream, Class, Operation, CLASSES, OPERATIONS};
use std::path::Path;

fn main() -> std::io::Result<()> {
    let Some(folder) = std::env::args().nth(1) else {
        eprintln!("usage: fuzz FOLDER");
        std::process::exit(2);
    };
    std::fs::create_dir_all(&folder)?;
    for operation in OPERATIONS {
        for class in CLASSES {
            let cases = stream(operation, class, Size::SMALL, 1)
                .take(100)
                .filter(|case| case.longest_file() < 2_000);
            for (index, case) in cases.enumerate() {
                let name = format!("{operation:?}-{class:?}-{index}");
                std::fs::write(Path::new(&folder).join(name), fuzz::encode(&case))?;
            }
        }
    }
    let mut rng = Rng::new(1);
    let mut files = stream(Operation::Check, Class::Sound, Size::SMALL, 1)
        .filter(|case| case.longest_file() < 200);
    for index in 0..100 {
        let some: Vec<_> = files.by_ref().take(3).collect();
        let calls = sequence(&mut rng, &some, 30);
        let name = format!("AtSeats-{index}");
        std::fs::write(Path::new(&folder).join(name), fuzz::encode_calls(&calls))?;
    }
    for index in 0..400 {
        let run = runs::any(&mut rng, &Size::SMALL);
        if run.buffer.len() + run.proof.len() < 2_000 {
            let name = format!("Run-{index}");
            std::fs::write(Path::new(&folder).join(name), fuzz::encode_run(&run))?;
        }
    }
    Ok(())
}
