//! Lists all short proofs of a folder's bundles a and b, a table a line in hexadecimal, and their number; or the refusal.
//!
//! usage: short_proofs FOLDER

use std::io::{self, BufWriter, Write};
use std::path::Path;
use std::process::ExitCode;

fn main() -> ExitCode {
    let Some(folder) = std::env::args().nth(1) else {
        eprintln!("usage: short_proofs FOLDER");
        return ExitCode::from(2);
    };
    let file = |name: &str| std::fs::read(Path::new(&folder).join(name));
    let (Ok(a), Ok(b)) = (file("a"), file("b")) else {
        eprintln!("{folder}: no a or no b");
        return ExitCode::from(2);
    };
    match dulgaverk::short_proofs(&a, &b) {
        // A reader may have enough before the end.
        Ok(tables) => match list(tables) {
            Ok(()) => ExitCode::SUCCESS,
            Err(error) if error.kind() == io::ErrorKind::BrokenPipe => ExitCode::SUCCESS,
            Err(_) => ExitCode::from(2),
        },
        Err(refusal) => {
            let (number, file, place) = (refusal.number, refusal.file, refusal.place);
            println!("refused {number} file {file} at {place}");
            ExitCode::FAILURE
        }
    }
}

fn list(tables: impl Iterator<Item = Vec<u8>>) -> io::Result<()> {
    let mut out = BufWriter::new(io::stdout().lock());
    let mut count = 0;
    for table in tables {
        for byte in table {
            write!(out, "{byte:02X}")?;
        }
        writeln!(out)?;
        count += 1;
    }
    writeln!(out, "{count} short proofs")?;
    out.flush()
}
