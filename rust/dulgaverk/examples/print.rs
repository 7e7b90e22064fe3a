//! Prints the guard of a folder, its file f, as text: a term of SMT-LIB on one line, words on the next; or the refusal.
//!
//! usage: print FOLDER

use std::path::Path;
use std::process::ExitCode;

fn main() -> ExitCode {
    let Some(folder) = std::env::args().nth(1) else {
        eprintln!("usage: print FOLDER");
        return ExitCode::from(2);
    };
    let Ok(formula) = std::fs::read(Path::new(&folder).join("f")) else {
        eprintln!("{folder}: no f");
        return ExitCode::from(2);
    };
    let texts = dulgaverk::print(&formula)
        .and_then(|term| dulgaverk::print_words(&formula).map(|words| [term, words]));
    match texts {
        Ok([term, words]) => {
            println!("{term}\n{words}");
            ExitCode::SUCCESS
        }
        Err(refusal) => {
            let (number, file, place) = (refusal.number, refusal.file, refusal.place);
            println!("refused {number} file {file} at {place}");
            ExitCode::FAILURE
        }
    }
}
