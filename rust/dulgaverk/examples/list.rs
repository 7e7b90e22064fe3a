//! Tests the guard of a folder, its file f, at a list of register values: one line of the text file `list` for each
//! reading of the registers, as many whole numbers on each. Prints true or false for each line, or the refusal.
//!
//! usage: list FOLDER

use std::path::Path;
use std::process::ExitCode;

fn main() -> ExitCode {
    let Some(folder) = std::env::args().nth(1) else {
        eprintln!("usage: list FOLDER");
        return ExitCode::from(2);
    };
    let (Ok(formula), Ok(text)) = (
        std::fs::read(Path::new(&folder).join("f")),
        std::fs::read_to_string(Path::new(&folder).join("list")),
    ) else {
        eprintln!("{folder}: no f or no list");
        return ExitCode::from(2);
    };
    let first = text.lines().next().unwrap_or_default();
    let k = first.split_whitespace().count();
    let values: Result<Vec<i32>, _> = text.split_whitespace().map(str::parse).collect();
    let Ok(values) = values else {
        eprintln!("{folder}/list: not a whole number of 32 bits");
        return ExitCode::from(2);
    };
    match dulgaverk::test_list(&formula, k, &values) {
        Ok(truths) => {
            for holds in truths {
                println!("{holds}");
            }
            ExitCode::SUCCESS
        }
        Err(refusal) => {
            let (number, file, place) = (refusal.number, refusal.file, refusal.place);
            println!("refused {number} file {file} at {place}");
            ExitCode::FAILURE
        }
    }
}
