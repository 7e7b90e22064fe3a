//! Shows a stage in words, or makes the tables of the documents.
//!
//! usage: papers FOLDER     the stage of a folder: its lines, its rows with the lines that they make, and the answer
//!        papers --write    makes docs/PAPERS.md, docs/WRITING-PROOFS.md and the pages under examples/papers again

use papers::document::made;
use papers::listing::listing;
use papers::stage::Stage;
use std::fs;
use std::path::Path;
use std::process::ExitCode;

fn main() -> ExitCode {
    let arguments: Vec<String> = std::env::args().skip(1).collect();
    match arguments.as_slice() {
        [word] if word == "--write" => write(),
        [folder]
            if Path::new(folder).join("a").is_file()
                && Path::new(folder).join("names").is_file() =>
        {
            print!("{}", listing(&Stage::read(Path::new(folder))));
            ExitCode::SUCCESS
        }
        _ => {
            eprintln!("usage: papers FOLDER | --write");
            ExitCode::from(2)
        }
    }
}

fn write() -> ExitCode {
    for (path, text) in made() {
        if let Err(error) = fs::write(&path, text) {
            eprintln!("{}: {error}", path.display());
            return ExitCode::from(2);
        }
    }
    ExitCode::SUCCESS
}
