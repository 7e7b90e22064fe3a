//! The proof of a folder without the rows that nothing rests on: reads the bundles `a` and `b` and the proof `p`, and prints
//! the word and the bytes of the shorter table, then a number for each row (1 needed, 0 not, 2 a close or branching row), then
//! those bytes.
//!
//! cargo run --example shorten -p dulgaverk FOLDER

use dulgaverk::RowUse;
use std::path::Path;
use std::process::ExitCode;

fn main() -> ExitCode {
    let Some(folder) = std::env::args().nth(1) else {
        eprintln!("usage: shorten FOLDER");
        return ExitCode::from(2);
    };
    let folder = Path::new(&folder);
    let [a, b, proof] =
        ["a", "b", "p"].map(|name| std::fs::read(folder.join(name)).unwrap_or_default());
    match dulgaverk::shorten(&a, &b, &proof) {
        Ok(shortened) => {
            let told = shortened.report.iter().map(|row| match row {
                RowUse::NotNeeded => "0",
                RowUse::Needed => "1",
                RowUse::Stays => "2",
            });
            let hex: String = shortened.table.iter().map(|b| format!("{b:02X}")).collect();
            println!("accepted {}", shortened.table.len());
            println!("{}", told.collect::<Vec<_>>().join(" "));
            println!("{hex}");
            ExitCode::SUCCESS
        }
        Err(r) => {
            println!("refused {} file {} at {}", r.number, r.file, r.place);
            ExitCode::from(1)
        }
    }
}
