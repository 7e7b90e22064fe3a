//! The parts of the documents that are made, and not written by hand.

use crate::catalogue::{CHAINS, EXAMPLES};
use crate::listing::listing;
use crate::stage::Stage;
use crate::{root, tables};
use std::fs;
use std::path::PathBuf;

/// Documents with made parts.
const DOCUMENTS: [&str; 2] = ["docs/PAPERS.md", "docs/WRITING-PROOFS.md"];

/// Every file that is made wholly or in part, as it should be.
pub fn made() -> Vec<(PathBuf, String)> {
    let mut out = Vec::new();
    for name in DOCUMENTS {
        let path = root().join(name);
        let text = fs::read_to_string(&path).expect("a document");
        out.push((path, refreshed(&text)));
    }
    let page = |name: &str| tables::folder(name).join("README.md");
    for example in EXAMPLES {
        out.push((page(example.name), tables::example_page(example)));
    }
    for chain in CHAINS {
        out.push((page(chain.name), tables::chain_page(chain)));
    }
    out
}

const TABLE: &str = "<!-- made: ";
const END: &str = "<!-- end -->";
const CHECK: &str = "    $ ./check ";
const SHOW: &str = "    $ papers ";

/// A document with its tables made again, and with what the commands in it print. A table stands between two comments; what a
/// command prints is the indented lines behind it.
pub fn refreshed(text: &str) -> String {
    let mut out = String::new();
    let mut lines = text.lines().peekable();
    while let Some(line) = lines.next() {
        out += line;
        out.push('\n');
        if let Some(name) = line.strip_prefix(TABLE) {
            let name = name.trim_end_matches(" -->");
            out += &format!("\n{}\n{END}\n", table(name));
            lines.by_ref().find(|line| *line == END).expect("its end");
        }
        let printed = if let Some(folder) = line.strip_prefix(CHECK) {
            Stage::read(&root().join(folder)).printed()
        } else if let Some(folder) = line.strip_prefix(SHOW) {
            listing(&Stage::read(&root().join(folder)))
        } else {
            continue;
        };
        while lines
            .next_if(|line| line.starts_with("    ") && !line.starts_with("    $"))
            .is_some()
        {}
        for line in printed.lines() {
            out += &format!("    {line}\n");
        }
    }
    out
}

/// A table by its name.
fn table(name: &str) -> String {
    match name.split_once(' ') {
        Some(("examples", number)) => tables::examples(number),
        Some(("growth", family)) => tables::growth(family),
        _ => match name {
            "papers" => tables::papers(),
            "counts" => tables::counts(),
            "chains" => tables::chains(),
            "literal" => tables::literal(),
            _ => panic!("no table {name}"),
        },
    }
}
