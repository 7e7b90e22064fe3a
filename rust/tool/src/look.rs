//! `look`: a stage, or one file, in words, in the columns of docs/FORMAT.md.

use crate::command::{exactly, Command, Ended, NO, YES};
use crate::fields::{self, File, Sort};
use crate::files::{self, Stage};
use crate::shown::{self, Is, Shown};
use crate::{names, tree, words};
use std::ffi::OsString;
use std::io::{self, Write};
use std::path::Path;

pub const COMMAND: Command = Command {
    name: "look",
    what: "shows a stage, or one of its files, in words",
    help: "\
usage: dulgaverk look FOLDER
       dulgaverk look FILE

Shows the verdict on a stage, its files a, b and p field by field, the lines that the rows make with t and tA, and the guard
in words; a refusal is marked at its field. One file, or a folder with a guard f and no proof, is shown likewise.
Registers have the names of the folder's file `names`, if there is one.",
    run,
};

fn run(arguments: &[OsString], out: &mut dyn Write) -> Ended {
    let [path] = exactly(arguments, "a folder or a file")?;
    if path.is_file() {
        return one_file(path, out);
    }
    files::is_folder(path).map_err(|why| why.replace("such folder", "such file or folder"))?;
    if ["a", "b", "p"].iter().any(|name| path.join(name).exists()) {
        let (stage, names) = Stage::open(path)?;
        return show(&stage, &names, out);
    }
    if path.join("f").exists() {
        return one_file(&path.join("f"), out);
    }
    Err(format!(
        "{}: neither a stage (a, b, p) nor a guard (f)",
        path.display()
    )
    .into())
}

/// A stage, whole.
pub fn show(stage: &Stage, names: &[String], out: &mut dyn Write) -> Ended {
    match &stage.verdict {
        Ok(guard) => writeln!(out, "accepted {}", guard.len())?,
        Err(refusal) => writeln!(out, "{}", words::refusal(refusal, &stage.p.fields))?,
    }
    let Stage { a, b, p, .. } = stage;
    let shown = shown::stage(stage, names);
    for ((name, file), shown) in [("A", a), ("B", b), ("proof", p)].iter().zip(shown) {
        table(name, file, &shown, names, out)?;
    }
    guard(stage.verdict.as_ref().ok(), names, out)?;
    Ok(if stage.verdict.is_ok() { YES } else { NO })
}

fn guard(formula: Option<&Vec<u8>>, names: &[String], out: &mut dyn Write) -> io::Result<()> {
    match formula.map(|formula| words::guard(formula, names)) {
        Some(Ok(text)) => writeln!(out, "\nguard\n  {text}"),
        _ => Ok(()),
    }
}

/// A bundle, a proof or a formula alone.
fn one_file(path: &Path, out: &mut dyn Write) -> Ended {
    let bytes = files::required(path)?;
    let neither = || {
        format!(
            "{}: neither a bundle, a proof nor a formula",
            path.display()
        )
    };
    // Where the fields do not tell, the name does.
    let by_name = match path.file_name().and_then(|name| name.to_str()) {
        Some("a" | "b") => Some(Sort::Bundle),
        Some("p") => Some(Sort::Proof),
        Some("f") => Some(Sort::Formula),
        _ => None,
    };
    let sort = fields::sort(&bytes).or(by_name).ok_or_else(neither)?;
    let refusal = match sort {
        Sort::Bundle => dulgaverk::read_bundle(&bytes).err(),
        Sort::Formula => dulgaverk::print_words(&bytes).err(),
        Sort::Proof => None,
    };
    let file = File::read(sort, bytes);
    let names = names::read(path.parent().unwrap_or(path), file.constants)?;
    let what = words::sort(sort);
    match (&refusal, sort) {
        (Some(refusal), _) => writeln!(out, "{refusal}")?,
        (None, Sort::Proof) => writeln!(out, "a proof alone, which is not checked")?,
        (None, _) => writeln!(out, "a {what} that is read whole")?,
    }
    // Without the bundles a proof's lines are not known.
    let none = File::read(Sort::Bundle, Vec::new());
    let nodes = match sort {
        Sort::Proof => tree::tree(&none, &none, &file, 0).nodes,
        _ => tree::flat(&file, 0),
    };
    let shown = shown::file(&file, nodes, refusal.as_ref(), &names);
    table(what, &file, &shown, &names, out)?;
    let formula = (sort == Sort::Formula && refusal.is_none()).then_some(&file.bytes);
    guard(formula, &names, out)?;
    Ok(if refusal.is_none() { YES } else { NO })
}

/// A file in columns: place, row, bytes, meaning.
fn table(
    name: &str,
    file: &File,
    shown: &[Shown],
    names: &[String],
    out: &mut dyn Write,
) -> io::Result<()> {
    let size = words::count(file.bytes.len(), "byte");
    writeln!(out, "\n{name}, {size}")?;
    let widths = shown.iter().map(|shown| shown.bytes.chars().count());
    let widest = widths.max().unwrap_or(0).max(5);
    let mut line = |place: &str, row: &str, bytes: &str, meaning: &str| {
        let row = match file.sort {
            Sort::Proof => format!(" {row:>4}"),
            _ => String::new(),
        };
        let text = format!("{place:>5}{row} {bytes:<widest$} {meaning}");
        writeln!(out, "{}", text.trim_end())
    };
    line("place", "row", "bytes", "meaning")?;
    for shown in shown {
        let number = |number: Option<usize>| number.map_or(String::new(), |n| n.to_string());
        let place = match shown.is {
            Is::Fault => "***".into(),
            _ => number(shown.place),
        };
        let depth = 2 * shown.depth + usize::from(shown.is == Is::Branch);
        let meaning = "  ".repeat(depth.min(80)) + &meaning(shown, names);
        line(&place, &number(shown.row), &shown.bytes, &meaning)?;
    }
    Ok(())
}

fn meaning(shown: &Shown, names: &[String]) -> String {
    let said = &shown.said;
    match (&shown.line, &shown.is) {
        (_, Is::Fault) => format!("^ {said}"),
        (Some((number, line)), _) if shown.makes => {
            format!("{said}: line {number} is {}", words::line(line, names))
        }
        (Some((_, line)), _) => {
            let named = words::constraint(line.kind, &line.t, names);
            format!("{said}: {named}")
        }
        (None, _) => said.clone(),
    }
}
