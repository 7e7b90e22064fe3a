//! `make`: the files of a stage from its text; `text`: the text of a stage from its files.

use crate::command::{exactly, Command, Ended, YES};
use crate::fields::{self, Sort};
use crate::files::{self, Stage};
use crate::{names, parse, text};
use std::ffi::OsString;
use std::io::Write;

pub const MAKE: Command = Command {
    name: "make",
    what: "makes the files of a stage from its text",
    help: "\
usage: dulgaverk make TEXT FOLDER

Makes the files a, b and p of a stage from its text, and `names` with the registers' names. The folder is made where there is
none, and files of these names that stand there are replaced; where anything goes wrong nothing is written. The stage is made,
not checked. The text - is the standard input. docs/TEXT.md describes it; one that has most of it:

  registers level limit         # by name, in the order of the files
  A edition 2                   # without an edition: edition 1
    level <= limit              # <=, >=, <, >, = or != between two sums; the first is line A0
    interlock: level != limit   # line A1, also called interlock
  B edition 2
    level >= 100000
    limit = 100000
  proof
    top = reduce B0 B1 1        # a line by its name or its number
    split interlock as s        # s is the new line of each branch
    branch 0
      v = combine s top 1 1
      close v
    branch 1
      v = combine s A0 1 1
      claim 1 ; 1               # t ; tA of the line above
      close v                   # or: close LINE stride 2

The other rows: NAME = scale LINE 3, strengthen LINE as NAME, round LINE stride 5 by 3 as NAME. A note: note TAG BYTES.",
    run: make,
};

pub const TEXT: Command = Command {
    name: "text",
    what: "writes a stage as text, of which make gives the same files",
    help: "\
usage: dulgaverk text FOLDER

Writes the files a, b and p of a stage as text, of which make gives the same bytes. Each has to be laid out, accepted or not.
Comments say what the lines are. Registers have the names of the folder's file `names`, if there is one.",
    run: text,
};

fn make(arguments: &[OsString], _: &mut dyn Write) -> Ended {
    let [source, folder] = exactly(arguments, "a text and a folder")?;
    let stated = parse::parse(&source.display().to_string(), &files::text(source)?)?;
    let [a, b, p] = &stated.files;
    let made = [
        ("a", fields::write(Sort::Bundle, a)),
        ("b", fields::write(Sort::Bundle, b)),
        ("p", fields::write(Sort::Proof, p)),
        ("names", format!("{}\n", stated.registers.join(" ")).into()),
    ];
    files::write(folder, &made)?;
    Ok(YES)
}

fn text(arguments: &[OsString], out: &mut dyn Write) -> Ended {
    let [folder] = exactly(arguments, "a folder")?;
    let stage = Stage::read(folder)?;
    if let Some(file) = stage.missing.first() {
        return Err(file.clone().into());
    }
    let shown = folder.display();
    let (a, b, p) = (&stage.a, &stage.b, &stage.p);
    for (name, file) in [("a", a), ("b", b), ("p", p)] {
        if file.bytes.len() == files::MOST {
            return Err(format!("{shown}: {name} is longer than any file").into());
        }
    }
    let names = names::read(folder, a.constants)?;
    let text = text::write(&names, a, b, p).map_err(|why| format!("{shown}: {why}"))?;
    out.write_all(text.as_bytes())?;
    Ok(YES)
}
