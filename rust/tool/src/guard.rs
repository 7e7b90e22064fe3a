//! `guard`: a guard at register values.

use crate::command::{paths, usage, Command, Ended, Failure, NO, YES};
use crate::fields::{File, Sort};
use crate::files::{self, Stage};
use crate::{names, words};
use std::ffi::OsString;
use std::io::Write;
use std::path::Path;

pub const COMMAND: Command = Command {
    name: "guard",
    what: "tests a guard at register values",
    help: "\
usage: dulgaverk guard FOLDER VALUE...
       dulgaverk guard FOLDER NAME=VALUE...
       dulgaverk guard FOLDER --list FILE

Tests the guard f of a folder, or that of its stage (a, b, p), which is checked first; where both are there they have to agree.
The values, from -1000000 to 1000000, stand in the order of the files, or each behind its register's name. Prints true or false.
A list has the values of one test on each line, with blanks or commas between; # starts a comment, - is the standard input.
It is tested in one call, and nothing is printed where anything of it is refused.
The status is 0 for true, also of every line of a list, 1 for false, and 2 for all else, a refusal too.",
    run,
};

fn run(arguments: &[OsString], out: &mut dyn Write) -> Ended {
    let Some((folder, rest)) = arguments.split_first() else {
        return Err(usage("a folder is missing"));
    };
    let folder = paths(std::slice::from_ref(folder))?[0];
    let rest: Vec<String> = rest
        .iter()
        .map(|text| text.to_string_lossy().into())
        .collect();
    let (guard, names) = match &rest[..] {
        [] => return Err(usage("the values are missing")),
        _ => read(folder)?,
    };
    let values = match &rest[..] {
        [option, file] if option == "--list" && !file.is_empty() => list(file, &names)?,
        [option, ..] if option == "--list" => {
            return Err(usage("--list is followed by one file"));
        }
        values => row(values, &names).map_err(Failure::Usage)?,
    };
    let tested = dulgaverk::test_list(&guard, names.len(), &values);
    let answers = tested.map_err(|refusal| {
        let at = match (
            refusal.number,
            names.get(refusal.place % names.len().max(1)),
        ) {
            (23, Some(name)) => format!(": value {} of {name}", refusal.place / names.len() + 1),
            _ => String::new(),
        };
        format!("{}: {}{at}", words::numbers(&refusal), refusal.meaning())
    })?;
    for answer in &answers {
        writeln!(out, "{answer}")?;
    }
    Ok(if answers.iter().all(|answer| *answer) {
        YES
    } else {
        NO
    })
}

/// The guard of a folder, and its registers' names. A guard beside a stage has to be that stage's.
pub fn read(folder: &Path) -> Result<(Vec<u8>, Vec<String>), Failure> {
    files::is_folder(folder)?;
    let path = folder.join("f");
    let filed = match path.exists() {
        true => Some(files::required(&path)?),
        false => None,
    };
    if let (Some(guard), false) = (&filed, folder.join("p").exists()) {
        if let Err(refusal) = dulgaverk::print_words(guard) {
            return Err(format!("{}: {refusal}", path.display()).into());
        }
        let file = File::read(Sort::Formula, guard.clone());
        let names = names::read(folder, file.constants)?;
        return Ok((file.bytes, names));
    }
    let (stage, names) = Stage::open(folder)?;
    let guard = stage.verdict.map_err(|refusal| {
        let said = words::refusal(&refusal, &stage.p.fields);
        format!("{}: no guard: {said}", folder.display())
    })?;
    if filed.is_some_and(|filed| filed != guard) {
        let shown = path.display();
        return Err(format!("{shown}: not the guard of the stage beside it").into());
    }
    Ok((guard, names))
}

/// The values of one test, in the order of the files.
fn row(texts: &[String], names: &[String]) -> Result<Vec<i32>, String> {
    let number = |text: &str| {
        let wrong = || format!("expected a whole number, found \"{text}\"");
        text.parse::<i32>().map_err(|_| wrong())
    };
    let mut values = vec![None; names.len()];
    if texts.len() != names.len() {
        let (expected, found) = (words::count(names.len(), "value"), texts.len());
        return Err(format!("expected {expected}, found {found}"));
    }
    for (index, text) in texts.iter().enumerate() {
        let (index, value) = match text.split_once('=') {
            None => (index, text.as_str()),
            Some((name, value)) => {
                let known = names.iter().position(|known| known == name);
                let all = names.join(", ");
                let wrong = || format!("expected a register ({all}), found \"{name}\"");
                (known.ok_or_else(wrong)?, value)
            }
        };
        if values[index].replace(number(value)?).is_some() {
            return Err(format!("\"{}\" stands there twice", names[index]));
        }
    }
    // As many as there are names, and none twice: each is there.
    Ok(values.into_iter().flatten().collect())
}

/// The values of all tests of a list.
fn list(file: &str, names: &[String]) -> Result<Vec<i32>, String> {
    let text = files::text(Path::new(file))?;
    let mut values = Vec::new();
    for (index, line) in text.lines().enumerate() {
        let line = line.split('#').next().unwrap_or("");
        let parts = line.split(|c: char| c.is_whitespace() || c == ',');
        let texts: Vec<String> = parts
            .filter(|part| !part.is_empty())
            .map(String::from)
            .collect();
        if !texts.is_empty() {
            let row = row(&texts, names);
            values.extend(row.map_err(|why| format!("{file}:{}: {why}", index + 1))?);
        }
    }
    // That all of nothing is true is no reason to act.
    if values.is_empty() {
        return Err(format!("{file}: no values in it"));
    }
    Ok(values)
}
