//! `report`: one page about a stage, for a browser and for paper.

use crate::command::{exactly, Command, Ended, NO, YES};
use crate::files::Stage;
use crate::shown::{self, Is, Shown};
use crate::words;
use std::ffi::OsString;
use std::io::Write;

pub const COMMAND: Command = Command {
    name: "report",
    what: "writes a page about a stage: verdict, guard, constraints, proof",
    help: "\
usage: dulgaverk report FOLDER >FILE

Writes one HTML page about a stage: the verdict, the guard in words, A and B, and the proof as a tree that folds, with the
fault marked. The page needs no other file, no network and no script, and prints well.
Registers have the names of the folder's file `names`, if there is one.",
    run,
};

const STYLE: &str = include_str!("report.css");

const ABOUT: &str = "Rows and lines are numbered from 0, the lines of A and B first. Beside each row stands the line that it \
makes or names, and with it tA, the share of the line that came from A.";

const FOOT: &str = "<footer>The verdict, the place of a fault and the guard come from Dulgaverk's verified library. The words \
around them, and the lines beside the rows, are worked out by its tool: tested, not proved.</footer>";

fn run(arguments: &[OsString], out: &mut dyn Write) -> Ended {
    let [folder] = exactly(arguments, "a folder")?;
    let (stage, names) = Stage::open(folder)?;
    let whole = folder.canonicalize().unwrap_or(folder.into());
    let name = whole.file_name().unwrap_or(folder.as_os_str());
    out.write_all(page(&name.to_string_lossy(), &stage, &names).as_bytes())?;
    Ok(if stage.verdict.is_ok() { YES } else { NO })
}

fn escaped(text: &str) -> String {
    text.replace('&', "&amp;")
        .replace('<', "&lt;")
        .replace('>', "&gt;")
        .replace('"', "&quot;")
}

fn span(class: &str, text: &str) -> String {
    format!("<span class=\"{class}\">{}</span>", escaped(text))
}

pub fn page(name: &str, stage: &Stage, names: &[String]) -> String {
    let name = escaped(name);
    let (word, verdict, guard) = match &stage.verdict {
        Ok(guard) => {
            let said = words::guard(guard, names).unwrap_or_default();
            let size = words::count(guard.len(), "byte");
            let verdict = format!(
                "<p class=\"verdict yes\"><strong>Accepted</strong> The proof shows that A and B contradict each other. The \
                 guard, {size} long, is true wherever A is met and false wherever B is.</p>"
            );
            let guard = format!("<h2>Guard</h2>\n<pre>{}</pre>\n", escaped(&said));
            ("accepted", verdict, guard)
        }
        Err(refusal) => {
            let said = escaped(&words::refusal(refusal, &stage.p.fields));
            let verdict = format!(
                "<p class=\"verdict no\"><strong>Refused</strong> <a href=\"#fault\">{said}</a>. There is no guard.</p>"
            );
            ("refused", verdict, String::new())
        }
    };
    let [a, b, p] = shown::stage(stage, names);
    let (a, b, proof) = (rows(&a, names), rows(&b, names), rows(&p, names));
    format!(
        "<!DOCTYPE html>\n<html lang=\"en\">\n<head>\n<meta charset=\"utf-8\">\n\
         <meta name=\"viewport\" content=\"width=device-width, initial-scale=1\">\n\
         <title>{name}: {word}</title>\n<style>\n{STYLE}</style>\n</head>\n<body>\n<h1>{name}</h1>\n{verdict}\n{guard}\
         <h2>Constraints</h2>\n<div class=\"bundles\">\n<section>\n<h3>A: steps taken</h3>\n{a}</section>\n\
         <section>\n<h3>B: steps to a forbidden state</h3>\n{b}</section>\n</div>\n<h2>Proof</h2>\n<p>{ABOUT}</p>\n{proof}{FOOT}\n</body>\n</html>\n"
    )
}

/// A file row by row, its branches as parts that fold. The header is not shown.
fn rows(shown: &[Shown], names: &[String]) -> String {
    let mut out = String::new();
    // How many branches are open around the next row.
    let mut open = 0;
    for shown in shown {
        while open > shown.depth {
            out.push_str("</details>\n");
            open -= 1;
        }
        let row = row(shown, names);
        match shown.is {
            Is::Fault => out.push_str(&format!("<p id=\"fault\">{}</p>\n", escaped(&shown.said))),
            Is::Branch => {
                out.push_str(&format!("<details open><summary>{row}</summary>\n"));
                open += 1;
            }
            Is::Field if shown.said.starts_with("header") && !shown.at_fault => {}
            Is::Field => out.push_str(&row),
        }
    }
    out + &"</details>\n".repeat(open)
}

/// The row's number, what it is, and the line that it makes or names in two columns.
fn row(shown: &Shown, names: &[String]) -> String {
    let class = if shown.at_fault { "row fault" } else { "row" };
    let number = shown.row.map_or(String::new(), |row| row.to_string());
    let (t, ta) = match &shown.line {
        None => Default::default(),
        Some((number, line)) => (
            format!("{number}: {}", words::constraint(line.kind, &line.t, names)),
            format!("with {}", words::form(&line.ta, names)),
        ),
    };
    format!(
        "<div class=\"{class}\">{}{}{}{}</div>\n",
        span("number", &number),
        span("what", &shown.said),
        span("math", &t),
        span("math", &ta)
    )
}
