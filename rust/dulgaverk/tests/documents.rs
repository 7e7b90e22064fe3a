//! docs/GUARANTEES.md names every file under specs/, those to be believed with their lines, and only files that are there;
//! docs/MUST-FAIL.md names every edit, and only edits that are there;
//! docs/PROOF.md and docs/LAWS.md name laws, contracts and functions that stand in the files they give for them;
//! rust/trial names definitions that stand in the files it gives for them;
//! README.md has every crate in its diagram and in its table, and only crates that are there.

mod common;
use common::root;

use std::collections::BTreeSet;
use std::fs;

/// The files of one folder of every crate, as (crate, name without extension, lines).
fn files(folder: &str, extension: &str) -> Vec<(String, String, usize)> {
    let mut found = Vec::new();
    for entry in fs::read_dir(root().join("crates")).expect("crates/") {
        let path = entry.expect("an entry").path();
        let name = path.file_name().and_then(|n| n.to_str()).expect("a name");
        let Ok(inside) = fs::read_dir(path.join(folder)) else {
            continue;
        };
        for file in inside {
            let file = file.expect("an entry").path();
            if file.extension().and_then(|e| e.to_str()) == Some(extension) {
                let stem = file.file_stem().and_then(|n| n.to_str()).expect("a name");
                let text = fs::read_to_string(&file).expect("text");
                found.push((name.to_string(), stem.to_string(), text.lines().count()));
            }
        }
    }
    assert!(found.len() > 20, "{folder}");
    found
}

/// What stands between backquotes.
fn quoted(text: &str) -> BTreeSet<String> {
    text.split('`')
        .skip(1)
        .step_by(2)
        .map(String::from)
        .collect()
}

#[test]
fn every_spec_file_is_believed_or_wording() {
    let page = fs::read_to_string(root().join("docs/GUARANTEES.md")).expect("a page");
    let part = page
        .split("## What a reader must believe")
        .nth(1)
        .and_then(|rest| rest.split("## ").next())
        .expect("the part");
    let (believed, wording) = part.split_once("The other files").expect("two lists");
    let mut names = BTreeSet::from([
        "NAME/FILE".to_string(),
        "crates/NAME/specs/FILE.antt".to_string(),
    ]);
    for (name, file, lines) in files("specs", "antt") {
        if file == "Lib" {
            continue;
        }
        let whole = format!("{name}/{file}");
        let is_believed = believed.contains(&format!("`{whole}` {lines}"));
        let of = format!("of `{name}` ");
        let is_wording = wording
            .split_once(&of)
            .and_then(|(_, rest)| rest.split([';', '.']).next())
            .is_some_and(|list| quoted(list).contains(&file));
        assert!(is_believed ^ is_wording, "{whole}, {lines} lines");
        names.insert(whole);
    }
    for name in quoted(believed) {
        assert!(names.contains(&name), "{name} is not there");
    }
}

#[test]
fn every_edit_is_listed() {
    let page = fs::read_to_string(root().join("docs/MUST-FAIL.md")).expect("a page");
    let edits: BTreeSet<String> = files("must-fail", "edit")
        .into_iter()
        .map(|(name, file, _)| format!("{name}/{file}"))
        .collect();
    let listed = quoted(&page);
    let missing: Vec<_> = edits.difference(&listed).collect();
    assert!(missing.is_empty(), "not listed: {missing:?}");
    for name in listed
        .iter()
        .filter(|name| name.contains('/') && !name.contains(' '))
    {
        let known = name.starts_with("crates/") || name.starts_with("./") || edits.contains(name);
        assert!(known, "{name} is not there");
    }
}

/// Whether a definition, a law or a function of that name is declared there.
fn declares(text: &str, name: &str) -> bool {
    text.lines().any(|line| {
        let mut words = line
            .split_whitespace()
            .skip_while(|w| ["pub", "abbrev", "unfoldable"].contains(w));
        match words.next() {
            Some("data" | "record" | "fn") => words
                .next()
                .is_some_and(|w| w.split(['(', '<']).next() == Some(name)),
            first => first == Some(name) && words.next() == Some(":"),
        }
    })
}

/// In each line a name belongs to the file that follows it, or to one given for it further up; the last name before a file is that file's own.
fn names_stand_in_their_files(page: &str, fewest: usize) {
    let text = fs::read_to_string(root().join(page)).expect("a page");
    let mut given = BTreeSet::new();
    for line in text.lines() {
        let mut names = Vec::new();
        for quoted in line.split('`').skip(1).step_by(2) {
            if !quoted.contains('/') {
                names.push(quoted);
                continue;
            }
            let path = root().join("crates").join(quoted);
            let text = fs::read_to_string(&path)
                .unwrap_or_else(|_| panic!("{page}: {quoted} is not there"));
            let own = names.last().copied();
            for name in names.drain(..) {
                let stands = declares(&text, name);
                let known = given.contains(name) && own != Some(name);
                assert!(stands || known, "{page}: {name} is not in {quoted}");
                given.insert(name);
            }
        }
        for name in names {
            assert!(given.contains(name), "{page}: {name} has no file");
        }
    }
    assert!(given.len() > fewest, "{page}: {} names", given.len());
}

#[test]
fn names_of_the_tour_stand_in_their_files() {
    names_stand_in_their_files("docs/PROOF.md", 40);
}

#[test]
fn names_of_the_laws_stand_in_their_files() {
    names_stand_in_their_files("docs/LAWS.md", 100);
}

/// What `./trial` states about the definitions is made by rust/trial, which is not proved with the crates.
#[test]
fn names_of_the_trial_stand_in_their_files() {
    let program = fs::read_to_string(root().join("rust/trial/src/main.rs")).expect("a program");
    let mut found = 0;
    for line in program.lines() {
        let Some((path, names)) = line
            .strip_prefix("use Rattle.")
            .and_then(|line| line.strip_suffix('}')?.split_once(".{"))
        else {
            continue;
        };
        let file = root()
            .join("crates")
            .join(path.replacen('.', "/", 2))
            .with_extension("antt");
        let text = fs::read_to_string(&file).unwrap_or_else(|_| panic!("{path} is not there"));
        for name in names.split(", ") {
            let name = name.split(" as ").next().expect("a name");
            assert!(declares(&text, name), "{name} is not in {path}");
            found += 1;
        }
    }
    assert!(found > 200, "{found} names");
}

#[test]
fn every_crate_is_in_the_layout() {
    let list = fs::read_to_string(root().join("crates.txt")).expect("a list");
    let crates: BTreeSet<String> = list
        .lines()
        .filter(|line| !line.starts_with('#'))
        .filter_map(|line| line.split_once(':'))
        .filter_map(|(name, _)| name.split(' ').next())
        .map(str::to_string)
        .collect();
    let page = fs::read_to_string(root().join("README.md")).expect("a page");
    let layout = page.split("## Layout").nth(1).expect("the part");
    let (_, rest) = layout.split_once("```text").expect("a diagram");
    let (diagram, table) = rest.split_once("```").expect("its end");
    let drawn: BTreeSet<&str> = diagram.split_whitespace().collect();
    for name in &crates {
        assert!(
            drawn.contains(name.as_str()),
            "{name} is not in the diagram"
        );
    }
    let listed: BTreeSet<String> = table
        .lines()
        .filter_map(|line| line.strip_prefix("| "))
        .filter_map(|line| line.split(" | ").next())
        .flat_map(quoted)
        .collect();
    assert_eq!(listed, crates);
}
