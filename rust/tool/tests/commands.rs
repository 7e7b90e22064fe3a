//! Each command as it is used, rightly and wrongly.

mod common;
use common::{command, examples, root, run, told, Folder};

use std::fs;
use std::io::Write;
use std::process::Stdio;
use tool::{fields, parse, COMMANDS};

/// What the tool prints of a text on its input.
fn fed(arguments: &[&str], input: &str) -> (String, String, i32) {
    let mut child = command(arguments);
    let child = child.stdin(Stdio::piped()).stdout(Stdio::piped());
    let mut child = child.stderr(Stdio::piped()).spawn().expect("the tool");
    let written = child.stdin.take().expect("a pipe");
    let _ = (&written).write_all(input.as_bytes());
    drop(written);
    told(&child.wait_with_output().expect("an end"))
}

#[test]
fn help() {
    let (overview, _, status) = run(&["--help"]);
    assert_eq!(status, 0);
    for command in COMMANDS {
        assert!(overview.contains(command.what), "{}", command.name);
        let (text, told, status) = run(&[command.name, "--help"]);
        assert_eq!((told.as_str(), status), ("", 0));
        let usage = format!("usage: dulgaverk {} ", command.name);
        assert!(text.starts_with(&usage), "{text}");
        assert!(text.contains("the verified library") && text.contains("not proved"));
    }
}

/// Uses that are wrong (- stands for an empty argument), and what is told.
const WRONG: &str = r#"
loook examples/stage-1: no such command: "loook"
-: no such command: ""
look: expected a folder or a file, found 0
look -: an empty argument
look -x: no such option: -x
look docs docs: found 2 arguments
look none: none: no such file or folder
look docs: docs: neither a stage (a, b, p) nor a guard (f)
look README.md: neither a bundle, a proof nor a formula
text none: none: no such folder
text README.md: README.md: not a folder
text examples/guard-1: examples/guard-1/a is not there
text examples/stage-8-tag: a is not laid out at byte 8: tag 0x06
make none target/none: none: No such file
make examples/stage-1/a target/none: no text: the byte at 11
make examples/stage-pump/stage.txt: expected a text and a folder
make examples/stage-pump/stage.txt README.md: README.md: cannot be made
check: a folder is missing
check examples/stage-1 -: an empty argument
guard examples/stage-1: the values are missing
guard none 1: none: no such folder
guard examples/stage-1 1 2: expected 3 values, found 2
guard examples/stage-1 1 2 x: expected a whole number, found "x"
guard examples/stage-1 x=1 y=2 x=3: "x" stands there twice
guard examples/stage-1 x=1 y=2 w=3: expected a register (x, y, z), found "w"
guard examples/stage-1 1 2000000 3: refused 23 file 4 at 1: a register value
guard examples/stage-2 1 2 3: no guard: refused 15 file 3 at 15
guard examples/guard-edition-2 1: refused 5 file 3 at 0
guard examples/stage-1 --list: --list is followed by one file
guard examples/stage-1 --list none: none: No such file
turn 3 examples/stage-1 target/none: expected edition 1 or 2
turn 2 none target/none: none: no such folder
queue README.md: README.md:3: expected submit SEAT FOLDER
smt examples/stage-8-tag: a is not laid out at byte 8
list examples/guard-1: examples/guard-1/a: No such file
"#;

/// Each prints nothing, says what is wrong, and ends with 2.
#[test]
fn used_wrongly() {
    assert!(run(&[]).1.contains("a command is missing"));
    for line in WRONG.trim().lines() {
        let (words, expected) = line.split_once(": ").expect("two parts");
        let words = words
            .split(' ')
            .map(|word| if word == "-" { "" } else { word });
        let (out, told, status) = run(&words.collect::<Vec<_>>());
        assert_eq!((out.as_str(), status), ("", 2), "{line}");
        assert!(told.contains(expected), "{line}: {told}");
    }
    assert!(!root().join("target/none").exists());
}

/// Each error of a text names its line, what was expected and what was found, and nothing is written.
#[test]
fn errors_of_texts() {
    let folder = Folder::new("texts");
    let start = "registers x y\nA\n  k: x <= 3\nB\n  x >= 4\nproof\n";
    let wrong = [
        ("", "1: expected registers and their names, found the end of the text"),
        ("registers\n", "1: expected 1 to 16 registers, found 0"),
        ("registers x x\n", "1: expected another name, found \"x\" again"),
        ("registers x A\n", "1: expected a register's name, found \"A\""),
        ("registers x\nB\n", "2: expected A, found \"B\""),
        ("registers x\nA edition 3\n", "2: expected an edition from 1 to 2, found \"3\""),
        ("registers x\nA\n2z <= 1\n", "3: expected a register, found \"z\""),
        ("registers x\nA\nx ? 1\n", "3: expected a name, a number or a sign, found '?'"),
        ("registers x\nA\nx 1\n", "3: expected <=, >=, <, >, = or !=, found \"1\""),
        ("registers x\nA\nx <= 40000\n", "3: expected numbers from -32768 to 32767 in edition 1, found -40000"),
        ("registers x\nA\nx <= 1 2\n", "3: expected the end of the line, found \"2\""),
        ("registers x\nA\nx <= 99999999999\n", "3: expected a smaller number, found 99999999999"),
        ("registers x\nA\nproof\n", "3: expected a constraint, a note or B, found \"proof\""),
        ("registers x\nA\nnote 7F\n", "3: expected a tag from 80 to FF, found \"7F\""),
        ("registers x\nA\nnote 80 012\n", "3: expected bytes of two hexadecimal digits each, found \"012\""),
        ("registers x\nA\nnote 80 01 before A\n", "3: expected \"before edition\", \"before constants\" or the end of the line, found \"before A\""),
        ("registers x\nA\n# B comes\n", "2: expected B, found the end of the text"),
        ("S", "6: expected a row that closes the branch, or \"unfinished\", found the end of the text"),
        ("Sjoin 1 2\n", "7: expected a row (combine, reduce, scale, strengthen, round, split or close), a claim or a note, found \"join\""),
        ("Sv = close k\n", "7: expected combine, reduce or scale, found \"close\""),
        ("Sk = scale k 2\n", "7: expected another name, found \"k\", which is a line already"),
        ("SB7 = scale k 2\n", "7: expected another name, found \"B7\", which is a line already"),
        ("Sclose B1\n", "7: expected a line's name or number, found \"B1\""),
        ("Sclose 256\n", "7: expected a line up to 255 in edition 1, found 256"),
        ("Sscale k 65536\n", "7: expected a multiplier from 0 to 65535, found \"65536\""),
        ("Sreduce k B0 -40000\n", "7: expected a multiplier from -32768 to 32767, found \"-40000\""),
        ("Sround k by 3\n", "7: expected \"stride\", found \"by\""),
        ("Sbranch 0\n", "7: expected a row, found \"branch\""),
        ("Sclaim 1 ; 1\n", "7: expected a row (a claim stands behind combine, reduce or scale, once), found \"claim\""),
        ("Sscale k 2\nclaim 1\n", "8: expected \";\" between t and tA, found the end of the line"),
        ("Sstrengthen k\nclose k\n", "8: expected \"branch 0\", found \"close\""),
        ("Sstrengthen k\nbranch 1\n", "8: expected branch 0, found \"1\""),
        ("Sstrengthen k as s\nbranch 0\nclose s\nbranch 1\n", "10: expected a row that closes the branch, or \"unfinished\", found the end of the text"),
        ("Sclose k\nclose k\n", "8: expected a note or the end of the text, found \"close\""),
    ];
    for (text, words) in wrong {
        let text = text
            .strip_prefix('S')
            .map_or(text.into(), |rest| format!("{start}{rest}"));
        let (out, told, status) = fed(&["make", "-", &folder.at("made")], &text);
        assert_eq!((out.as_str(), status), ("", 2), "{text}");
        assert_eq!(told, format!("dulgaverk: -:{words}\n"), "{text}");
        assert!(!folder.0.join("made").exists());
    }
    // A text that is cut at a line is an error too.
    let whole =
        fs::read_to_string(root().join("examples/stage-two-deep/stage.txt")).expect("a text");
    for (place, _) in whole.match_indices('\n') {
        let is_whole = place + 1 == whole.len();
        assert_eq!(
            parse::parse("t", &whole[..place]).is_ok(),
            is_whole,
            "{place}"
        );
    }
}

/// The text in make's help, that of docs/TEXT.md, and the examples' own give the examples' files.
#[test]
fn texts_that_are_shown() {
    let page = fs::read_to_string(root().join("docs/TEXT.md")).expect("docs/TEXT.md");
    let in_page = page
        .split("```")
        .nth(1)
        .expect("a text")
        .trim_start_matches("text");
    let (_, told, _) = fed(&["make", "-", "target/none"], "registers x\nA\n  2x =< 3\n");
    assert!(page.contains(&told), "{told}");
    let (help, ..) = run(&["make", "--help"]);
    let in_help: Vec<&str> = help.lines().filter(|line| line.starts_with("  ")).collect();
    let own = |name: &str| fs::read_to_string(root().join("examples").join(name).join("stage.txt"));
    for (name, text) in [
        ("stage-pump", own("stage-pump").expect("a text")),
        ("stage-two-deep", own("stage-two-deep").expect("a text")),
        ("stage-pump", in_page.into()),
        ("stage-pump", in_help.join("\n")),
    ] {
        let stated = parse::parse(name, &text).expect("no error");
        for (index, file) in ["a", "b", "p"].iter().enumerate() {
            let sort = [fields::Sort::Bundle, fields::Sort::Proof][index / 2];
            let bytes = fs::read(root().join("examples").join(name).join(file)).expect("a file");
            assert_eq!(
                fields::write(sort, &stated.files[index]),
                bytes,
                "{name} {file}"
            );
        }
    }
}

/// make writes all files or none, and text gives them back.
#[test]
fn made_and_turned() {
    let folder = Folder::new("made");
    let text = root().join("examples/stage-pump/stage.txt");
    let text = text.to_str().expect("a path");
    let made = folder.at("new/made");
    assert_eq!(
        run(&["make", text, &made]),
        (String::new(), String::new(), 0)
    );
    assert_eq!(
        fs::read(folder.0.join("new/made/names")).expect("names"),
        b"level limit\n"
    );
    let (again, _, status) = run(&["text", &made]);
    assert_eq!(status, 0);
    assert_eq!(fed(&["make", "-", &made], &again).2, 0);
    assert_eq!(run(&["text", &made]).0, again);
    // A folder stands where a file should: nothing is changed.
    let other = folder.at("other");
    fs::create_dir_all(folder.0.join("other/p")).expect("a folder");
    assert_eq!(run(&["make", text, &other]).2, 2);
    assert_eq!(fs::read_dir(&other).expect("a folder").count(), 1);
    // Up and down again: the same files.
    let (up, down) = (folder.at("up"), folder.at("down"));
    assert_eq!(
        run(&["turn", "2", "examples/stage-5", &up]).0,
        "a: 19 bytes in edition 2\nb: 19 bytes in edition 2\np: 52 bytes in edition 2\n"
    );
    assert_eq!(run(&["turn", "1", &up, &down]).2, 0);
    for name in ["a", "b", "p"] {
        let there = fs::read(root().join("examples/stage-5").join(name)).expect("a file");
        assert_eq!(
            fs::read(folder.0.join("down").join(name)).expect("a file"),
            there
        );
    }
    let (out, _, status) = run(&["turn", "1", "examples/stage-pump", &folder.at("none")]);
    assert!(out.ends_with(
        "/b: refused 13 file 1 at 8: a number of a new line, or of a bundle, is out of range\n"
    ));
    assert!(status == 1 && !folder.0.join("none").exists());
}

#[test]
fn guards_and_lists() {
    let yes = ("true\n".to_string(), String::new(), 0);
    assert_eq!(run(&["guard", "examples/stage-pump", "5", "6"]), yes);
    assert_eq!(
        run(&["guard", "examples/stage-pump", "limit=6", "level=5"]),
        yes
    );
    assert_eq!(run(&["guard", "examples/stage-pump", "6", "6"]).2, 1);
    let list = fed(
        &["guard", "examples/list-1", "--list", "-"],
        "1, 4,-7 # even\n\n1 -3 0\n",
    );
    assert_eq!(list, ("true\nfalse\n".into(), String::new(), 1));
    for (text, words) in [
        ("# nothing\n", "-: no values in it"),
        ("1 2 3\n1 2\n", "-:2: expected 3 values, found 2"),
        ("1 2 3\n1 2 1000001\n", "refused 23 file 4 at 5"),
    ] {
        let (out, told, status) = fed(&["guard", "examples/list-1", "--list", "-"], text);
        assert!(
            out.is_empty() && told.contains(words) && status == 2,
            "{told}"
        );
    }
    // A guard beside a stage has to be that stage's.
    let folder = Folder::new("guard");
    let bytes = |path: &str| fs::read(root().join("examples").join(path)).expect("a file");
    let stage = ["a", "b", "p"].map(|name| bytes(&format!("stage-1/{name}")));
    let path = folder.stage("s", &stage);
    folder.file("s/f", &bytes("guard-1/f"));
    assert_eq!(run(&["guard", &path, "1", "2", "3"]), yes);
    folder.file("s/f", &bytes("guard-four-bytes/f"));
    assert!(run(&["guard", &path, "1", "2", "3"])
        .1
        .contains("not the guard of the stage beside it"));
    folder.file("s/names", b"x y");
    assert!(run(&["look", &path])
        .1
        .contains("names: expected 3 names, found 2"));
}

/// Many folders, in the order given, with the verdicts of the library.
#[test]
fn many_folders() {
    let all = examples();
    let paths: Vec<&str> = all
        .iter()
        .map(|path| path.to_str().expect("a path"))
        .collect();
    let many: Vec<&str> = paths.iter().cycle().take(700).copied().collect();
    let (out, told, status) = run(&[&["check"], &many[..]].concat());
    assert_eq!((told.as_str(), status), ("", 1));
    let lines: Vec<&str> = out.lines().collect();
    assert_eq!(lines.len(), 701);
    for (line, path) in lines.iter().zip(&many) {
        let expected = fs::read_to_string(format!("{path}/expected")).expect("a file");
        let first = expected.lines().next().expect("a line");
        assert!(line.starts_with(&format!("{path}: {first}")), "{line}");
    }
    let accepted = lines
        .iter()
        .filter(|line| line.contains(": accepted "))
        .count();
    let last = format!(
        "700 stages: {accepted} accepted, {} refused",
        700 - accepted
    );
    assert_eq!(lines[700], last);
    let (out, told, status) = run(&["check", "examples/guard-1", "none", "examples/stage-1"]);
    assert!(
        out.contains("guard-1: refused 2 file 1 at 0")
            && out.ends_with("2 stages: 1 accepted, 1 refused\n")
    );
    assert!(
        told.contains("guard-1/p is not there, counts as empty")
            && told.contains("none: no such folder")
    );
    assert_eq!(status, 2);
}

#[test]
fn queue() {
    let calls =
        "submit 4 examples/stage-2\nsubmit 1 examples/stage-1\nsubmit 1 examples/stage-3\nturn\n\
                 submit 1 examples/stage-3\ncancel 1\ncancel 9 # none\nturn\nturn\n";
    let (out, told, status) = fed(&["queue", "-"], calls);
    let expected = "seat 4 submits examples/stage-2\nseat 1 submits examples/stage-1\n\
        seat 1 submits examples/stage-3, refused 30 file 4 at 0: a job for a seat where one waits\n\
        turn: seat 1, accepted 31\nseat 1 submits examples/stage-3\nseat 1 cancels\n\
        seat 9 cancels, refused 29 file 4 at 0: a seat above 7\n\
        turn: seat 4, refused 15 file 3 at 15: a close or rounding whose condition is not met\nturn: no job waits\n";
    assert_eq!((out.as_str(), told.as_str(), status), (expected, "", 1));
    assert_eq!(
        fed(&["queue", "-"], "submit 0 examples/stage-1\nturn\n").2,
        0
    );
}

/// Output that cannot be written is 2; a reader that has gone is no reason to talk.
#[test]
fn output_that_cannot_be_written() {
    let stage = "examples/stage-two-deep";
    let uses: [&[&str]; 9] = [
        &["--help"],
        &["look", stage],
        &["text", stage],
        &["check", stage],
        &["guard", "examples/stage-1", "1", "2", "3"],
        &["smt", stage],
        &["report", stage],
        &["list", "examples/stage-3"],
        &["queue", "examples/queue.txt"],
    ];
    for arguments in uses {
        let full = fs::File::create("/dev/full").expect("a full device");
        let output = command(arguments).stdout(full).output().expect("the tool");
        let (_, told, status) = told(&output);
        assert!(
            told.contains("the output cannot be written"),
            "{arguments:?}: {told}"
        );
        assert_eq!(status, 2, "{arguments:?}");
        let mut child = command(arguments);
        let child = child.stdout(Stdio::piped()).stderr(Stdio::piped());
        let (reader, writer) = std::io::pipe().expect("a pipe");
        drop(reader);
        let output = child.stdout(writer).output().expect("the tool");
        assert_eq!(
            (output.stderr.len(), output.status.code()),
            (0, Some(2)),
            "{arguments:?}"
        );
    }
}

/// The script builds the tool where it is not up to date; it works through a link, and sees that its output is closed.
#[test]
fn script() {
    let folder = Folder::new("script");
    let link = folder.at("link");
    std::os::unix::fs::symlink(root().join("dulgaverk"), &link).expect("a link");
    let shell = |words: &str| {
        let mut shell = std::process::Command::new("sh");
        let shell = shell
            .args(["-c", &format!("{link} {words}")])
            .current_dir(root());
        told(&shell.output().expect("a shell"))
    };
    let (out, _, status) = shell("check examples/stage-1");
    assert_eq!(
        (out.as_str(), status),
        (
            "examples/stage-1: accepted 31\n1 stage: 1 accepted, 0 refused\n",
            0
        )
    );
    assert_eq!(shell("--help").0, run(&["--help"]).0);
    let (_, told, status) = shell("check examples/stage-1 >&-");
    assert!(
        told.contains("the standard output is closed") && status == 2,
        "{told}"
    );
}

/// The guards of a run, and a proof without the rows that nothing rests on.
#[test]
fn runs_and_shorter_proofs() {
    let at = |name: &str| ["proof", "t1", "t2", "t3"].map(|file| format!("examples/{name}/{file}"));
    let of = |name: &str| {
        let paths = at(name);
        let paths: Vec<&str> = paths.iter().map(String::as_str).collect();
        run(&[&["run"], &paths[..]].concat())
    };
    let (out, told, status) = of("run-1");
    assert_eq!((told.as_str(), status), ("", 0));
    assert_eq!(out.lines().count(), 4);
    assert!(
        out.starts_with("guard 0: 0 <= 0 [true]\n") && out.ends_with(" [false]\n"),
        "{out}"
    );
    let (out, _, status) = of("run-unlike");
    assert!(
        out.starts_with("refused 28 file 3 at ") && status == 1,
        "{out}"
    );
    assert!(run(&["run"])
        .1
        .contains("a proof and its bundles are missing"));
    let folder = Folder::new("shorter");
    let (out, _, status) = run(&["shorten", "examples/stage-5-unused", &folder.at("s")]);
    assert!(
        out.contains("row ") && out.ends_with(" left\n") && status == 0,
        "{out}"
    );
    for name in ["a", "b", "p"] {
        let expected =
            fs::read(root().join("examples/stage-5-shortened").join(name)).expect("a file");
        assert_eq!(
            fs::read(folder.0.join("s").join(name)).expect("a file"),
            expected,
            "{name}"
        );
    }
    let (out, _, status) = run(&["shorten", "examples/stage-2", &folder.at("none")]);
    assert!(
        out.starts_with("refused 15 file 3 at 15: ") && status == 1,
        "{out}"
    );
    assert!(!folder.0.join("none").exists());
}
