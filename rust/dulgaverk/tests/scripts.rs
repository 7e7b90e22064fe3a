//! ./check and ./guard as the technician runs them: what README prints, the exit status, what is told on stderr, and the
//! file that -o writes. Of the other scripts: help, links, wrong use, and what is not there.

mod common;
use common::root;

use std::fs;
use std::os::fd::OwnedFd;
use std::os::unix::fs::symlink;
use std::os::unix::net::UnixStream;
use std::path::{Path, PathBuf};
use std::process::{Command, Output};

fn run(script: &str, arguments: &[&str]) -> Output {
    Command::new(root().join(script))
        .args(arguments)
        .current_dir(root())
        .output()
        .expect("a script")
}

fn status(output: &Output) -> i32 {
    output.status.code().expect("an exit status")
}

/// A path of this test's own.
fn own(name: &str) -> PathBuf {
    std::env::temp_dir().join(format!("scripts-{}-{name}", std::process::id()))
}

fn text(bytes: &[u8]) -> String {
    String::from_utf8_lossy(bytes).into_owned()
}

/// What a shell does in the root.
fn shell(command: &str) -> Output {
    Command::new("sh")
        .args(["-c", command])
        .current_dir(root())
        .output()
        .expect("a shell")
}

/// A new folder of this test's own.
fn own_folder(name: &str) -> PathBuf {
    let path = own(name);
    let _ = fs::remove_dir_all(&path);
    fs::create_dir_all(&path).expect("a folder");
    path
}

/// Files of an example, in a folder.
fn copy_files(example: &str, names: &[&str], to: &Path) {
    for name in names {
        let from = root().join("examples").join(example).join(name);
        fs::copy(from, to.join(name)).expect("a file");
    }
}

const SCRIPTS: [&str; 7] = [
    "check", "guard", "compare", "bench", "fuzz", "trial", "test",
];

/// The scripts without the rest of the repository, and a search path without rt, cargo and clang: nothing can be built.
struct Bare {
    folder: PathBuf,
}

impl Bare {
    fn new(name: &str) -> Bare {
        let folder = own_folder(name);
        for inside in ["scripts", "crates/dulgaverk_c/out", "tools", "target/bin"] {
            fs::create_dir_all(folder.join(inside)).expect("a folder");
        }
        fs::write(folder.join("crates/dulgaverk_c/out/libdulgaverk_c.a"), "").expect("a file");
        for file in SCRIPTS.iter().chain(&["scripts/program.sh", "crates.txt"]) {
            fs::copy(root().join(file), folder.join(file)).expect("a file");
        }
        for tool in ["sh", "readlink", "sed", "find", "head", "mkdir", "cat", "cp"] {
            let found = text(&shell(&format!("command -v {tool}")).stdout);
            symlink(found.trim_end(), folder.join("tools").join(tool)).expect("a link");
        }
        Bare { folder }
    }

    /// Puts a program there. A shell writes it, so that no other test has it open when it is run.
    fn put(&self, path: &str, lines: &str) {
        let written = Command::new("sh")
            .args([
                "-c",
                r#"printf '#!/bin/sh\n%s\n' "$1" >"$0"; chmod +x "$0""#,
            ])
            .args([self.folder.join(path).as_os_str(), lines.as_ref()])
            .status();
        assert!(written.expect("a shell").success());
    }

    fn run(&self, script: &str, arguments: &[&str]) -> Output {
        Command::new("/bin/sh")
            .arg(self.folder.join(script))
            .args(arguments)
            .current_dir(&self.folder)
            .env("PATH", self.folder.join("tools"))
            .output()
            .expect("a shell")
    }
}

impl Drop for Bare {
    fn drop(&mut self) {
        let _ = fs::remove_dir_all(&self.folder);
    }
}

/// The commands that README shows, each with the lines that it prints.
fn printed_in_readme() -> Vec<(String, String)> {
    let text = fs::read_to_string(root().join("README.md")).expect("README.md");
    let mut runs: Vec<(String, String)> = Vec::new();
    let mut inside = false;
    for line in text.lines() {
        if let Some(command) = line.strip_prefix("    $ ") {
            runs.push((command.to_string(), String::new()));
            inside = true;
        } else if let (true, Some(printed)) = (inside, line.strip_prefix("    ")) {
            let last = runs.last_mut().expect("a command");
            last.1.push_str(printed);
            last.1.push('\n');
        } else {
            inside = false;
        }
    }
    runs
}

#[test]
fn readme_runs_as_printed() {
    let runs = printed_in_readme();
    let of = |script: &str| runs.iter().filter(|run| run.0.starts_with(script)).count();
    assert!(of("./check ") >= 2 && of("./guard ") >= 2, "{runs:?}");
    for (command, expected) in runs {
        assert_eq!(text(&shell(&command).stdout), expected, "{command}");
    }
}

#[test]
fn exit_status() {
    for (arguments, expected) in [
        (vec![], 0),
        (vec!["examples/stage-1"], 0),
        (vec!["examples/stage-2"], 1),
        (vec!["examples/stage-7"], 1),
        (vec!["examples/none"], 2),
        (vec!["examples/stage-1", "-o"], 2),
        (vec!["examples/stage-1", "-o", ""], 2),
        (vec!["examples/stage-1", "-p", "x"], 2),
        (vec!["examples/stage-1", "-o", "x", "y"], 2),
        (vec!["-o", "x"], 2),
    ] {
        assert_eq!(
            status(&run("check", &arguments)),
            expected,
            "check {arguments:?}"
        );
    }
    for (arguments, expected) in [
        (vec![], 2),
        (vec!["examples/guard-1"], 0),
        (vec!["examples/guard-1-odd"], 1),
        (vec!["examples/guard-1-reordered"], 0),
        (vec!["examples/guard-four-bytes"], 0),
        (vec!["examples/guard-edition-2"], 1),
        (vec!["examples/none"], 2),
        (vec!["examples/guard-1", "x"], 2),
    ] {
        assert_eq!(
            status(&run("guard", &arguments)),
            expected,
            "guard {arguments:?}"
        );
    }
}

/// An empty argument is no folder, and none is taken in its place.
#[test]
fn empty_arguments() {
    for (script, arguments) in [
        ("check", vec![""]),
        ("check", vec!["", "-o", "x"]),
        ("guard", vec![""]),
        ("guard", vec!["-e", ""]),
        ("guard", vec!["-e"]),
        ("guard", vec!["-e", "-e", "examples/guard-1"]),
        ("guard", vec!["examples/guard-1", "-e"]),
    ] {
        let output = run(script, &arguments);
        assert_eq!(status(&output), 2, "{script} {arguments:?}");
        assert!(output.stdout.is_empty(), "{script} {arguments:?}");
        assert!(text(&output.stderr).starts_with(&format!("usage: ./{script} ")));
    }
}

/// A folder is the one that is named, even if it is called - as the one before is for cd.
#[test]
fn folder_called_minus() {
    let folder = own_folder("minus");
    fs::create_dir(folder.join("-")).expect("a folder");
    copy_files("stage-2", &["a", "b", "p"], &folder.join("-"));
    let output = Command::new(fs::canonicalize(root().join("check")).expect("a script"))
        .arg("-")
        .current_dir(&folder)
        .env("OLDPWD", root().join("examples/stage-1"))
        .output()
        .expect("a script");
    assert_eq!(status(&output), 1);
    assert_eq!(text(&output.stdout), "refused 15 file 3 at 15\n");
    let _ = fs::remove_dir_all(&folder);
}

/// With -e the status is the truth: 0 only for true, 1 for false, 2 for all else.
#[test]
fn guard_status_by_truth() {
    let odd = own_folder("odd-y");
    let path = odd.to_str().expect("a path");
    copy_files("guard-1", &["f"], &odd);
    fs::write(odd.join("v"), [0, 0, 0, 1, 0, 0, 0, 3, 0, 0, 0, 0]).expect("a file");
    for (arguments, printed, expected) in [
        (vec!["-e", "examples/guard-1"], "true\n", 0),
        (vec!["-e", path], "false\n", 1),
        (vec![path], "false\n", 0),
        (
            vec!["-e", "examples/guard-1-odd"],
            "refused 7 file 4 at 0\n",
            2,
        ),
        (vec!["-e", "examples/none"], "", 2),
    ] {
        let output = run("guard", &arguments);
        assert_eq!(text(&output.stdout), printed, "{arguments:?}");
        assert_eq!(status(&output), expected, "{arguments:?}");
    }
    let _ = fs::remove_dir_all(&odd);
}

/// Output that cannot be written: a full device, none at all, a folder, a folder that is not there.
#[test]
fn output_that_cannot_be_written() {
    for command in [
        "./check examples/stage-1 >/dev/full",
        "./check examples/stage-2 >/dev/full",
        "./check examples/stage-1 >&-",
        "./check examples/stage-1 -o /dev/full",
        "./check examples/stage-1 -o examples",
        "./check examples/stage-1 -o examples/none/f",
        "./check --help >/dev/full",
        "./guard examples/guard-1 >/dev/full",
        "./guard -e examples/guard-1 >/dev/full",
        "./guard -e examples/guard-1 >&-",
        "./guard --help >/dev/full",
    ] {
        let output = shell(command);
        assert_eq!(status(&output), 2, "{command}");
        assert!(!output.stderr.is_empty(), "{command}");
    }
}

/// A pipe that nobody reads.
#[test]
fn output_without_a_reader() {
    for (script, arguments) in [
        ("check", vec!["examples/stage-1"]),
        ("guard", vec!["-e", "examples/guard-1"]),
    ] {
        let (reader, writer) = UnixStream::pair().expect("a pair");
        drop(reader);
        let output = Command::new(root().join(script))
            .args(&arguments)
            .current_dir(root())
            .stdout(OwnedFd::from(writer))
            .output()
            .expect("a script");
        assert_eq!(status(&output), 2, "{script}");
    }
}

/// What the program says is taken for an answer only where it is one, and the program ended well.
#[test]
fn senseless_text() {
    let bare = Bare::new("senseless");
    let folder = bare.folder.to_str().expect("a path");
    for (lines, expected) in [
        ("echo accepted 1; echo 0A", 0),
        ("echo refused 15 file 3 at 15", 1),
        ("", 2),
        ("echo accepted", 2),
        ("echo accepted 1", 2),
        ("echo acceptable 1; echo 0A", 2),
        ("echo refused", 2),
        ("echo true", 2),
        ("echo accepted 1; echo 0A; exit 1", 2),
    ] {
        bare.put("target/bin/checker", lines);
        let output = bare.run("check", &[folder]);
        assert_eq!(status(&output), expected, "{lines}");
    }
    for (lines, expected, with_e) in [
        ("echo true", 0, 0),
        ("echo false", 0, 1),
        ("echo refused 7 file 4 at 0", 1, 2),
        ("", 2, 2),
        ("echo truth", 2, 2),
        ("echo true; echo false", 2, 2),
        ("echo refused", 2, 2),
        ("echo accepted 1; echo 0A", 2, 2),
        ("echo true; exit 1", 2, 2),
        ("echo true; kill -9 $$", 2, 2),
    ] {
        bare.put("target/bin/guard", lines);
        let output = bare.run("guard", &[folder]);
        assert_eq!(status(&output), expected, "{lines}");
        let output = bare.run("guard", &["-e", folder]);
        assert_eq!(status(&output), with_e, "-e, {lines}");
    }
}

/// Help is given on the standard output, by a link to a script too, and nothing is built for it.
#[test]
fn help() {
    let bare = Bare::new("help");
    for script in SCRIPTS {
        let link = format!("tools/{script}");
        symlink(bare.folder.join(script), bare.folder.join(&link)).expect("a link");
        for (path, option) in [(script, "--help"), (script, "-h"), (&link, "--help")] {
            let output = bare.run(path, &[option]);
            let usage = format!("\nusage: ./{script}");
            assert!(text(&output.stdout).contains(&usage), "{path} {option}");
            assert!(output.stderr.is_empty(), "{path} {option}");
            assert_eq!(status(&output), 0, "{path} {option}");
        }
    }
}

/// A link to a script runs it, from another folder, and a link to the link.
#[test]
fn links() {
    let folder = own_folder("links");
    for (script, argument, printed) in [
        ("check", "stage-2", "refused 15 file 3 at 15\n"),
        ("guard", "guard-1", "true\n"),
    ] {
        let target = fs::canonicalize(root().join(script)).expect("a script");
        let (link, second) = (folder.join(script), folder.join(format!("{script}-2")));
        symlink(target, &link).expect("a link");
        symlink(script, &second).expect("a link");
        let argument = fs::canonicalize(root().join("examples").join(argument)).expect("a folder");
        for path in [link, second] {
            let output = Command::new(&path)
                .arg(&argument)
                .current_dir(&folder)
                .output()
                .expect("the link");
            assert_eq!(text(&output.stdout), printed, "{}", path.display());
        }
    }
    let _ = fs::remove_dir_all(&folder);
}

/// What is wrong is said: no such folder, and a file that counts as empty. What the program prints stays.
#[test]
fn told_on_stderr() {
    for script in ["check", "guard"] {
        let output = run(script, &["examples/none"]);
        assert_eq!(text(&output.stderr), "examples/none: no such folder\n");
        assert!(output.stdout.is_empty());
    }
    let folder = own_folder("told");
    let path = folder.to_str().expect("a path");
    copy_files("stage-1", &["a", "p"], &folder);
    copy_files("guard-1", &["f"], &folder);
    fs::create_dir(folder.join("v")).expect("a folder");
    for (script, printed, told) in [
        ("check", "refused 2 file 2 at 0\n", "b is not there"),
        ("guard", "refused 7 file 4 at 0\n", "v cannot be read"),
    ] {
        let output = run(script, &[path]);
        assert_eq!(status(&output), 1);
        assert_eq!(text(&output.stdout), printed);
        let told = format!("{path}/{told}, counts as empty\n");
        assert_eq!(text(&output.stderr), told);
    }
    fs::write(folder.join("b"), b"").expect("a file");
    let output = run("check", &[path]);
    assert_eq!(text(&output.stdout), "refused 2 file 2 at 0\n");
    assert!(output.stderr.is_empty());
    let _ = fs::remove_dir_all(&folder);
}

/// Where rt is missing, or clang for ./fuzz, that is said, and the status is neither an acceptance nor a refusal.
#[test]
fn without_the_kit() {
    let bare = Bare::new("kit");
    let folder = bare.folder.to_str().expect("a path");
    for script in SCRIPTS {
        let arguments = match script {
            "check" | "guard" => vec![folder],
            _ => vec![],
        };
        let output = bare.run(script, &arguments);
        let missing = if script == "fuzz" { "clang" } else { "rt" };
        let told = format!("{missing} is not there: ./{script} needs ");
        assert!(text(&output.stderr).starts_with(&told), "{script}");
        assert!(output.stdout.is_empty(), "{script}");
        assert_eq!(status(&output), 2, "{script}");
    }
}

/// What is built is said. A build that fails is no refusal, no difference and no false: the status is 2.
#[test]
fn builds() {
    let bare = Bare::new("builds");
    let folder = bare.folder.to_str().expect("a path");
    bare.put("tools/clang", "exit 1");
    bare.put("tools/rt", "echo not proved; exit 1");
    for script in ["check", "guard"] {
        let output = bare.run(script, &[folder]);
        assert_eq!(status(&output), 2, "{script}");
        assert!(output.stdout.is_empty(), "{script}");
    }
    let library = "building target/staticlib/libdulgaverk.a";
    let others = ["compare", "bench", "fuzz"];
    for script in others {
        let output = bare.run(script, &[]);
        let told = text(&output.stderr);
        assert!(told.starts_with(library), "{told}");
        assert!(told.ends_with("\nnot proved\n"), "{told}");
        assert_eq!(status(&output), 2, "{script}");
    }
    bare.put("tools/rt", "");
    bare.put("tools/cargo", "exit 1");
    for script in others {
        let output = bare.run(script, &[]);
        let told = text(&output.stderr);
        assert!(told.starts_with(library), "{told}");
        let package = format!("\nbuilding rust/{script}\n");
        assert!(told.ends_with(&package), "{told}");
        assert_eq!(status(&output), 2, "{script}");
    }
}

/// The other scripts say that they are used wrongly before they build anything.
#[test]
fn other_scripts_used_wrongly() {
    let bare = Bare::new("wrong");
    for (script, arguments) in [
        ("compare", vec!["x"]),
        ("compare", vec![""]),
        ("compare", vec!["1", "-1"]),
        ("compare", vec!["1", "2", "3"]),
        ("bench", vec!["--writes"]),
        ("bench", vec!["3", "--write"]),
        ("bench", vec!["--write", "3", "3"]),
        ("bench", vec!["lists", "--write"]),
        ("bench", vec!["3", "lists"]),
        ("bench", vec!["--write", "lists", "3", "3"]),
        ("fuzz", vec!["1s"]),
        ("fuzz", vec!["1", "2"]),
        ("trial", vec!["1", "x"]),
        ("test", vec!["checker"]),
    ] {
        let output = bare.run(script, &arguments);
        let usage = format!("usage: ./{script}");
        assert!(
            text(&output.stderr).starts_with(&usage),
            "{script} {arguments:?}"
        );
        assert_eq!(status(&output), 2, "{script} {arguments:?}");
    }
}

/// -o writes the bytes that are printed; a refusal, and wrong use, leave the file alone.
#[test]
fn formula_file() {
    let path = own("f");
    let file = path.to_str().expect("a path");
    fs::write(&path, b"before").expect("a file");
    for arguments in [
        vec!["examples/stage-2", "-o", file],
        vec!["examples/none", "-o", file],
    ] {
        assert_ne!(status(&run("check", &arguments)), 0);
        assert_eq!(fs::read(&path).expect("the file"), b"before");
    }
    for stage in [
        "stage-1",
        "stage-5",
        "stage-6",
        "stage-9",
        "stage-10",
        "stage-four-bytes",
    ] {
        let folder = format!("examples/{stage}");
        let output = run("check", &[&folder, "-o", file]);
        assert_eq!(status(&output), 0);
        let text = String::from_utf8(output.stdout).expect("text");
        let hex: String = fs::read(&path)
            .expect("the file")
            .iter()
            .map(|byte| format!("{byte:02X}"))
            .collect();
        assert_eq!(text.lines().nth(1), Some(hex.as_str()), "{stage}");
    }
    let _ = fs::remove_file(&path);
}

/// The guards under examples/ print what their file `expected` has.
#[test]
fn example_guards() {
    let mut seen = 0;
    for entry in fs::read_dir(root().join("examples")).expect("examples/") {
        let path = entry.expect("an entry").path();
        if path.join("v").is_file() {
            let output = run("guard", &[path.to_str().expect("a path")]);
            let expected = fs::read_to_string(path.join("expected")).expect("a file");
            assert_eq!(String::from_utf8_lossy(&output.stdout), expected);
            seen += 1;
        }
    }
    assert_eq!(seen, 5);
}

/// The stage of four-byte numbers from end to end: the formula that ./check writes is the one that ./guard tests.
#[test]
fn four_byte_stage_and_its_guard() {
    let path = own("four-bytes");
    let file = path.to_str().expect("a path");
    let output = run("check", &["examples/stage-four-bytes", "-o", file]);
    assert_eq!(status(&output), 0);
    let guard = fs::read(root().join("examples/guard-four-bytes/f")).expect("a file");
    assert_eq!(fs::read(&path).expect("the file"), guard);
    let _ = fs::remove_file(&path);
}
