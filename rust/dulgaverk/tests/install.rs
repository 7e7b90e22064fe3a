//! ./install: what it puts where, used as others use it, and that it puts nothing there where something is wrong.

mod common;
use common::root;

use std::fs;
use std::os::unix::fs::symlink;
use std::path::{Path, PathBuf};
use std::process::{Command, Output};

/// A folder of this test's own, gone at its end.
struct Own(PathBuf);

impl Own {
    fn new(name: &str) -> Own {
        let path = std::env::temp_dir().join(format!("install-{}-{name}", std::process::id()));
        let _ = fs::remove_dir_all(&path);
        fs::create_dir_all(&path).expect("a folder");
        Own(path)
    }

    fn at(&self, name: &str) -> String {
        self.0.join(name).to_str().expect("a path").to_string()
    }

    /// A program of a few lines. A shell writes it, so that no other test has it open when it is run.
    fn program(&self, name: &str, lines: &str) {
        let line = format!(
            "printf '#!/bin/sh\\n%s\\n' '{lines}' >'{0}'; chmod +x '{0}'",
            self.at(name)
        );
        succeeds(&line);
    }
}

impl Drop for Own {
    fn drop(&mut self) {
        let _ = fs::remove_dir_all(&self.0);
    }
}

/// What a shell does in the root.
fn shell(line: &str) -> Output {
    let mut command = Command::new("sh");
    command.args(["-c", line]).current_dir(root());
    command.output().expect("a shell")
}

fn text(bytes: &[u8]) -> String {
    String::from_utf8_lossy(bytes).into_owned()
}

fn fails(output: &Output) -> String {
    assert_eq!(output.status.code(), Some(2), "{output:?}");
    assert!(output.stdout.is_empty(), "{output:?}");
    text(&output.stderr)
}

/// What a shell prints, which has to succeed.
fn succeeds(line: &str) -> String {
    let output = shell(line);
    let told = text(&output.stderr);
    assert!(output.status.success(), "{line}\n{told}");
    text(&output.stdout)
}

/// Whether a program is at hand; where it is not, that is said.
fn is_there(program: &str) -> bool {
    let found = shell(&format!("command -v {program}")).status.success();
    if !found {
        println!("no {program} here");
    }
    found
}

/// The files below a folder; none where it is not there.
fn files(folder: &Path) -> Vec<PathBuf> {
    let mut all = Vec::new();
    for entry in fs::read_dir(folder).into_iter().flatten() {
        let path = entry.expect("an entry").path();
        if path.is_dir() {
            all.extend(files(&path));
        } else {
            all.push(path);
        }
    }
    all
}

#[test]
fn used_wrongly() {
    for line in ["./install", "./install ''", "./install a b", "./install -x"] {
        assert_eq!(fails(&shell(line)), "usage: ./install PREFIX\n", "{line}");
    }
    assert!(succeeds("./install --help").contains("\nusage: ./install PREFIX\n"));
}

/// A compiler that fails, a file in the place of a folder and a folder in the place of a file: no file is put anywhere.
#[test]
fn all_or_nothing() {
    let own = Own::new("nothing");
    own.program("cc", "exit 1");
    let (prefix, path) = (own.at("prefix"), own.at(""));
    fails(&shell(&format!("PATH='{path}':$PATH ./install '{prefix}'")));
    assert!(files(Path::new(&prefix)).is_empty());

    fails(&shell("./install README.md"));
    fails(&shell("./install README.md/inside"));

    fs::create_dir_all(own.at("prefix/lib/python/dulgaverk.py")).expect("a folder");
    let told = fails(&shell(&format!("./install '{prefix}'")));
    let expected = format!("{prefix}/lib/python/dulgaverk.py is a folder\n");
    assert!(told.ends_with(&expected), "{told}");
    assert!(files(Path::new(&prefix)).is_empty());
    let left = fs::read_dir(&prefix).expect("the folder").count();
    assert_eq!(left, 3, "bin, lib and include");
}

/// Without a compiler, and without the kit where something has to be built: that is said. A copy of the script has no program.
#[test]
fn without_tools() {
    let own = Own::new("tools");
    for folder in ["scripts", "crates", "tools"] {
        fs::create_dir_all(own.at(folder)).expect("a folder");
    }
    for file in ["install", "scripts/program.sh", "crates.txt"] {
        fs::copy(root().join(file), own.at(file)).expect("a file");
    }
    for tool in ["sh", "readlink", "sed", "find", "head"] {
        let found = succeeds(&format!("command -v {tool}"));
        symlink(found.trim_end(), own.at("tools").to_string() + "/" + tool).expect("a link");
    }
    let line = format!(
        "PATH='{}' '{}' '{}'",
        own.at("tools"),
        own.at("install"),
        own.at("prefix")
    );
    let told = fails(&shell(&line));
    assert_eq!(told, "cc is not there: ./install needs a C compiler\n");
    own.program("tools/cc", "exit 0");
    let told = fails(&shell(&line));
    assert!(
        told.starts_with("rt is not there: ./install needs "),
        "{told}"
    );
    assert!(!Path::new(&own.at("prefix")).exists());
}

/// Below a folder with a blank in its name, twice, what is installed is used: programs, C by pkg-config, Python.
#[test]
fn installed() {
    let own = Own::new("with blank");
    let prefix = own.at("prefix");
    for _ in 0..2 {
        let printed = succeeds(&format!("./install '{prefix}'"));
        assert_eq!(printed, format!("installed below {prefix}\n"));
    }
    let tool = root().join("rust/tool").is_dir();
    assert_eq!(files(Path::new(&prefix)).len(), 7 + usize::from(tool));
    let run = |folder: &str, program: &str| {
        succeeds(&format!("cd examples/{folder} && '{prefix}/bin/{program}'"))
    };
    assert_eq!(
        run("stage-2", "dulgaverk-checker"),
        "refused 15 file 3 at 15\n"
    );
    assert_eq!(run("guard-1", "dulgaverk-guard"), "true\n");
    if tool {
        let help = succeeds(&format!("'{prefix}/bin/dulgaverk' --help"));
        assert!(help.contains("usage: dulgaverk "), "{help}");
    }
    by_pkg_config(&own, &prefix);
    by_python(&prefix);
}

/// The program that calls every function, over the .so and over the .a.
fn by_pkg_config(own: &Own, prefix: &str) {
    if !is_there("pkg-config") {
        return;
    }
    let source = "rust/dulgaverk/tests/c/boundary.c";
    let program = own.at("program");
    let export = format!("export PKG_CONFIG_PATH='{prefix}/lib/pkgconfig'; ");
    for (option, path) in [("", format!("{prefix}/lib")), ("-static", String::new())] {
        let compile =
            format!("eval cc {option} -o \"'{program}'\" {source} \"$(pkg-config --cflags --libs dulgaverk)\"");
        let line = format!("{export}{compile} && LD_LIBRARY_PATH='{path}' '{program}'");
        succeeds(&line);
    }
}

/// The module against the examples; its words are those of the library.
fn by_python(prefix: &str) {
    let module = fs::read_to_string(root().join("python/dulgaverk.py")).expect("the module");
    for (number, meaning) in dulgaverk::MEANINGS {
        let line = format!("    {number}: \"{meaning}\",\n");
        assert!(module.contains(&line), "{line}");
    }
    if !is_there("python3") {
        return;
    }
    let printed = succeeds(&format!(
        "PYTHONPATH='{prefix}/lib/python' python3 -B python/tests/test_dulgaverk.py examples"
    ));
    let stages = fs::read_dir(root().join("examples")).expect("examples/");
    let stages = stages
        .filter(|entry| entry.as_ref().expect("an entry").path().join("p").is_file())
        .count();
    assert_eq!(printed, format!("{stages} stages as expected\n"));
}

/// The blocks of a language in README.
fn readme_blocks(language: &str) -> Vec<String> {
    let readme = fs::read_to_string(root().join("README.md")).expect("README.md");
    let mut parts = readme.split("\n```");
    let mut blocks = Vec::new();
    parts.next();
    while let (Some(block), Some(_)) = (parts.next(), parts.next()) {
        let (tag, inside) = block.split_once('\n').expect("a block");
        if tag == language {
            blocks.push(format!("{inside}\n"));
        }
    }
    blocks
}

/// The one block of a language.
fn readme_block(language: &str) -> String {
    let blocks = readme_blocks(language);
    assert_eq!(blocks.len(), 1, "{language}");
    blocks.concat()
}

/// README's blocks do what is said there, below a folder of this test's own in the place of /opt/dulgaverk.
#[test]
fn readme_blocks_run() {
    let own = Own::new("readme");
    let prefix = own.at("prefix");
    let guard = "2 divides 1*r1\n";
    if is_there("pkg-config") {
        let lines = readme_block("sh");
        assert!(lines.contains("./install /opt/dulgaverk\n"));
        let lines = lines.replace("/opt/dulgaverk", &prefix);
        let lines = lines.replace("/tmp/check", &own.at("check"));
        let printed = succeeds(&format!("set -e\n{lines}"));
        assert_eq!(printed, format!("installed below {prefix}\n{guard}"));
    }
    if is_there("python3") {
        succeeds(&format!("./install '{prefix}'"));
        fs::write(own.at("check.py"), readme_block("python")).expect("a file");
        let line = format!(
            "PYTHONPATH='{prefix}/lib/python' python3 -B '{}'",
            own.at("check.py")
        );
        assert_eq!(succeeds(&line), guard);
    }
    let here = fs::canonicalize(root()).expect("the repository");
    let dependency = readme_block("toml").replace("/src/dulgaverk", here.to_str().expect("a path"));
    let package = "[package]\nname = \"own\"\nversion = \"0.1.0\"\nedition = \"2021\"\n\n";
    fs::create_dir_all(own.at("own/src")).expect("a folder");
    fs::write(own.at("own/Cargo.toml"), format!("{package}{dependency}")).expect("a file");
    fs::write(own.at("own/src/main.rs"), readme_block("rust")).expect("a file");
    let line = format!(
        "CARGO_TARGET_DIR='{}' cargo run -q --offline --manifest-path '{}'",
        own.at("target"),
        own.at("own/Cargo.toml")
    );
    assert_eq!(succeeds(&line), guard);
}
