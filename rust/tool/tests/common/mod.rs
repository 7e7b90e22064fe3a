//! Runs of the tool, folders of a test's own, and stages.
#![allow(dead_code)]

use stages::table::Size;
use stages::{stream, Case, Class, Operation};
use std::fs;
use std::path::PathBuf;
use std::process::{Command, Output, Stdio};

/// The repository.
pub fn root() -> PathBuf {
    PathBuf::from(env!("CARGO_MANIFEST_DIR")).join("../..")
}

pub fn command(arguments: &[&str]) -> Command {
    let mut command = Command::new(env!("CARGO_BIN_EXE_dulgaverk"));
    let command_here = command.args(arguments).current_dir(root());
    command_here.stdin(Stdio::null());
    command
}

/// What the tool prints in the repository with these arguments, what it tells, and its status.
pub fn run(arguments: &[&str]) -> (String, String, i32) {
    told(&command(arguments).output().expect("the tool"))
}

pub fn told(output: &Output) -> (String, String, i32) {
    let text = |bytes: &Vec<u8>| String::from_utf8(bytes.clone()).expect("text");
    let status = output.status.code().expect("a status");
    (text(&output.stdout), text(&output.stderr), status)
}

/// A folder that is removed with the value.
pub struct Folder(pub PathBuf);

impl Folder {
    pub fn new(name: &str) -> Folder {
        let path = std::env::temp_dir().join(format!("tool-{}-{name}", std::process::id()));
        let _ = fs::remove_dir_all(&path);
        fs::create_dir_all(&path).expect("a folder");
        Folder(path)
    }

    /// A path inside it.
    pub fn at(&self, name: &str) -> String {
        self.0.join(name).to_str().expect("a path").into()
    }

    /// A file in it.
    pub fn file(&self, name: &str, bytes: &[u8]) -> String {
        fs::write(self.0.join(name), bytes).expect("a file");
        self.at(name)
    }

    /// A stage in it.
    pub fn stage(&self, name: &str, files: &[Vec<u8>; 3]) -> String {
        fs::create_dir_all(self.0.join(name)).expect("a folder");
        for (file, bytes) in ["a", "b", "p"].iter().zip(files) {
            self.file(&format!("{name}/{file}"), bytes);
        }
        self.at(name)
    }
}

impl Drop for Folder {
    fn drop(&mut self) {
        let _ = fs::remove_dir_all(&self.0);
    }
}

/// The folders of stages under examples/, by name.
pub fn examples() -> Vec<PathBuf> {
    let entries = fs::read_dir(root().join("examples")).expect("examples/");
    let paths = entries.map(|entry| entry.expect("an entry").path());
    let mut found: Vec<PathBuf> = paths.filter(|path| path.join("p").is_file()).collect();
    found.sort();
    assert!(found.len() >= 36);
    found
}

/// The stages of a class.
pub fn some(class: Class, size: Size, seed: u64, count: usize) -> Vec<[Vec<u8>; 3]> {
    let cases = stream(Operation::Check, class, size, seed).take(count);
    let files = cases.map(|case| match case {
        Case::Check { a, b, proof, .. } => [a, b, proof],
        other => panic!("{other:?}"),
    });
    files.collect()
}
