//! Runs of the programs, each in a working directory of its own.
#![allow(dead_code)]

use std::fs;
use std::path::{Path, PathBuf};
use std::process::Command;

/// The repository.
pub fn root() -> PathBuf {
    PathBuf::from(env!("CARGO_MANIFEST_DIR")).join("../..")
}

/// A folder that a program is run in once.
pub struct Folder {
    program: &'static str,
    path: PathBuf,
}

impl Folder {
    pub fn new(program: &'static str, name: &str) -> Folder {
        let path = std::env::temp_dir().join(format!("{program}-{}-{name}", std::process::id()));
        let _ = fs::remove_dir_all(&path);
        fs::create_dir_all(&path).expect("a folder");
        Folder { program, path }
    }

    pub fn path(&self) -> &Path {
        &self.path
    }

    pub fn with(self, name: &str, bytes: &[u8]) -> Folder {
        fs::write(self.path.join(name), bytes).expect("a file");
        self
    }

    /// A directory where a file is looked for.
    pub fn with_folder(self, name: &str) -> Folder {
        fs::create_dir(self.path.join(name)).expect("a folder");
        self
    }

    /// What the program prints.
    pub fn run(self) -> String {
        let output = Command::new(root().join("target/bin").join(self.program))
            .current_dir(&self.path)
            .output()
            .expect("the program, which ./test builds");
        let _ = fs::remove_dir_all(&self.path);
        String::from_utf8(output.stdout).expect("text")
    }

    pub fn prints(self, expected: &str) {
        let path = self.path.clone();
        assert_eq!(self.run(), expected, "{}", path.display());
    }
}
