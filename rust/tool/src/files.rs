//! The files of a folder: reading them, and writing them all or none.

use crate::fields::{File, Sort};
use crate::{command, names};
use dulgaverk::Refusal;
use std::fs;
use std::io::{self, Read};
use std::path::{Path, PathBuf};

/// Most bytes that are read of a file: one more than the format allows, so that the library sees what is too long.
pub const MOST: usize = dulgaverk::FORMULA + 1;
/// Most bytes of a text.
const TEXT: usize = 16 << 20;

/// A stage's files, and what the verified check says of them.
pub struct Stage {
    pub a: File,
    pub b: File,
    pub p: File,
    pub verdict: Result<Vec<u8>, Refusal>,
    /// Which files cannot be read, and count as empty.
    pub missing: Vec<String>,
}

impl Stage {
    pub fn of(a: Vec<u8>, b: Vec<u8>, p: Vec<u8>) -> Stage {
        Stage {
            verdict: dulgaverk::check(&a, &b, &p),
            a: File::read(Sort::Bundle, a),
            b: File::read(Sort::Bundle, b),
            p: File::read(Sort::Proof, p),
            missing: Vec::new(),
        }
    }

    pub fn read(folder: &Path) -> Result<Stage, String> {
        is_folder(folder)?;
        let mut missing = Vec::new();
        let mut file = |name: &str| {
            let path = folder.join(name);
            read(&path, MOST).unwrap_or_else(|error| {
                let why = match error.kind() {
                    io::ErrorKind::NotFound => "is not there".into(),
                    _ => format!("cannot be read ({error})"),
                };
                missing.push(format!("{} {why}", path.display()));
                Vec::new()
            })
        };
        let (a, b, p) = (file("a"), file("b"), file("p"));
        let stage = Stage::of(a, b, p);
        Ok(Stage { missing, ..stage })
    }

    /// The stage of a folder with its registers' names; what counts as empty is told.
    pub fn open(folder: &Path) -> Result<(Stage, Vec<String>), String> {
        let stage = Stage::read(folder)?;
        stage.tell();
        let names = names::read(folder, stage.a.constants.max(stage.b.constants))?;
        Ok((stage, names))
    }

    pub fn tell(&self) {
        for file in &self.missing {
            command::tell(&format!("{file}, counts as empty"));
        }
    }

    /// Up to which byte of the proof its rows have been found right.
    pub fn right_until(&self) -> usize {
        match &self.verdict {
            Err(refusal) if refusal.file < 3 => 0,
            Err(refusal) if refusal.file == 3 => refusal.place,
            _ => usize::MAX,
        }
    }
}

pub fn is_folder(path: &Path) -> Result<(), String> {
    let shown = path.display();
    match fs::metadata(path) {
        Ok(found) if found.is_dir() => Ok(()),
        Ok(_) => Err(format!("{shown}: not a folder")),
        Err(error) if error.kind() == io::ErrorKind::NotFound => {
            Err(format!("{shown}: no such folder"))
        }
        Err(error) => Err(format!("{shown}: {error}")),
    }
}

/// The first bytes of a file.
pub fn read(path: &Path, most: usize) -> io::Result<Vec<u8>> {
    let mut bytes = Vec::new();
    let file = fs::File::open(path)?;
    file.take(most as u64).read_to_end(&mut bytes)?;
    Ok(bytes)
}

/// A file that has to be there.
pub fn required(path: &Path) -> Result<Vec<u8>, String> {
    read(path, MOST).map_err(|error| format!("{}: {error}", path.display()))
}

/// A text file, whole; `-` is the standard input.
pub fn text(path: &Path) -> Result<String, String> {
    let shown = path.display();
    let bytes = match path.to_str() {
        Some("-") => {
            let mut bytes = Vec::new();
            let mut input = io::stdin().take(TEXT as u64 + 1);
            input.read_to_end(&mut bytes).map(|_| bytes)
        }
        _ => read(path, TEXT + 1),
    };
    let bytes = bytes.map_err(|error| format!("{shown}: {error}"))?;
    if bytes.len() > TEXT {
        return Err(format!("{shown}: longer than {TEXT} bytes"));
    }
    String::from_utf8(bytes).map_err(|error| {
        let place = error.utf8_error().valid_up_to();
        format!("{shown}: no text: the byte at {place} is no UTF-8")
    })
}

/// Writes files into a folder, which is made where there is none: each beside its place first, and only then all in place.
pub fn write(folder: &Path, files: &[(&str, Vec<u8>)]) -> Result<(), String> {
    let shown = folder.display();
    let is_new = !folder.exists();
    fs::create_dir_all(folder).map_err(|error| format!("{shown}: cannot be made: {error}"))?;
    let beside = |name: &str| folder.join(format!(".{name}.{}.new", std::process::id()));
    let cannot =
        |path: PathBuf, error: io::Error| format!("{}: cannot be written: {error}", path.display());
    let written = files.iter().try_for_each(|(name, bytes)| {
        let path = folder.join(name);
        if path.is_dir() {
            return Err(format!("{}: is a folder", path.display()));
        }
        fs::write(beside(name), bytes).map_err(|error| cannot(path, error))
    });
    let placed = written.and_then(|()| {
        files.iter().try_for_each(|(name, _)| {
            let path = folder.join(name);
            fs::rename(beside(name), &path).map_err(|error| cannot(path, error))
        })
    });
    if placed.is_err() {
        files.iter().for_each(|(name, _)| {
            let _ = fs::remove_file(beside(name));
        });
        if is_new {
            let _ = fs::remove_dir(folder);
        }
    }
    placed
}

/// Writes the files of a stage that was made of another, with that one's names.
pub fn write_stage(from: &Path, folder: &Path, files: &[(&str, Vec<u8>)]) -> Result<(), String> {
    let mut files = files.to_vec();
    let names = from.join("names");
    if names.is_file() {
        files.push(("names", required(&names)?));
    }
    write(folder, &files)
}
