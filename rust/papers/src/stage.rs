//! A folder with a stage or a chain, and what the independent checker answers.

use reference::{check, read_bundle, Answer};
use std::fs;
use std::path::Path;

/// What a constraint says of its form, by its number in lists.
#[derive(Clone, Copy, PartialEq, Eq, Debug)]
pub enum Kind {
    AtMostZero,
    Zero,
    NotZero,
}

/// A constraint of a bundle: K coefficients, then d.
#[derive(Clone, PartialEq, Eq, Debug)]
pub struct Constraint {
    pub kind: Kind,
    pub form: Vec<i32>,
}

/// The files of a folder, and the names of its constants.
pub struct Stage {
    pub constants: Vec<String>,
    pub a: Vec<u8>,
    pub b: Vec<u8>,
    pub p: Vec<u8>,
}

impl Stage {
    pub fn read(folder: &Path) -> Stage {
        Stage {
            constants: constants(folder),
            a: file(folder, "a"),
            b: file(folder, "b"),
            p: file(folder, "p"),
        }
    }

    /// The formula's file, or the refusal.
    pub fn check(&self) -> Result<Vec<u8>, Answer> {
        let mut out = vec![0; reference::limits::FORMULA_BYTES];
        let result = check(&self.a, &self.b, &self.p, &mut out);
        if result.answer.number != 0 {
            return Err(result.answer);
        }
        out.truncate(result.written);
        Ok(out)
    }

    /// What the check program prints.
    pub fn printed(&self) -> String {
        match self.check() {
            Ok(formula) => accepted(&formula),
            Err(answer) => refused(answer.number, answer.file, answer.place),
        }
    }
}

/// An acceptance as the check program prints it.
pub fn accepted(formula: &[u8]) -> String {
    let digits: String = formula.iter().map(|byte| format!("{byte:02X}")).collect();
    format!("accepted {}\n{digits}\n", formula.len())
}

/// A refusal as the check program prints it.
pub fn refused(number: u8, file: u8, place: usize) -> String {
    format!("refused {number} file {file} at {place}\n")
}

/// A chain T1 .. Tn with one proof for every cut.
pub struct Chain {
    pub constants: Vec<String>,
    /// The bundles t1, t2, ..
    pub stages: Vec<Vec<u8>>,
    pub p: Vec<u8>,
}

impl Chain {
    pub fn read(folder: &Path) -> Chain {
        let stages = (1..)
            .map_while(|i| fs::read(folder.join(format!("t{i}"))).ok())
            .collect();
        Chain {
            constants: constants(folder),
            stages,
            p: file(folder, "p"),
        }
    }

    /// The stage with the first so many bundles as A, the others as B.
    pub fn cut(&self, first: usize) -> Stage {
        let (before, behind) = self.stages.split_at(first);
        Stage {
            constants: self.constants.clone(),
            a: joined(before, &self.p),
            b: joined(behind, &self.p),
            p: self.p.clone(),
        }
    }
}

/// The bytes of both header fields of edition 1.
const HEADER: usize = 8;

/// One bundle with the constraints of several, all without notes. The header is the proof's, which has the same K; both are of
/// edition 1.
fn joined(bundles: &[Vec<u8>], proof: &[u8]) -> Vec<u8> {
    let mut out = proof[..HEADER].to_vec();
    for bundle in bundles {
        assert_eq!(bundle[..HEADER], proof[..HEADER]);
        out.extend_from_slice(&bundle[HEADER..]);
    }
    out
}

/// The constraints of a bundle; none where reading refuses it.
pub fn constraints(bundle: &[u8]) -> Vec<Constraint> {
    let most = reference::limits::CONSTRAINTS;
    let mut kinds = vec![0; most];
    let mut numbers = vec![0; most * (reference::limits::CONSTANTS + 1)];
    let read = read_bundle(bundle, &mut kinds, &mut numbers);
    numbers
        .chunks(read.k + 1)
        .zip(kinds)
        .take(read.count)
        .map(|(form, kind)| Constraint {
            kind: [Kind::AtMostZero, Kind::Zero, Kind::NotZero][usize::from(kind)],
            form: form.to_vec(),
        })
        .collect()
}

fn constants(folder: &Path) -> Vec<String> {
    let text = String::from_utf8(file(folder, "names")).expect("names");
    text.split_whitespace().map(String::from).collect()
}

/// A file of a folder.
pub fn file(folder: &Path, name: &str) -> Vec<u8> {
    let path = folder.join(name);
    fs::read(&path).unwrap_or_else(|error| panic!("{}: {error}", path.display()))
}
