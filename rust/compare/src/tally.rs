//! How many calls there were, by operation and answer, and where the two sides differed.

use crate::COMPARED;
use reference::{Edition, NOT_GIVEN};
use stages::{Case, Operation};
use std::fmt;

/// A difference is printed with its case; after so many no more are kept.
const KEPT: usize = 10;

/// Answers have numbers below this.
const NUMBERS: usize = 36;

pub struct Tally {
    /// Calls by operation and by number, 0 for accepted.
    calls: [[u64; NUMBERS]; COMPARED.len()],
    /// Refusals of a proof by how many branches they stand inside; the last is for three or more.
    depths: [u64; 4],
    /// Checks that are refused since the formula is too long, and turns since the result is, outputs of several lengths
    /// counted each.
    too_long: [u64; COMPARED.len()],
    /// Checks by the editions of A, B and proof, a bit each that is 1 for edition 2, A's the highest.
    mixes: [u64; 8],
    /// Vectors of the lists that were accepted.
    vectors: u64,
    differences: u64,
    /// The first ones, as lines that say what was called and what the Rust checker answers.
    kept: Vec<String>,
}

impl Default for Tally {
    fn default() -> Tally {
        Tally {
            calls: [[0; NUMBERS]; COMPARED.len()],
            depths: [0; 4],
            too_long: [0; COMPARED.len()],
            mixes: [0; 8],
            vectors: 0,
            differences: 0,
            kept: Vec::new(),
        }
    }
}

impl Tally {
    /// Counts a call. The number that is no longer given counts as a difference, whichever side gave it.
    pub(crate) fn count(&mut self, case: &Case, number: u8, same: bool) {
        self.calls[case.operation() as usize][usize::from(number)] += 1;
        if !same || number == NOT_GIVEN {
            self.differences += 1;
            if self.kept.len() < KEPT {
                self.kept.push(case.print());
            }
        }
    }

    /// Counts a refusal of a proof inside so many branches.
    pub(crate) fn count_depth(&mut self, depth: usize) {
        self.depths[depth.min(3)] += 1;
    }

    /// Counts a call that is refused since what it would write is too long.
    pub(crate) fn count_too_long(&mut self, operation: Operation) {
        self.too_long[operation as usize] += 1;
    }

    /// Counts a check of files in these editions.
    pub(crate) fn count_mix(&mut self, editions: [Edition; 3]) {
        let index = editions.iter().fold(0, |index, &edition| {
            2 * index + usize::from(edition == Edition::Two)
        });
        self.mixes[index] += 1;
    }

    /// Counts the vectors of an accepted list.
    pub(crate) fn count_vectors(&mut self, vectors: usize) {
        self.vectors += vectors as u64;
    }

    /// Vectors at which a formula was tested in lists.
    pub fn vectors(&self) -> u64 {
        self.vectors
    }

    /// Checks by the editions of A, B and proof, from all in edition 1 to all in edition 2.
    pub fn mixes(&self) -> [u64; 8] {
        self.mixes
    }

    /// Calls that were refused since what they would write is too long.
    pub fn too_long(&self, operation: Operation) -> u64 {
        self.too_long[operation as usize]
    }

    /// Refusals of a proof inside so many branches, three for three or more.
    pub fn inside(&self, depth: usize) -> u64 {
        self.depths[depth]
    }

    pub fn calls(&self, operation: Operation) -> u64 {
        self.calls[operation as usize].iter().sum()
    }

    pub fn all_calls(&self) -> u64 {
        self.calls.iter().flatten().sum()
    }

    /// Calls that were answered with a number.
    pub fn answered(&self, operation: Operation, number: u8) -> u64 {
        self.calls[operation as usize][usize::from(number)]
    }

    pub fn differences(&self) -> u64 {
        self.differences
    }
}

impl fmt::Display for Tally {
    fn fmt(&self, f: &mut fmt::Formatter<'_>) -> fmt::Result {
        for operation in COMPARED {
            let calls = &self.calls[operation as usize];
            writeln!(f, "{operation:?}: {} calls", self.calls(operation))?;
            write!(f, "    accepted {}; refused", calls[0])?;
            for (number, count) in calls.iter().enumerate().skip(1) {
                if *count > 0 {
                    write!(f, " {number}: {count}")?;
                }
            }
            writeln!(f)?;
            if operation == Operation::Check {
                let [none, one, two, more] = self.depths;
                writeln!(
                    f,
                    "    refusals of the proof inside no branch: {none} one: {one} two: {two} three or more: {more}"
                )?;
                writeln!(
                    f,
                    "    formulas that are too long: {}",
                    self.too_long(operation)
                )?;
                write!(f, "    editions of A, B and proof:")?;
                for (index, count) in self.mixes.iter().enumerate() {
                    let [a, b, proof] = [4, 2, 1].map(|bit| 1 + usize::from(index & bit != 0));
                    write!(f, " {a}{b}{proof}: {count}")?;
                }
                writeln!(f)?;
            }
            if operation == Operation::TurnProof {
                writeln!(
                    f,
                    "    results that are too long: {}",
                    self.too_long(operation)
                )?;
            }
            if operation == Operation::List {
                writeln!(f, "    vectors of accepted lists: {}", self.vectors)?;
            }
        }
        for line in &self.kept {
            writeln!(f, "differs: {line}")?;
        }
        write!(
            f,
            "{} calls, {} differences",
            self.all_calls(),
            self.differences
        )
    }
}
