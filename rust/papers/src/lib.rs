//! The source papers' examples as stages, and the stages of docs/WRITING-PROOFS.md: what the independent checker answers to
//! each, both in words, and the tables and examples of the two documents, which `papers --write` makes.
//!
//! The translation to SMT-LIB is a small one of its own, so that a solver judges the formulas apart from every other reader.
#![forbid(unsafe_code)]

pub mod catalogue;
pub mod document;
pub mod families;
pub mod formula;
pub mod listing;
pub mod smt;
pub mod solver;
pub mod stage;
pub mod tables;
pub mod words;

use std::path::PathBuf;

/// The repository.
pub fn root() -> PathBuf {
    PathBuf::from(env!("CARGO_MANIFEST_DIR")).join("../..")
}
