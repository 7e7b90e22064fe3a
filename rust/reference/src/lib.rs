//! Independent checker of interpolating proofs over linear integer
//! constraints, written from documents 01 and 02 alone.
//!
//! It is what another implementation is compared with, so it is built
//! differently from the paper's own words where they are recursive: the
//! proof is read once from front to back with a stack of open steps,
//! the lines of the current branch stand in one flat list, and the
//! interpolant is written down in the order in which its parts arise, which
//! is already the order of the formula file.
//!
//! Every function is total: whatever bytes and numbers it is given, it
//! answers, and a refusal leaves every lent buffer as it was.

#![forbid(unsafe_code)]

mod answer;
mod bundle;
mod check;
mod edition;
mod field;
mod formula;
mod guards;
mod header;
mod line;
mod list;
mod print;
mod scheduler;
mod search;
mod short;
mod shorten;
mod show;
mod turn;

pub use answer::{meaning, Answer, NONE, NOT_GIVEN};
pub use bundle::{read_bundle, write_bundle, ReadResult, WriteResult};
pub use check::check;
pub use edition::Edition;
pub use formula::{test_formula, TestResult};
pub use guards::guards;
pub use list::test_list;
pub use print::{print, print_words};
pub use scheduler::{Parts, Scheduler};
pub use search::search_next_proof;
pub use short::{next_proof, ShortProofs};
pub use shorten::{shorten, ShortenResult};
pub use show::{show, show_answer};
pub use turn::{turn_bundle, turn_proof};

/// The limits that the paper sets; `Edition` has those that go by the edition.
pub mod limits {
    /// Most constants of a file.
    pub const CONSTANTS: usize = 16;
    /// Most constraints of a bundle.
    pub const CONSTRAINTS: usize = 32;
    /// Most stages of a run.
    pub const STAGES: usize = 16;
    /// Most constraints of a run, of all its stages together.
    pub const RUN_CONSTRAINTS: usize = 64;
    /// Most rows of a proof.
    pub const ROWS: usize = 1_024;
    /// Most strengthens, roundings and splits open at once.
    pub const STEPS: usize = 32;
    /// The most that a rounding may round by.
    pub const ROUNDING: u16 = 16;
    /// Most levels of and/or in a formula that is tested. A check cannot write
    /// more than 32 times 17.
    pub const LEVELS: usize = 600;
    /// Most bytes of a bundle of any edition.
    pub const BUNDLE_BYTES: usize = 8_192;
    /// Most bytes of a proof.
    pub const PROOF_BYTES: usize = 65_536;
    /// Most bytes of a formula, written or tested.
    pub const FORMULA_BYTES: usize = 65_536;
    /// Largest number in a line, and with a minus sign the smallest.
    pub const NUMBER: i64 = 2_147_483_647;
    /// Largest register value in a test, and with a minus sign the smallest.
    pub const VALUE: i32 = 1_000_000;
}
