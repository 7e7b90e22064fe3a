//! Test cases for check and the other operations, from a seed.
//!
//! `stream` gives an endless row of cases of a chosen operation and class;
//! `list` gives the mixed list that the program prints; `calls::sequence` gives
//! calls at the scheduler, `runs::any` runs of stages, and `unused::pad` proofs
//! with rows that nothing uses.
#![forbid(unsafe_code)]

pub mod build;
pub mod calls;
pub mod case;
pub mod damage;
pub mod deep;
pub mod directed;
pub mod edge;
pub mod editions;
pub mod limit;
mod list;
pub mod other;
pub mod printing;
pub mod rng;
pub mod rounding;
pub mod runs;
pub mod short;
mod stream;
pub mod stride;
pub mod table;
pub mod tie;
pub mod tree;
pub mod turn;
pub mod turning;
pub mod unused;
pub mod vectors;

pub use case::{Case, Operation, Outcome, Output, OPERATIONS};
pub use list::{heavy_list, list, HEAVY};
pub use stream::{stream, Class, Stream, CLASSES};
