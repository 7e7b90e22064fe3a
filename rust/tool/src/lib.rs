//! The parts of the office's tool. Verdicts and guards come from the verified library; the words around them are made
//! here, and tested.
#![forbid(unsafe_code)]

pub mod check;
pub mod command;
pub mod fields;
pub mod files;
pub mod guard;
pub mod line;
pub mod list;
pub mod look;
pub mod make;
pub mod names;
pub mod parse;
pub mod queue;
pub mod report;
pub mod rows;
pub mod run;
pub mod shorten;
pub mod shown;
pub mod smt;
pub mod steps;
pub mod text;
pub mod tree;
pub mod turn;
pub mod words;

use command::Command;

pub const COMMANDS: [Command; 12] = [
    look::COMMAND,
    make::MAKE,
    make::TEXT,
    check::COMMAND,
    guard::COMMAND,
    smt::COMMAND,
    report::COMMAND,
    turn::COMMAND,
    queue::COMMAND,
    list::COMMAND,
    run::COMMAND,
    shorten::COMMAND,
];
