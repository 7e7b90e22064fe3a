//! The rows of a proof as the text has them: a word, then lines, numbers and other words.

use crate::fields::tag::*;

pub enum Part {
    Line,
    /// What it is, the least and the most that its place holds.
    Number(&'static str, i64, i64),
    Word(&'static str),
}

pub struct Row {
    pub tag: u8,
    pub word: &'static str,
    pub parts: &'static [Part],
}

use Part::{Line, Word};

const MULTIPLIER: Part = Part::Number("a multiplier", 0, 65_535);
const SIGNED: Part = Part::Number("a multiplier", -32_768, 32_767);
const STRIDE_OF: Part = Part::Number("a stride", 0, 65_535);
const ROUNDED: Part = Part::Number("a number", 0, 65_535);

const fn row(tag: u8, word: &'static str, parts: &'static [Part]) -> Row {
    Row { tag, word, parts }
}

pub const ROWS: [Row; 8] = [
    row(COMBINE, "combine", &[Line, Line, MULTIPLIER, MULTIPLIER]),
    row(REDUCE, "reduce", &[Line, Line, SIGNED]),
    row(SCALE, "scale", &[Line, MULTIPLIER]),
    row(STRENGTHEN, "strengthen", &[Line]),
    row(
        ROUND,
        "round",
        &[Line, Word("stride"), STRIDE_OF, Word("by"), ROUNDED],
    ),
    row(SPLIT, "split", &[Line]),
    row(CLOSE, "close", &[Line]),
    row(STRIDE, "close", &[Line, Word("stride"), STRIDE_OF]),
];
