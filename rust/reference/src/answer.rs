//! Answers: accepted, or a refusal with its number, file and place, and where
//! in the tree of the proof it stands.

/// What a row, step or branch is where there is none.
pub const NONE: u16 = 65_535;

/// What an operation answers. Accepted is 0, 0, 0 and no row, step or branch.
#[derive(Clone, Copy, PartialEq, Eq, Debug)]
pub struct Answer {
    /// 0 for accepted, else the number of the refusal.
    pub number: u8,
    /// A or a bundle read alone 1, B 2, proof or formula 3, no file or a lent output 4; stage i of a run 10 + i.
    pub file: u8,
    /// The byte at which the field at fault starts, if nothing else is said.
    pub place: usize,
    /// The number of the row at fault; a claim belongs to the row before it.
    /// `NONE` for what check tests before the count of rows, or at the end.
    pub row: u16,
    /// The row number of the innermost step that is open there, and
    /// which of its branches that is, from 0. `NONE` outside every branch.
    pub step: u16,
    pub branch: u16,
}

impl Answer {
    pub(crate) const ACCEPTED: Answer = Answer {
        number: 0,
        file: 0,
        place: 0,
        row: NONE,
        step: NONE,
        branch: NONE,
    };

    /// A refusal outside every row and branch.
    pub(crate) fn refused(number: u8, file: u8, place: usize) -> Answer {
        Answer {
            number,
            file,
            place,
            ..Answer::ACCEPTED
        }
    }
}

pub(crate) const FILE_A: u8 = 1;
pub(crate) const FILE_B: u8 = 2;
/// The proof, or a formula that is tested.
pub(crate) const FILE_PROOF: u8 = 3;
/// A lent output, and whatever concerns no file.
pub(crate) const FILE_OUTPUT: u8 = 4;

pub(crate) const TOO_LONG: u8 = 1;
pub(crate) const NOT_WHOLE: u8 = 2;
pub(crate) const UNKNOWN_TAG: u8 = 3;
pub(crate) const OUT_OF_PLACE: u8 = 4;
pub(crate) const WRONG_EDITION: u8 = 5;
pub(crate) const WRONG_LENGTH: u8 = 6;
pub(crate) const WRONG_K: u8 = 7;
pub(crate) const TOO_MANY_CONSTRAINTS: u8 = 8;
pub(crate) const OTHER_K: u8 = 9;
pub(crate) const NO_SUCH_LINE: u8 = 10;
pub(crate) const WRONG_KIND: u8 = 11;
pub(crate) const WRONG_MULTIPLIER: u8 = 12;
pub(crate) const OUT_OF_RANGE: u8 = 13;
pub(crate) const CLAIM_DIFFERS: u8 = 14;
pub(crate) const NOT_MET: u8 = 15;
pub(crate) const TOO_MANY_LINES: u8 = 16;
pub(crate) const TOO_DEEP: u8 = 17;
pub(crate) const TOO_MANY_ROWS: u8 = 18;
pub(crate) const AFTER_THE_END: u8 = 19;
pub(crate) const STILL_OPEN: u8 = 20;
pub(crate) const OUTPUT_TOO_SHORT: u8 = 21;
/// Was for a close whose formula would name a constant not occurring in both
/// bundles, which cannot be. Nothing gives it, and nothing else may have it.
pub const NOT_GIVEN: u8 = 22;
pub(crate) const VALUE_OUT_OF_RANGE: u8 = 23;
pub(crate) const WRONG_LIST: u8 = 24;
pub(crate) const WRONG_LENGTHS: u8 = 25;
pub(crate) const TOO_MANY_IN_A_RUN: u8 = 26;
pub(crate) const CLAIM_IN_A_RUN: u8 = 27;
pub(crate) const UNLIKE_BRANCHES: u8 = 28;
pub(crate) const NO_SEAT: u8 = 29;
pub(crate) const OCCUPIED: u8 = 30;
pub(crate) const EMPTY: u8 = 31;
pub(crate) const NO_SHORT_PROOF: u8 = 32;
pub(crate) const NO_NEXT: u8 = 33;
pub(crate) const OUTSIDE: u8 = 34;
/// Not of the paper: a turn without a job says idle, and that is no acceptance.
pub(crate) const IDLE: u8 = 35;

/// The meaning of an answer's number in words.
pub fn meaning(number: u8) -> &'static str {
    match number {
        0 => "accepted",
        TOO_LONG => "a file is too long, or the formula would be",
        NOT_WHOLE => "a field runs past the end of the file, or the file ends unfinished",
        UNKNOWN_TAG => "a tag below 0x80 that this kind of file does not have",
        OUT_OF_PLACE => "a known tag out of place",
        WRONG_EDITION => "an edition that this kind of file does not have",
        WRONG_LENGTH => "a field of the wrong length",
        WRONG_K => "the number of constants or values is outside 1 to 16",
        TOO_MANY_CONSTRAINTS => "a 33rd constraint, or for short proofs a fifth in both bundles",
        OTHER_K => "the number of constants is not the one already given",
        NO_SUCH_LINE => "a line that is not there",
        WRONG_KIND => "a line of the wrong kind",
        WRONG_MULTIPLIER => {
            "a multiplier of 0, a stride below 2, or a rounding by 0 or more than 16"
        }
        OUT_OF_RANGE => "a number of a new line, or of a bundle, is out of range",
        CLAIM_DIFFERS => "a claim that differs from the new line",
        NOT_MET => "a close or rounding whose condition is not met",
        TOO_MANY_LINES => "a 129th line on a branch, or in edition 2 a 1,001st",
        TOO_DEEP => "a 33rd open step, or a 601st level of and/or",
        TOO_MANY_ROWS => "a 1,025th row",
        AFTER_THE_END => "a known field after the root is closed",
        STILL_OPEN => "branches are still open at the end of the proof",
        OUTPUT_TOO_SHORT => "a lent output is too short",
        NOT_GIVEN => "no longer given; its number is not used again",
        VALUE_OUT_OF_RANGE => "a value outside -1,000,000 to 1,000,000",
        WRONG_LIST => "a kind that is not 0, 1 or 2, or a wrong count of numbers",
        WRONG_LENGTHS => "not 1 to 16 stages, or lengths that do not add up to the buffer",
        TOO_MANY_IN_A_RUN => "more than 64 constraints in a run",
        CLAIM_IN_A_RUN => "a claim in the proof of a run",
        UNLIKE_BRANCHES => "branches that must be alike are not",
        NO_SEAT => "a seat above 7",
        OCCUPIED => "a job for a seat that is occupied",
        EMPTY => "a withdrawal from a seat that is empty",
        NO_SHORT_PROOF => "a table that is not among the short proofs",
        NO_NEXT => "no short proof follows, or there is none",
        OUTSIDE => "a part outside the buffer, or ending before it starts",
        IDLE => "a turn with no job",
        _ => "no refusal",
    }
}
