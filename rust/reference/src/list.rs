//! Testing one formula at a list of vectors, by testing it at each.

use crate::answer::*;
use crate::bundle::WriteResult;
use crate::formula::test_formula;
use crate::limits;

/// Tests a formula at a list of vectors, k register values each: one byte a
/// vector, 1 where it holds. `written` is the number of vectors.
pub fn test_list(formula: &[u8], k: usize, values: &[i32], out: &mut [u8]) -> WriteResult {
    if let Some(answer) = refusal(formula, k, values, out.len()) {
        return WriteResult { answer, written: 0 };
    }
    for (byte, vector) in out.iter_mut().zip(values.chunks_exact(k)) {
        *byte = u8::from(test_formula(formula, vector).holds);
    }
    WriteResult {
        answer: Answer::ACCEPTED,
        written: values.len() / k,
    }
}

fn refusal(formula: &[u8], k: usize, values: &[i32], room: usize) -> Option<Answer> {
    let lent = |number, place| Some(Answer::refused(number, FILE_OUTPUT, place));
    if !(1..=limits::CONSTANTS).contains(&k) || !values.len().is_multiple_of(k) {
        return lent(WRONG_K, 0);
    }
    for (index, value) in values.iter().enumerate() {
        if value.unsigned_abs() > limits::VALUE.unsigned_abs() {
            return lent(VALUE_OUT_OF_RANGE, index);
        }
    }
    // What is wrong with the formula is wrong at any one vector; an empty list
    // has none, so zeros stand in.
    let one = values.get(..k).map_or(vec![0; k], <[i32]>::to_vec);
    let tested = test_formula(formula, &one).answer;
    if tested != Answer::ACCEPTED {
        return Some(tested);
    }
    let vectors = values.len() / k;
    if room < vectors {
        return lent(OUTPUT_TOO_SHORT, vectors);
    }
    None
}
