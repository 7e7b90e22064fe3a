//! The verified operations beside the independent checker: the same answers, row, step and branch among them, and the
//! same contents of every lent buffer.
//!
//! Each case is called as it is. Where it is accepted, it is called again with each output just long enough, and with
//! each output one short; printing and the next short proof also with no output and with a longer one; a check whose formula
//! is too long, with no output and with one that could hold it. Lent buffers hold random contents before; afterwards they
//! must be as the checker leaves them, and after a refusal as they were.

#![forbid(unsafe_code)]

mod reorder;
mod runs;
mod scheduler;
mod short;
mod shortening;
mod tally;
mod turning;

pub use reorder::{reorder, Reorderings};
pub use runs::{guard_run, Runs};
pub use scheduler::{play, Calls};
pub use short::{list_proofs, Listings};
pub use shortening::{shorten_padded, shorten_stage, Shortenings};
pub use tally::Tally;
pub use turning::{turn_back, turn_stage, without_notes, Turnings};

use dulgaverk::{Counts, Edition, Refusal};
use reference::{Answer, NONE};
use stages::damage::edition_of;
use stages::printing::{enough, print};
use stages::rng::Rng;
use stages::tree::spot;
use stages::{Case, Operation};

/// The operations that are compared.
pub const COMPARED: [Operation; 11] = [
    Operation::Check,
    Operation::Read,
    Operation::Write,
    Operation::Show,
    Operation::Test,
    Operation::TurnBundle,
    Operation::TurnProof,
    Operation::List,
    Operation::Print,
    Operation::PrintWords,
    Operation::NextProof,
];

/// The reference's answer as a result. As in the wrapper, accepted is 0, 0, 0 and no row, step or branch.
fn outcome<T>(answer: Answer, value: T) -> Result<T, Refusal> {
    let there = |number: u16| (number != NONE).then_some(number);
    let refusal = Refusal {
        number: answer.number,
        file: answer.file,
        place: answer.place,
        row: there(answer.row),
        step: there(answer.step),
        branch: there(answer.branch),
    };
    if refusal == Refusal::outside(0, 0, 0) {
        return Ok(value);
    }
    Err(refusal)
}

/// The number of a result, 0 for an accepted one.
fn number<T>(result: &Result<T, Refusal>) -> u8 {
    result.as_ref().map_or_else(|refusal| refusal.number, |_| 0)
}

/// Compares one case, and the cases next to it; every call is counted.
pub fn compare(case: &Case, rng: &mut Rng, tally: &mut Tally) {
    if call(case, rng, tally) != 0 {
        return longer(case, rng, tally);
    }
    match case {
        Case::Read {
            file,
            kinds,
            numbers,
        } => {
            let found = reference::read_bundle(file, &mut vec![0; *kinds], &mut vec![0; *numbers]);
            let (count, all) = (found.count, found.count * (found.k + 1));
            for (kinds, numbers) in [
                Some((count, all)),
                count.checked_sub(1).map(|fewer| (fewer, all)),
                all.checked_sub(1).map(|fewer| (count, fewer)),
            ]
            .into_iter()
            .flatten()
            {
                let file = file.clone();
                let next = Case::Read {
                    file,
                    kinds,
                    numbers,
                };
                call(&next, rng, tally);
            }
        }
        Case::Write {
            edition,
            k,
            kinds,
            numbers,
            out,
        } => {
            let mut lent = vec![0; *out];
            let needed = reference::write_bundle(*edition, *k, kinds, numbers, &mut lent).written;
            for out in [needed, needed - 1] {
                let next = Case::Write {
                    edition: *edition,
                    k: *k,
                    kinds: kinds.clone(),
                    numbers: numbers.clone(),
                    out,
                };
                call(&next, rng, tally);
            }
        }
        Case::Check { a, b, proof, out } => {
            let needed = reference::check(a, b, proof, &mut vec![0; *out]).written;
            for out in [needed, needed - 1] {
                call(&with_output(case, out), rng, tally);
            }
        }
        Case::TurnBundle { .. } | Case::TurnProof { .. } => {
            let needed = written(case);
            for out in [needed, needed - 1] {
                call(&with_output(case, out), rng, tally);
            }
        }
        Case::Print { .. } | Case::PrintWords { .. } | Case::NextProof { .. } => {
            let needed = written(case);
            for out in [0, needed - 1, needed, needed + 1 + rng.below(9)] {
                call(&with_output(case, out), rng, tally);
            }
        }
        Case::List { k, values, .. } => {
            let vectors = values.len() / k;
            for out in [Some(vectors), vectors.checked_sub(1)]
                .into_iter()
                .flatten()
            {
                call(&with_output(case, out), rng, tally);
            }
        }
        // The outputs of show are tried in the call itself; a test has none.
        Case::Show { .. } | Case::Test { .. } => {}
    }
}

/// The bytes that an accepted call writes.
fn written(case: &Case) -> usize {
    match case.outcome().result {
        stages::Output::Bytes(bytes) => bytes.len(),
        _ => 0,
    }
}

/// The same call with another output.
fn with_output(case: &Case, length: usize) -> Case {
    let mut next = case.clone();
    if let Case::Check { out, .. }
    | Case::TurnBundle { out, .. }
    | Case::TurnProof { out, .. }
    | Case::List { out, .. }
    | Case::Print { out, .. }
    | Case::PrintWords { out, .. }
    | Case::NextProof { out, .. } = &mut next
    {
        *out = length;
    }
    next
}

/// Compares a check whose formula is too long, or a turn whose result is, with other outputs: none, one that could hold
/// it, and a longer one.
fn longer(case: &Case, rng: &mut Rng, tally: &mut Tally) {
    let answer = match case {
        Case::Check { a, b, proof, .. } => reference::check(a, b, proof, &mut []).answer,
        Case::TurnProof { file, edition, .. } => {
            reference::turn_proof(file, *edition, &mut []).answer
        }
        _ => return,
    };
    if (answer.number, answer.file) != (1, 4) {
        return;
    }
    for out in [0, answer.place, answer.place + 9] {
        call(&with_output(case, out), rng, tally);
        tally.count_too_long(case.operation());
    }
}

/// Calls both sides once, counts it, and gives the reference's number.
fn call(case: &Case, rng: &mut Rng, tally: &mut Tally) -> u8 {
    let (number, same) = match case {
        Case::Read {
            file,
            kinds,
            numbers,
        } => {
            let before = (bytes(rng, *kinds), words(rng, *numbers));
            let (mut lent, mut other) = (before.clone(), before.clone());
            let verified = dulgaverk::read_bundle_into(file, &mut lent.0, &mut lent.1);
            let r = reference::read_bundle(file, &mut other.0, &mut other.1);
            // A refusal has no edition, and no counts that are looked at.
            let counts = Counts {
                constraints: r.count,
                constants: r.k,
                edition: Edition::numbered(r.edition).unwrap_or(Edition::One),
            };
            let expected = outcome(r.answer, counts);
            let kept = expected.is_ok() || lent == before;
            (
                number(&expected),
                verified == expected && lent == other && kept,
            )
        }
        Case::Write {
            edition,
            k,
            kinds,
            numbers,
            out,
        } => {
            let before = bytes(rng, *out);
            let (mut lent, mut other) = (before.clone(), before.clone());
            let verified = dulgaverk::write_bundle_into(*edition, *k, kinds, numbers, &mut lent);
            let r = reference::write_bundle(*edition, *k, kinds, numbers, &mut other);
            let expected = outcome(r.answer, r.written);
            let kept = expected.is_ok() || lent == before;
            (
                number(&expected),
                verified == expected && lent == other && kept,
            )
        }
        Case::Show { a, b, line } => {
            let line = *line;
            let part = reference::show(a, b, line);
            let answer = reference::show_answer(a, b, line);
            let expected = outcome(answer, part.len());
            let mut same = dulgaverk::show_answer(a, b, line) == outcome(answer, ());
            same &= dulgaverk::show(a, b, line) == outcome(answer, part.to_vec());
            // Too short by one, just long enough, longer.
            for length in [part.len().saturating_sub(1), part.len(), part.len() + 3] {
                let before = bytes(rng, length);
                let mut lent = before.clone();
                let result = dulgaverk::show_into(a, b, line, &mut lent);
                let room = length >= part.len();
                let mut after = before;
                if room {
                    after[..part.len()].copy_from_slice(part);
                }
                let short = Refusal::outside(21, 4, part.len());
                same &= result == if room { expected } else { Err(short) };
                same &= lent == after;
            }
            (number(&expected), same)
        }
        Case::Test { formula, values } => {
            let r = reference::test_formula(formula, values);
            let expected = outcome(r.answer, r.holds);
            (
                number(&expected),
                dulgaverk::test_formula(formula, values) == expected,
            )
        }
        Case::List {
            formula,
            k,
            values,
            out,
        } => {
            let before = bytes(rng, *out);
            let (mut lent, mut other) = (before.clone(), before.clone());
            let verified = dulgaverk::test_list_into(formula, *k, values, &mut lent);
            let r = reference::test_list(formula, *k, values, &mut other);
            tally.count_vectors(r.written);
            let expected = outcome(r.answer, r.written);
            let kept = expected.is_ok() || lent == before;
            (
                number(&expected),
                verified == expected && lent == other && kept,
            )
        }
        Case::Check { a, b, proof, out } => {
            let before = bytes(rng, *out);
            let (mut lent, mut other) = (before.clone(), before.clone());
            let verified = dulgaverk::check_into(a, b, proof, &mut lent);
            let r = reference::check(a, b, proof, &mut other);
            tally.count_mix([a, b, proof].map(|file| edition_of(file)));
            if r.answer.file == 3 {
                tally.count_depth(spot(proof, r.answer.place).open.len());
            }
            let expected = outcome(r.answer, r.written);
            let kept = expected.is_ok() || lent == before;
            (
                number(&expected),
                verified == expected && lent == other && kept,
            )
        }
        Case::TurnBundle { file, edition, out } => {
            let before = bytes(rng, *out);
            let (mut lent, mut other) = (before.clone(), before.clone());
            let verified = dulgaverk::turn_bundle_into(file, *edition, &mut lent);
            let r = reference::turn_bundle(file, *edition, &mut other);
            let expected = outcome(r.answer, r.written);
            let kept = expected.is_ok() || lent == before;
            (
                number(&expected),
                verified == expected && lent == other && kept,
            )
        }
        Case::TurnProof { file, edition, out } => {
            let before = bytes(rng, *out);
            let (mut lent, mut other) = (before.clone(), before.clone());
            let verified = dulgaverk::turn_proof_into(file, *edition, &mut lent);
            let r = reference::turn_proof(file, *edition, &mut other);
            let expected = outcome(r.answer, r.written);
            let kept = expected.is_ok() || lent == before;
            (
                number(&expected),
                verified == expected && lent == other && kept,
            )
        }
        Case::Print { formula, out } => {
            let before = bytes(rng, *out);
            let (mut lent, mut other) = (before.clone(), before.clone());
            let verified = dulgaverk::print_into(formula, &mut lent);
            let r = reference::print(formula, &mut other);
            let expected = outcome(r.answer, r.written);
            let kept = expected.is_ok() || lent == before;
            (
                number(&expected),
                verified == expected && lent == other && kept,
            )
        }
        Case::PrintWords { formula, out } => {
            let before = bytes(rng, *out);
            let (mut lent, mut other) = (before.clone(), before.clone());
            let verified = dulgaverk::print_words_into(formula, &mut lent);
            let r = reference::print_words(formula, &mut other);
            let expected = outcome(r.answer, r.written);
            let kept = expected.is_ok() || lent == before;
            (
                number(&expected),
                verified == expected && lent == other && kept,
            )
        }
        // The Rust side by its search; `list_proofs` has the other one too.
        Case::NextProof { a, b, table, out } => {
            let before = bytes(rng, *out);
            let (mut lent, mut other) = (before.clone(), before.clone());
            let verified = dulgaverk::next_proof_into(a, b, table, &mut lent);
            let r = reference::search_next_proof(a, b, table, &mut other);
            let expected = outcome(r.answer, r.written);
            let kept = expected.is_ok() || lent == before;
            (
                number(&expected),
                verified == expected && lent == other && kept,
            )
        }
    };
    tally.count(case, number, same);
    number
}

/// Compares the printing of a formula that is tested, both ways.
pub fn print_tested(case: &Case, rng: &mut Rng, tally: &mut Tally) {
    let formula = match case {
        Case::Test { formula, .. } | Case::List { formula, .. } => formula,
        _ => return,
    };
    // Mostly room enough.
    let out = if rng.chance(1, 8) {
        20
    } else {
        enough(formula)
    };
    for operation in [Operation::Print, Operation::PrintWords] {
        call(&print(operation, formula.clone(), out), rng, tally);
    }
}

fn bytes(rng: &mut Rng, count: usize) -> Vec<u8> {
    // One random byte, then a step from each to the next: quick, and no two neighbours are alike.
    let (start, step) = (rng.byte(), rng.byte() | 1);
    (0..count)
        .map(|index| start.wrapping_add(step.wrapping_mul(index as u8)))
        .collect()
}

fn words(rng: &mut Rng, count: usize) -> Vec<i32> {
    let (start, step) = (rng.word() as i32, rng.word() as i32 | 1);
    (0..count)
        .map(|index| start.wrapping_add(step.wrapping_mul(index as i32)))
        .collect()
}
