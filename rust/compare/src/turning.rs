//! Files turned into the other edition (document 02, point 4): what is turned can be turned back, and a check of turned
//! files gives what it gave.

use dulgaverk::Refusal;
use reference::Edition;
use stages::damage::{edition_of, fields};
use stages::rng::Rng;
use stages::tree::widest;
use stages::Case;
use std::collections::BTreeMap;

/// What was compared.
#[derive(Default, Debug)]
pub struct Turnings {
    /// Accepted turns that were turned back, by the edition turned into.
    pub back: [u64; 2],
    /// Stages that a check accepts, of which every choice of A, B and proof was turned.
    pub stages: u64,
    /// Checks of turned files, by what was turned: a bit each, A's the highest.
    pub checks: [u64; 8],
    /// Those of a proof turned down with more than 128 lines on a branch: 16.
    pub wide: u64,
    /// Those of a proof turned down with 128 lines on a branch, or a few less: accepted.
    pub narrow: u64,
    /// Files of these stages that turning refuses, by number.
    pub refused: BTreeMap<u8, u64>,
    pub differences: u64,
}

impl std::fmt::Display for Turnings {
    fn fmt(&self, f: &mut std::fmt::Formatter<'_>) -> std::fmt::Result {
        let [down, up] = self.back;
        write!(
            f,
            "turned: {down} files down and back, {up} up and back; {} stages, {} checks of what was turned of A, B and proof:",
            self.stages,
            self.checks.iter().sum::<u64>()
        )?;
        for (choice, count) in self.checks.iter().enumerate().skip(1) {
            write!(f, " {choice:03b}: {count}")?;
        }
        write!(
            f,
            ", {} with too many lines; files refused {:?}, {} differences",
            self.wide, self.refused, self.differences
        )
    }
}

/// The file without its notes.
pub fn without_notes(file: &[u8]) -> Vec<u8> {
    let parts = fields(file).into_iter().map(|part| &file[part]);
    let kept: Vec<&[u8]> = parts.filter(|part| part[0] < 0x80).collect();
    kept.concat()
}

type Turn = fn(&[u8], dulgaverk::Edition) -> Result<Vec<u8>, Refusal>;

/// The edition that a file does not have, of the wrapper.
fn other(file: &[u8]) -> dulgaverk::Edition {
    match edition_of(file) {
        Edition::One => dulgaverk::Edition::Two,
        Edition::Two => dulgaverk::Edition::One,
    }
}

/// Turns the file of a case, and what comes of it back: that must be the file without its notes.
pub fn turn_back(case: &Case, seen: &mut Turnings) {
    let (turn, file) = match case {
        Case::TurnBundle { file, .. } => (dulgaverk::turn_bundle as Turn, file),
        Case::TurnProof { file, .. } => (dulgaverk::turn_proof as Turn, file),
        _ => return,
    };
    let to = other(file);
    let Ok(new) = turn(file, to) else {
        return;
    };
    seen.back[usize::from(to.number() - 1)] += 1;
    let same = turn(&new, other(&new)) == Ok(without_notes(file));
    seen.differences += u64::from(!same || edition_of(&new).number() != to.number());
}

/// How many constraints a bundle has that is right.
fn constraints(file: &[u8]) -> usize {
    let parts = fields(file).into_iter();
    parts
        .filter(|part| matches!(file[part.start], 0x03..=0x05))
        .count()
}

/// Turns every choice of A, B and proof of a stage that a check accepts, where turning refuses none, and checks that with
/// the same output lent.
pub fn turn_stage(case: &Case, rng: &mut Rng, seen: &mut Turnings) {
    let Case::Check { a, b, proof, out } = case else {
        return;
    };
    let before = crate::bytes(rng, *out);
    let mut lent = before.clone();
    let Ok(written) = dulgaverk::check_into(a, b, proof, &mut lent) else {
        return;
    };
    seen.stages += 1;
    let lines = widest(proof, constraints(a) + constraints(b));
    let new = [
        dulgaverk::turn_bundle(a, other(a)),
        dulgaverk::turn_bundle(b, other(b)),
        dulgaverk::turn_proof(proof, other(proof)),
    ];
    for refusal in new.iter().filter_map(|file| file.as_ref().err()) {
        *seen.refused.entry(refusal.number).or_default() += 1;
    }
    for choice in 1..8 {
        let pick = |bit: usize, old| {
            let turned: &Result<Vec<u8>, Refusal> = &new[bit];
            if choice & 4 >> bit == 0 {
                Some(old)
            } else {
                turned.as_ref().ok()
            }
        };
        let (Some(a), Some(b), Some(turned)) = (pick(0, a), pick(1, b), pick(2, proof)) else {
            continue;
        };
        seen.checks[choice] += 1;
        let mut other = before.clone();
        let result = dulgaverk::check_into(a, b, turned, &mut other);
        let down = choice & 1 == 1 && edition_of(turned) == Edition::One;
        let same = if down && lines > 128 {
            seen.wide += 1;
            let refusal = result.err().map(|refusal| (refusal.number, refusal.file));
            refusal == Some((16, 3)) && other == before
        } else {
            seen.narrow += u64::from(down && lines > 120);
            result == Ok(written) && other == lent
        };
        seen.differences += u64::from(!same);
    }
}
