//! Tables without the rows that nothing rests on (document 02, point 12): both sides on every check of the streams, outputs
//! of several lengths, and the laws of shortening: the shorter table is checked as the proof is, shortening it again changes
//! nothing, and rows put in that nothing uses go.

use crate::{bytes, number, outcome};
use dulgaverk::{Refusal, ShortenedSizes};
use stages::rng::Rng;
use stages::table::{closed_table, Size, Table};
use stages::unused::pad;
use stages::Case;
use std::collections::BTreeMap;

/// What was compared.
#[derive(Default, Debug)]
pub struct Shortenings {
    /// Calls by number, 0 for accepted.
    pub calls: BTreeMap<u8, u64>,
    /// Rows of accepted proofs by the report's byte.
    pub rows: [u64; 3],
    /// Checks of shorter tables, and shorter tables shortened again.
    pub checked: u64,
    pub again: u64,
    /// Proofs with rows put in that nothing uses, and these rows.
    pub padded: u64,
    pub put_in: u64,
    pub differences: u64,
    /// The first case that differed.
    pub first: Option<String>,
}

impl std::fmt::Display for Shortenings {
    fn fmt(&self, f: &mut std::fmt::Formatter<'_>) -> std::fmt::Result {
        let [not, needed, stay] = self.rows;
        write!(
            f,
            "shortened: {} calls {:?}; rows not needed {not}, needed {needed}, staying {stay}; {} shorter tables checked, {} shortened again; {} proofs with {} rows put in, {} differences",
            self.calls.values().sum::<u64>(),
            self.calls,
            self.checked,
            self.again,
            self.padded,
            self.put_in,
            self.differences
        )?;
        match &self.first {
            Some(case) => write!(f, "\ndiffers: shortening of {case}"),
            None => Ok(()),
        }
    }
}

impl Shortenings {
    fn tell(&mut self, case: &Case, same: bool) {
        self.differences += u64::from(!same);
        if !same && self.first.is_none() {
            self.first = Some(case.print());
        }
    }
}

/// Shortens the proof of a check, and compares with outputs that are too short, just long enough and longer. Then the shorter
/// table is checked with the same output lent, and shortened again.
pub fn shorten_stage(case: &Case, rng: &mut Rng, seen: &mut Shortenings) {
    let Case::Check { a, b, proof, out } = case else {
        return;
    };
    // A row has at least four bytes, and the table is not longer than the proof.
    let enough = (proof.len() / 4 + rng.below(3), proof.len() + rng.below(3));
    let (first, report, table) = call(case, enough, rng, seen);
    let Ok(sizes) = first else {
        // With output enough a check gives the same refusal.
        if rng.chance(1, 4) {
            let checked = dulgaverk::check(a, b, proof).map(|_| ());
            seen.tell(case, checked == first.map(|_| ()));
        }
        return;
    };
    for &told in &report {
        seen.rows[usize::from(told.min(2))] += 1;
    }
    let ShortenedSizes { rows, bytes: count } = sizes;
    for lent in [
        (rows, count),
        (rows - 1, count),
        (rows, count - 1),
        (rows + 3, count + 5),
        (0, count + 2),
        (rows + 1, 0),
        (0, 0),
    ] {
        // Just enough and one short always, the others now and then.
        if lent == (rows, count) || lent.0 + 1 == rows || lent.1 + 1 == count || rng.chance(1, 8) {
            let _ = call(case, lent, rng, seen);
        }
    }
    seen.checked += 1;
    let before = bytes(rng, *out);
    let (mut old, mut new) = (before.clone(), before);
    let of_proof = dulgaverk::check_into(a, b, proof, &mut old);
    let of_table = dulgaverk::check_into(a, b, &table, &mut new);
    seen.tell(case, of_table == of_proof && new == old);
    seen.again += 1;
    let kept: Vec<u8> = report.into_iter().filter(|&told| told != 0).collect();
    let (mut told, mut again) = (vec![9; kept.len()], vec![9; table.len()]);
    let result = dulgaverk::shorten_into(a, b, &table, &mut told, &mut again);
    let expected = ShortenedSizes {
        rows: kept.len(),
        bytes: table.len(),
    };
    let same = result == Ok(expected) && told == kept && again == table;
    seen.tell(case, same);
}

/// Calls both sides once with outputs of these lengths. Gives what came of it, with the parts of the outputs used.
fn call(
    case: &Case,
    (rows, count): (usize, usize),
    rng: &mut Rng,
    seen: &mut Shortenings,
) -> (Result<ShortenedSizes, Refusal>, Vec<u8>, Vec<u8>) {
    let Case::Check { a, b, proof, .. } = case else {
        return (Err(Refusal::outside(0, 0, 0)), Vec::new(), Vec::new());
    };
    let before = (bytes(rng, rows), bytes(rng, count));
    let (mut lent, mut other) = (before.clone(), before.clone());
    let verified = dulgaverk::shorten_into(a, b, proof, &mut lent.0, &mut lent.1);
    let r = reference::shorten(a, b, proof, &mut other.0, &mut other.1);
    let sizes = ShortenedSizes {
        rows: r.rows,
        bytes: r.written,
    };
    let expected = outcome(r.answer, sizes);
    *seen.calls.entry(number(&expected)).or_default() += 1;
    let kept = expected.is_ok() || lent == before;
    seen.tell(case, verified == expected && lent == other && kept);
    let (mut report, mut table) = lent;
    report.truncate(r.rows);
    table.truncate(r.written);
    (verified, report, table)
}

/// Puts rows that nothing uses into a proof that a check accepts: these are told by 0, the others as before, and the shorter
/// table is the same.
pub fn shorten_padded(rng: &mut Rng, size: &Size, seen: &mut Shortenings) {
    let table = closed_table(rng, size);
    let most = 1 + rng.below(100);
    let padded = pad(rng, &table, most);
    let Table { a, b, proof, .. } = table;
    let case = Case::Check {
        a: a.clone(),
        b: b.clone(),
        proof: padded.proof.clone(),
        out: 65_536,
    };
    let mut told = |proof: &[u8]| {
        let (mut report, mut out) = (bytes(rng, 1_024), bytes(rng, proof.len()));
        let sizes = dulgaverk::shorten_into(&a, &b, proof, &mut report, &mut out)?;
        report.truncate(sizes.rows);
        out.truncate(sizes.bytes);
        Ok::<_, Refusal>((report, out))
    };
    let (old, new) = (told(&proof), told(&padded.proof));
    seen.padded += 1;
    let same = match (old, new) {
        (Ok((report, table)), Ok((longer, other))) => {
            let mut report = report.into_iter();
            let expected: Vec<u8> = padded
                .put_in
                .iter()
                .map(|&put_in| {
                    if put_in {
                        0
                    } else {
                        report.next().unwrap_or(9)
                    }
                })
                .collect();
            seen.put_in += padded.put_in.iter().filter(|&&put_in| put_in).count() as u64;
            longer == expected && other == table && report.next().is_none()
        }
        // A formula may be too long either way.
        (Err(old), Err(new)) => old == new && old.number == 1,
        _ => false,
    };
    seen.tell(&case, same);
    shorten_stage(&case, rng, seen);
}
