//! Short proofs (document 02, point 14): the library asked for one after the other, beside the list of all tables that the
//! Rust checker accepts, and beside the search.

use crate::{bytes, outcome};
use dulgaverk::Refusal;
use reference::ShortProofs;
use stages::build::header;
use stages::rng::Rng;
use stages::short::Pair;

/// What was compared.
#[derive(Default, Debug)]
pub struct Listings {
    /// Pairs, by how many constraints the two have.
    pub pairs: [u64; 5],
    /// Those with a short proof.
    pub proved: u64,
    /// Tables of these, each asked for with outputs of several lengths.
    pub tables: u64,
    /// Tables that are none, made from those that are.
    pub others: u64,
    pub differences: u64,
}

impl std::fmt::Display for Listings {
    fn fmt(&self, f: &mut std::fmt::Formatter<'_>) -> std::fmt::Result {
        let pairs: u64 = self.pairs.iter().sum();
        write!(f, "short proofs: {pairs} pairs (constraints")?;
        for (constraints, count) in self.pairs.iter().enumerate() {
            write!(f, " {constraints}: {count}")?;
        }
        write!(
            f,
            "), {} with a proof, {} tables one after the other, {} that are none, {} differences",
            self.proved, self.tables, self.others, self.differences
        )
    }
}

/// Goes through all short proofs of a pair with so many constraints.
pub fn list_proofs(pair: &Pair, constraints: usize, rng: &mut Rng, seen: &mut Listings) {
    let Ok(proofs) = ShortProofs::of(&pair.a, &pair.b) else {
        seen.differences += 1;
        return;
    };
    seen.pairs[constraints] += 1;
    seen.proved += u64::from(!proofs.tables().is_empty());
    let mut table = header(pair.k);
    for next in proofs.tables() {
        seen.tables += 1;
        let longer = next.len() + 1 + rng.below(9);
        for length in [0, next.len() - 1, next.len(), longer] {
            let before = bytes(rng, length);
            let (mut lent, mut found) = (before.clone(), before.clone());
            let result = dulgaverk::next_proof_into(&pair.a, &pair.b, &table, &mut lent);
            let searched = reference::search_next_proof(&pair.a, &pair.b, &table, &mut found);
            let (expected, after) = if length < next.len() {
                (Err(Refusal::outside(21, 4, next.len())), before)
            } else {
                let after = [next.as_slice(), &before[next.len()..]].concat();
                (Ok(next.len()), after)
            };
            let same = result == expected && lent == after;
            let agree = outcome(searched.answer, searched.written) == expected && found == after;
            seen.differences += u64::from(!same) + u64::from(!agree);
        }
        // One byte changed: another of them, or none.
        if rng.chance(1, 16) {
            let mut other = next.clone();
            let place = rng.below(other.len());
            other[place] = other[place].wrapping_add(*rng.pick(&[1, 2, 255]));
            let r = proofs.next(&other, &mut []);
            seen.others += u64::from(r.answer.number == 32);
            let result = dulgaverk::next_proof_into(&pair.a, &pair.b, &other, &mut []);
            seen.differences += u64::from(result != outcome(r.answer, r.written));
        }
        table.clone_from(next);
    }
    let end = dulgaverk::next_proof_into(&pair.a, &pair.b, &table, &mut []);
    seen.differences += u64::from(end != Err(Refusal::outside(33, 4, 0)));
    // The wrapper's iterator gives the same.
    let listed = dulgaverk::short_proofs(&pair.a, &pair.b);
    let same = listed.is_ok_and(|listed| listed.eq(proofs.tables().iter().cloned()));
    seen.differences += u64::from(!same);
}
