//! Registers listed in another sequence (document 02, point 9): the verified check beside itself, on files whose constants
//! are reordered alike in A, B and all claims.

use dulgaverk::Refusal;
use stages::damage::{edition_of, fields};
use stages::rng::Rng;
use stages::Case;

/// What was compared.
#[derive(Default, Debug)]
pub struct Reorderings {
    pub stages: u64,
    pub accepted: u64,
    /// Stages of which a byte was moved.
    pub moved: u64,
    /// Reorderings that are not their own inverse.
    pub one_way: u64,
    /// Formulas tested at values reordered, and how many of them were judged.
    pub tested: u64,
    pub judged: u64,
    pub differences: u64,
}

impl std::fmt::Display for Reorderings {
    fn fmt(&self, f: &mut std::fmt::Formatter<'_>) -> std::fmt::Result {
        let Reorderings {
            stages,
            accepted,
            moved,
            one_way,
            tested,
            judged,
            differences,
        } = self;
        write!(
            f,
            "reordered: {stages} stages, {accepted} accepted, {moved} with bytes moved, {one_way} by a reordering that is not its own inverse; {tested} formulas tested, {judged} judged; {differences} differences"
        )
    }
}

enum Kind {
    Bundle,
    Proof,
    Formula,
}

/// The file with constant `order[i]` listed as constant i, in fields of right length; every other byte stays. (A bundle that
/// says no edition is measured by edition 1 here and by edition 2 in the definition: it is refused at its header.)
fn reordered(kind: Kind, file: &[u8], order: &[usize]) -> Vec<u8> {
    let width = match kind {
        Kind::Bundle => edition_of(file).number_bytes(),
        Kind::Proof | Kind::Formula => 4,
    };
    let size = width * (order.len() + 1);
    let form = |contents: &mut [u8]| {
        let old = contents.to_vec();
        for (to, from) in order.iter().enumerate() {
            contents[to * width..][..width].copy_from_slice(&old[from * width..][..width]);
        }
    };
    let mut new = file.to_vec();
    for field in fields(file) {
        let tag = file[field.start];
        let contents = &mut new[field.start + 3..field.end];
        match (&kind, tag, contents.len()) {
            (Kind::Bundle, 0x03..=0x05, n) | (Kind::Formula, 0x33 | 0x34, n) if n == size => {
                form(contents);
            }
            (Kind::Proof, 0x20, n) if n == 2 * size => {
                let (t, partial) = contents.split_at_mut(size);
                form(t);
                form(partial);
            }
            (Kind::Formula, 0x35, n) if n == 4 + size => form(&mut contents[4..]),
            _ => {}
        }
    }
    new
}

/// The number of constants that a file tells, if it tells one.
fn constants(file: &[u8]) -> Option<usize> {
    fields(file).into_iter().find_map(|part| match file[part] {
        [0x02, 0, 1, k @ 1..=16] => Some(usize::from(k)),
        _ => None,
    })
}

/// Random, of k constants.
fn any_order(rng: &mut Rng, k: usize) -> Vec<usize> {
    let mut order: Vec<usize> = (0..k).collect();
    rng.shuffle(&mut order);
    order
}

/// Tests a formula, and the formula so reordered at the values so reordered; whether both answer alike.
fn tests_alike(formula: &[u8], values: &[i32], order: &[usize], seen: &mut Reorderings) -> bool {
    let other: Vec<i32> = order.iter().map(|&from| values[from]).collect();
    let told = dulgaverk::test_formula(formula, values);
    seen.tested += 1;
    seen.judged += u64::from(told.is_ok());
    dulgaverk::test_formula(&reordered(Kind::Formula, formula, order), &other) == told
}

/// Checks a stage and the stage reordered, with the same output lent, and tests the guards of both; or tests a formula.
pub fn reorder(case: &Case, rng: &mut Rng, seen: &mut Reorderings) {
    match case {
        Case::Check { a, b, proof, out } => reorder_stage([a, b, proof], *out, rng, seen),
        // A value out of range is told by its index, and that moves.
        Case::Test { formula, values } if values.iter().all(|v| v.abs_diff(0) <= 1_000_000) => {
            let order = any_order(rng, values.len());
            seen.differences += u64::from(!tests_alike(formula, values, &order, seen));
        }
        _ => {}
    }
}

fn reorder_stage(files: [&Vec<u8>; 3], out: usize, rng: &mut Rng, seen: &mut Reorderings) {
    let [a, b, proof] = files;
    let own = constants(a).filter(|_| !rng.chance(1, 10));
    let k = own.unwrap_or_else(|| 1 + rng.below(16));
    let order = any_order(rng, k);
    let before = crate::bytes(rng, out);
    let (mut left, mut other) = (before.clone(), before.clone());
    let result: Result<usize, Refusal> = dulgaverk::check_into(a, b, proof, &mut left);
    let new = [
        reordered(Kind::Bundle, a, &order),
        reordered(Kind::Bundle, b, &order),
        reordered(Kind::Proof, proof, &order),
    ];
    let again = dulgaverk::check_into(&new[0], &new[1], &new[2], &mut other);
    let count = result.unwrap_or(0);
    let mut expected = reordered(Kind::Formula, &left[..count], &order);
    expected.extend_from_slice(&left[count..]);
    seen.stages += 1;
    seen.accepted += u64::from(result.is_ok());
    seen.moved += u64::from(files != [&new[0], &new[1], &new[2]]);
    seen.one_way += u64::from((0..k).any(|i| order[order[i]] != i));
    seen.differences += u64::from(again != result || other != expected);
    if result.is_ok() {
        let values: Vec<i32> = (0..k).map(|_| rng.within(-9, 9) as i32).collect();
        seen.differences += u64::from(!tests_alike(&left[..count], &values, &order, seen));
    }
}
