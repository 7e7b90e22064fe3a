//! The guards of a run, beside the check of one cut. A run of n stages is to take no longer than 2(n + 1) such checks.

use crate::work::{check, Work};
use stages::build::{close, combine, constraint, file, strengthen};
use std::hint::black_box;

#[inline(never)]
fn rust_guards(
    buffer: &[u8],
    lengths: &[usize],
    proof: &[u8],
    out: &mut [u8],
    sizes: &mut [usize],
) -> usize {
    reference::guards(buffer, lengths, proof, out, sizes).written
}

pub fn guarded(list: &mut Vec<Work>) {
    let (files, proof) = levels();
    list.push(one_cut("3 rows, 2 constants, 3 stages", &files, &proof));
    list.push(guards("3 rows, 2 constants, 3 stages", files, proof));
    for stages in [3, 16] {
        for doubled in [0, 2] {
            let (files, proof) = run(stages, doubled);
            let rows = if doubled == 0 { 152 } else { 617 };
            let name = format!("{rows} rows, 16 constants, {stages} stages");
            list.push(one_cut(&name, &files, &proof));
            list.push(guards(&name, files, proof));
        }
    }
}

/// The check of the cut behind the first stage.
fn one_cut(name: &str, stages: &[Vec<u8>], proof: &[u8]) -> Work {
    let rest: Vec<Vec<u8>> = stages[1..]
        .iter()
        .map(|stage| stage[8..].to_vec())
        .collect();
    let stage = [stages[0].clone(), file(stages[0][7], &rest), proof.to_vec()];
    check(format!("one cut of the run next: {name}"), stage, None)
}

/// x ≤ 2; y ≤ x + 3; y ≥ 9.
fn levels() -> (Vec<Vec<u8>>, Vec<u8>) {
    let stages = [[1, 0, -2], [-1, 1, -3], [0, -1, 9]];
    let rows = [combine(0, 1, 1, 1), combine(3, 2, 1, 1), close(4)];
    let stages = stages.map(|numbers| file(2, &[constraint(false, &numbers)]));
    (stages.to_vec(), file(2, &rows))
}

/// So many stages over 16 constants, f ≤ 0 in the first and -f + 1 ≤ 0 in the last; and a proof with 30 strengthens, each in
/// the second branch of the one before, all branches closed by combining the two; that whole so often in the first and the third
/// branch of a strengthen around it.
fn run(count: usize, doubled: usize) -> (Vec<Vec<u8>>, Vec<u8>) {
    let f: Vec<i16> = (0..17).map(|i| i * 37 - 300).collect();
    let mut minus: Vec<i16> = f.iter().map(|n| -n).collect();
    minus[16] += 1;
    let f = constraint(false, &f);
    let minus = constraint(false, &minus);
    let mut stages: Vec<Vec<u8>> = (0..count)
        .map(|stage| {
            let own: Vec<i16> = (0..17).map(|i| i * 5 + stage as i16).collect();
            file(16, &[constraint(true, &own)])
        })
        .collect();
    stages[0] = file(16, &[f]);
    stages[count - 1] = file(16, &[minus]);
    // A branch inside so many steps has so many lines more.
    let leaf = |depth: usize| {
        let last = (count - 1) as u8;
        [combine(0, last, 1, 1), close((count + depth) as u8)].concat()
    };
    let mut rows = leaf(30 + doubled);
    for depth in (doubled + 1..=doubled + 30).rev() {
        rows = [strengthen(0), leaf(depth), rows, leaf(depth)].concat();
    }
    for depth in (1..=doubled).rev() {
        rows = [strengthen(0), rows.clone(), leaf(depth), rows].concat();
    }
    (stages, file(16, &[rows]))
}

fn guards(name: &str, stages: Vec<Vec<u8>>, proof: Vec<u8>) -> Work {
    let name = format!("guards of a run: {name}");
    let buffer = stages.concat();
    let lengths: Vec<usize> = stages.iter().map(Vec::len).collect();
    let room = (stages.len() + 1) * 65_536;
    let other = (buffer.clone(), lengths.clone(), proof.clone());
    let mut out = vec![0; room];
    let made = dulgaverk::guards_into(&buffer, &lengths, &proof, &mut out, &mut [0; 17]);
    assert!(made.is_ok(), "{name}: {made:?}");
    Work {
        name,
        rattle: Box::new(move |times| {
            let (mut out, mut sizes) = (vec![0; room], [0; 17]);
            (0..times)
                .map(|_| {
                    let proof = black_box(proof.as_slice());
                    dulgaverk::guards_into(&buffer, &lengths, proof, &mut out, &mut sizes)
                        .unwrap_or(0)
                })
                .sum()
        }),
        rust: Box::new(move |times| {
            let (mut out, mut sizes) = (vec![0; room], [0; 17]);
            let (buffer, lengths, proof) = &other;
            (0..times)
                .map(|_| {
                    let proof = black_box(proof.as_slice());
                    rust_guards(buffer, lengths, proof, &mut out, &mut sizes)
                })
                .sum()
        }),
        point: None,
    }
}
