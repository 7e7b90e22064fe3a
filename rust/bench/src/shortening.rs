//! Shortening, beside the check of the same proof.

use crate::work::{check, in_edition_2, long_branch, nested, stage_1, Stage, Work};
use stages::build::Layout;
use std::hint::black_box;

#[inline(never)]
fn rust_shorten(a: &[u8], b: &[u8], proof: &[u8], report: &mut [u8], out: &mut [u8]) -> usize {
    reference::shorten(a, b, proof, report, out).written
}

pub fn shortened(list: &mut Vec<Work>) {
    for (name, stage) in [
        ("stage 1, 2 rows", stage_1()),
        ("128 rows, 16 constants", nested(128, false)),
        ("1,024 rows, 16 constants", nested(1_024, false)),
        ("1,024 rows and claims", nested(1_024, true)),
        ("edition 2, 1,024 rows", in_edition_2(nested(1_024, false))),
        ("edition 2, 1,000 lines, all needed", long_branch(1_000)),
        ("edition 2, 1,000 lines, none needed", unused_branch(1_000)),
    ] {
        let checked = format!("the proof shortened next: {name}");
        list.push(check(checked, stage.clone(), None));
        list.push(shorten(name, stage));
    }
}

/// The same lines as in a long branch, but what is closed is the constraint.
fn unused_branch(lines: usize) -> Stage {
    let [a, b, mut proof] = long_branch(lines);
    let last = Layout(reference::Edition::Two).close(0);
    let end = proof.len() - last.len();
    proof.truncate(end);
    proof.extend(last);
    [a, b, proof]
}

fn shorten(name: &str, stage: Stage) -> Work {
    let name = format!("shorten: {name}");
    let [a, b, proof] = stage;
    assert!(dulgaverk::shorten(&a, &b, &proof).is_ok(), "{name}");
    let other = [a.clone(), b.clone(), proof.clone()];
    Work {
        name,
        rattle: Box::new(move |times| {
            let (mut report, mut out) = (vec![0; 1_024], vec![0; 65_536]);
            (0..times)
                .map(|_| {
                    let proof = black_box(proof.as_slice());
                    dulgaverk::shorten_into(&a, &b, proof, &mut report, &mut out)
                        .map_or(0, |sizes| sizes.bytes)
                })
                .sum()
        }),
        rust: Box::new(move |times| {
            let (mut report, mut out) = (vec![0; 1_024], vec![0; 65_536]);
            let [a, b, proof] = &other;
            (0..times)
                .map(|_| rust_shorten(a, b, black_box(proof.as_slice()), &mut report, &mut out))
                .sum()
        }),
        point: None,
    }
}
