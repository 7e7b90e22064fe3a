//! Guards for a whole run of stages: what they are, what is refused and in which
//! order, and each reading that would be wrong.

mod common;
use common::*;
use reference::{guards, Answer, NONE};

/// The stages end to end, with outputs of these lengths, which must be unchanged
/// on refusal and behind what is used.
fn guards_into(
    stages: &[Vec<u8>],
    proof: &[u8],
    length: usize,
    sizes: usize,
) -> (Answer, Vec<Vec<u8>>) {
    let lengths: Vec<usize> = stages.iter().map(Vec::len).collect();
    guards_of(&stages.concat(), &lengths, proof, length, sizes)
}

fn guards_of(
    buffer: &[u8],
    lengths: &[usize],
    proof: &[u8],
    length: usize,
    sizes: usize,
) -> (Answer, Vec<Vec<u8>>) {
    let (mut out, mut sizes) = (vec![0xA5; length], vec![99; sizes]);
    let result = guards(buffer, lengths, proof, &mut out, &mut sizes);
    assert!(out[result.written..].iter().all(|&byte| byte == 0xA5));
    if result.answer != ACCEPTED {
        assert_eq!(result.written, 0);
        assert!(sizes.iter().all(|&size| size == 99));
        return (result.answer, Vec::new());
    }
    let cuts = lengths.len() + 1;
    assert!(sizes[cuts..].iter().all(|&size| size == 99));
    assert_eq!(sizes[..cuts].iter().sum::<usize>(), result.written);
    let mut rest = &out[..];
    let mut files = Vec::new();
    for &size in &sizes[..cuts] {
        let guard;
        (guard, rest) = rest.split_at(size);
        files.push(guard.to_vec());
    }
    (result.answer, files)
}

/// The answer with outputs that are long enough.
fn answer_to(stages: &[Vec<u8>], proof: &[u8]) -> Answer {
    guards_into(stages, proof, 17 * 65_536, 17).0
}

/// The guards of a run that is accepted: each is what a check writes.
fn guards_by(stages: &[Vec<u8>], proof: &[u8], k: u8) -> Vec<Vec<u8>> {
    let (answer, files) = guards_into(stages, proof, 17 * 65_536, 17);
    assert_eq!(answer, ACCEPTED);
    for (cut, guard) in files.iter().enumerate() {
        let side = |stages: &[Vec<u8>]| {
            let fields: Vec<Vec<u8>> = stages.iter().map(|stage| stage[8..].to_vec()).collect();
            file(k, &fields)
        };
        let (a, b) = (side(&stages[..cut]), side(&stages[cut..]));
        assert_eq!(formula(&a, &b, proof), *guard, "cut {cut}");
    }
    files
}

/// x ≤ 2; y ≤ x + 3; y ≥ 9, over x and y.
fn levels() -> [Vec<u8>; 3] {
    [
        file(2, &[le(&[1, 0, -2])]),
        file(2, &[le(&[-1, 1, -3])]),
        file(2, &[le(&[0, -1, 9])]),
    ]
}

fn sums() -> Vec<u8> {
    file(2, &[combine(0, 1, 1, 1), combine(3, 2, 1, 1), close(4)])
}

#[test]
fn a_run_of_three_stages() {
    let expected = [[0, 0, 0], [1, 0, -2], [0, 1, -5], [0, 0, 4]];
    let expected = expected.map(|form| file(2, &[at_most(&form)]));
    assert_eq!(guards_by(&levels(), &sums(), 2), expected);
    // A note in the proof changes nothing.
    let mut noted = sums();
    noted.splice(17..17, note());
    let (answer, files) = guards_into(&levels(), &noted, 4 * 23, 4);
    assert_eq!((answer, files), (ACCEPTED, expected.to_vec()));
}

/// One stage: 0 ≤ 0, then 1 ≤ 0.
#[test]
fn a_run_of_one_stage() {
    let stages = [file(1, &[le(&[0, 1])])];
    let proof = file(1, &[close(0)]);
    let expected = [[0, 0], [0, 1]].map(|form| file(1, &[at_most(&form)]));
    assert_eq!(guards_by(&stages, &proof, 1), expected);
}

/// 2x ≤ 5; y ≤ x; y ≥ 3. The first and third branch are the same rows.
#[test]
fn a_strengthen() {
    let stages = [
        file(2, &[le(&[2, 0, -5])]),
        file(2, &[le(&[-1, 1, 0])]),
        file(2, &[le(&[0, -1, 3])]),
    ];
    let outer = [combine(4, 3, 1, 2), close(5)];
    let middle = [stride(4, 2)];
    let rows = [combine(1, 2, 1, 1), strengthen(0)];
    let proof = file(
        2,
        &[
            rows.concat(),
            outer.concat(),
            middle.concat(),
            outer.concat(),
        ],
    );
    let files = guards_by(&stages, &proof, 2);
    let first = file(
        2,
        &[
            or(),
            at_most(&[0, 0, 1]),
            and(),
            divides(2, &[0, 0, 0]),
            at_most(&[0, 0, 0]),
        ],
    );
    assert_eq!(files[0], first);
    let second = file(
        2,
        &[
            or(),
            at_most(&[2, 0, -4]),
            and(),
            divides(2, &[0, 0, 1]),
            at_most(&[2, 0, -5]),
        ],
    );
    assert_eq!(files[1], second);

    // The middle branch may be anything; the third may not.
    let middle = [scale(4, 3), stride(5, 2)];
    let proof = file(
        2,
        &[
            rows.concat(),
            outer.concat(),
            middle.concat(),
            outer.concat(),
        ],
    );
    assert_eq!(answer_to(&stages, &proof), ACCEPTED);
    let third = [scale(4, 1), combine(5, 3, 1, 2), close(6)];
    let proof = file(
        2,
        &[
            rows.concat(),
            outer.concat(),
            middle.concat(),
            third.concat(),
        ],
    );
    // At the closing row of the third branch, not at the first that differs.
    let place = proof.len() - 4;
    assert_eq!(answer_to(&stages, &proof), refused_at(28, place, [8, 1, 2]));
    // 15 comes first.
    let mut open = proof;
    let last = open.len() - 1;
    open[last] = 4;
    assert_eq!(answer_to(&stages, &open), refused_at(15, place, [8, 1, 2]));
    // A note on one of the two branches is no difference.
    let proof = file(
        2,
        &[
            rows.concat(),
            outer.concat(),
            middle.concat(),
            outer.join(&note()[..]),
        ],
    );
    assert_eq!(answer_to(&stages, &proof), ACCEPTED);
}

/// Without 28 the chain would break: x ≤ 0; y ≤ 0; -x + 1 ≤ 0 and -y + 1 = 0.
#[test]
fn a_chain_that_would_break() {
    let stages = [
        file(2, &[le(&[1, 0, 0])]),
        file(2, &[le(&[0, 1, 0])]),
        file(2, &[le(&[-1, 0, 1]), eq(&[0, -1, 1])]),
    ];
    // Line 4 is y + 1 ≤ 0, then y = 0, then y + 1 ≤ 0. By x, or by y.
    let by_x = [combine(0, 2, 1, 1), close(5)];
    let by_y = [reduce(4, 3, 1), close(5)];
    let proof = |first: &[Vec<u8>], second: &[Vec<u8>], third: &[Vec<u8>]| {
        file(
            2,
            &[
                strengthen(1),
                first.concat(),
                second.concat(),
                third.concat(),
            ],
        )
    };
    for same in [&by_x, &by_y] {
        for second in [&by_x, &by_y] {
            let proof = proof(same, second, same);
            assert_eq!(guards_by(&stages, &proof, 2).len(), 4);
        }
    }
    for (first, third) in [(&by_x, &by_y), (&by_y, &by_x)] {
        let proof = proof(first, &by_x, third);
        let place = proof.len() - 4;
        assert_eq!(answer_to(&stages, &proof), refused_at(28, place, [6, 0, 2]));
    }
}

/// All branches of a rounding must be alike, and one that differs is told at the
/// closing row of the last.
#[test]
fn a_rounding() {
    let stages = [file(1, &[le(&[3, -2])]), file(1, &[le(&[-3, 1])])];
    let branch = [combine(2, 1, 1, 1), close(3)];
    let other = [combine(2, 1, 2, 2), close(3)];
    for odd in 0..4 {
        let mut rows = vec![round(0, 3, 2)];
        for number in 0..3 {
            rows.extend(if number == odd {
                other.clone()
            } else {
                branch.clone()
            });
        }
        let proof = file(1, &rows);
        if odd == 3 {
            assert_eq!(guards_by(&stages, &proof, 1).len(), 3);
        } else {
            let place = proof.len() - 4;
            assert_eq!(answer_to(&stages, &proof), refused_at(28, place, [6, 0, 2]));
        }
    }
}

/// The branches of a split may differ; whose line it is goes by the cut.
#[test]
fn a_split() {
    let stages = [
        file(1, &[ne(&[1, -3])]),
        file(1, &[le(&[1, -3])]),
        file(1, &[le(&[-1, 3])]),
    ];
    let proof = file(
        1,
        &[
            split(0),
            combine(3, 2, 1, 1),
            close(4),
            combine(3, 1, 1, 1),
            close(4),
        ],
    );
    let files = guards_by(&stages, &proof, 1);
    assert_eq!(
        files[0],
        file(1, &[and(), at_most(&[0, 0]), at_most(&[0, 0])])
    );
    assert_eq!(
        files[1],
        file(1, &[or(), at_most(&[1, -2]), at_most(&[-1, 4])])
    );
}

/// The close that ends the last branch may be a row of an inner step: that one's
/// step and branch are told.
#[test]
fn unlike_outside_an_inner_step() {
    let stages = [file(1, &[le(&[0, 1]), ne(&[0, 1])])];
    let inner =
        |extra: &[Vec<u8>]| [vec![split(1)], extra.to_vec(), vec![close(0), close(0)]].concat();
    let mut rows = vec![strengthen(0)];
    rows.extend(inner(&[]));
    rows.push(close(0));
    rows.extend(inner(&[scale(0, 1)]));
    let proof = file(1, &rows);
    let place = proof.len() - 4;
    // Row 8 closes branch 1 of the split, row 5.
    assert_eq!(answer_to(&stages, &proof), refused_at(28, place, [8, 5, 1]));
    // An unlike step inside a middle branch, which may be as it likes, is told
    // at its own last row.
    let rows = [
        vec![
            strengthen(0),
            close(0),
            strengthen(0),
            close(0),
            close(0),
            scale(0, 1),
            close(0),
        ],
        vec![close(0)],
    ];
    let proof = file(1, &rows.concat());
    let place = proof.len() - 8;
    assert_eq!(answer_to(&stages, &proof), refused_at(28, place, [6, 2, 2]));
}

/// Every claim in its place and of the right length, right or wrong; it belongs
/// to the row before it.
#[test]
fn claims() {
    let right = claim(&[0, 1, -5], &[1, 0, -2]);
    let wrong = claim(&[0, 1, -5], &[1, 0, -3]);
    let short = claim(&[0, 1], &[1, 0]);
    let with = |claim: &Vec<u8>, place: usize| {
        let mut rows = vec![combine(0, 1, 1, 1), combine(3, 2, 1, 1), close(4)];
        rows.insert(place, claim.clone());
        file(2, &rows)
    };
    for claim in [&right, &wrong] {
        let expected = refused_at(27, 17, [0, NONE, NONE]);
        assert_eq!(answer_to(&levels(), &with(claim, 1)), expected);
        let expected = refused(4, 3, 8);
        assert_eq!(answer_to(&levels(), &with(claim, 0)), expected);
        let expected = refused(19, 3, 30);
        assert_eq!(answer_to(&levels(), &with(claim, 3)), expected);
    }
    assert_eq!(answer_to(&levels(), &with(&short, 1)), refused(6, 3, 17));
}

/// A number out of range for any guard: tA is 2,000,000,000x in the cuts between
/// the second and the fourth stage alone, while t is 1.
#[test]
fn out_of_range_in_one_cut() {
    let big = 2_000_000_000;
    let empty = file(1, &[]);
    let (plus, minus) = (two::le(&[big, 0]), two::le(&[-big, 1]));
    let stages = |first: usize, second: usize| {
        let mut fields = vec![Vec::new(); 5];
        fields[first].push(plus.clone());
        fields[second].push(minus.clone());
        let stage = |fields: &Vec<Vec<u8>>| match fields.is_empty() {
            true => empty.clone(),
            false => two::file(1, fields),
        };
        fields.iter().map(stage).collect::<Vec<_>>()
    };
    let proof = file(1, &[combine(0, 1, 1, 1), scale(2, 2), close(3)]);
    for (first, second) in [(0, 1), (3, 4), (2, 3), (1, 3)] {
        let expected = refused_at(13, 17, [1, NONE, NONE]);
        assert_eq!(answer_to(&stages(first, second), &proof), expected);
    }
    assert_eq!(answer_to(&stages(2, 2), &proof), ACCEPTED);
}

/// 25 comes before all else, also where a sum that wraps would do.
#[test]
fn how_many_stages_and_their_lengths() {
    let stage = file(1, &[le(&[0, 1])]);
    let empty = file(1, &[]);
    let proof = file(1, &[close(0)]);
    let wrong = refused(25, 4, 0);
    for (count, expected) in [(0, wrong), (1, ACCEPTED), (16, ACCEPTED), (17, wrong)] {
        let mut stages = vec![empty.clone(); count];
        if let Some(first) = stages.first_mut() {
            *first = stage.clone();
        }
        assert_eq!(answer_to(&stages, &proof), expected, "{count}");
    }
    let two = [&stage[..], &empty].concat();
    for (lengths, expected) in [
        (vec![15, 8], ACCEPTED),
        (vec![15, 9], wrong),
        (vec![15, 7], wrong),
        (vec![15], wrong),
        (vec![15, 8, 0], refused(2, 13, 0)),
        (vec![usize::MAX, 24], wrong),
        (vec![15, 8, usize::MAX, 1], wrong),
        (vec![1 << 63, 1 << 63, 23], wrong),
    ] {
        let (answer, _) = guards_of(&two, &lengths, &proof, 999, 17);
        assert_eq!(answer, expected, "{lengths:?}");
        // Whatever else is wrong.
        let (other, _) = guards_of(&two, &lengths, &[9; 70_000], 0, 0);
        assert_eq!(other == wrong, expected == wrong, "{lengths:?}");
    }
}

/// The order: each stage's length and the proof's, the stages in turn, 26, the
/// proof, 20.
#[test]
fn the_order_of_files() {
    let right = file(1, &[le(&[0, 1])]);
    let long = fill(&right, 8_193);
    let tag = file(1, &[field(0x06, &[])]);
    let other_k = file(2, &[]);
    let proof = file(1, &[close(0)]);
    let long_proof = fill(&proof, 65_537);
    let wrong_proof = file(1, &[field(0x06, &[])]);
    // Lengths before fields, in turn.
    let stages = |second: &Vec<u8>, third: &Vec<u8>| [right.clone(), second.clone(), third.clone()];
    assert_eq!(
        answer_to(&stages(&tag, &long), &long_proof),
        refused(1, 13, 0)
    );
    assert_eq!(answer_to(&stages(&long, &long), &proof), refused(1, 12, 0));
    assert_eq!(
        answer_to(&stages(&tag, &tag), &long_proof),
        refused(1, 3, 0)
    );
    assert_eq!(
        answer_to(&stages(&tag, &other_k), &proof),
        refused(3, 12, 8)
    );
    assert_eq!(
        answer_to(&stages(&other_k, &tag), &proof),
        refused(9, 12, 4)
    );
    assert_eq!(
        answer_to(&stages(&right, &other_k), &proof),
        refused(9, 13, 4)
    );
    assert_eq!(
        answer_to(&[other_k.clone(), right.clone()], &proof),
        refused(9, 12, 4)
    );
    assert_eq!(answer_to(&[other_k], &proof), refused(9, 3, 4));
    // 32 constraints a stage, 64 together.
    let many = |count: usize| file(1, &vec![le(&[0, 1]); count]);
    assert_eq!(answer_to(&[many(33)], &proof), refused(8, 11, 232));
    assert_eq!(answer_to(&[many(32), many(32)], &proof), ACCEPTED);
    let crowded = [many(32), many(32), many(1)];
    assert_eq!(answer_to(&crowded, &wrong_proof), refused(26, 4, 0));
    let crowded = [many(32), many(32), many(1), tag];
    assert_eq!(answer_to(&crowded, &proof), refused(3, 14, 8));
    assert_eq!(answer_to(&[right], &file(1, &[])), refused(20, 3, 8));
}

/// A side of a cut may have more constraints than a bundle.
#[test]
fn sides_of_more_than_32() {
    let stages = [
        file(1, &vec![le(&[0, 1]); 32]),
        file(1, &vec![le(&[0, 1]); 32]),
    ];
    let proof = file(1, &[combine(0, 63, 1, 1), close(64)]);
    let (answer, files) = guards_into(&stages, &proof, 57, 3);
    assert_eq!(answer, ACCEPTED);
    let expected = [[0, 0], [0, 1], [0, 2]].map(|form| file(1, &[at_most(&form)]));
    assert_eq!(files, expected);
}

/// The place of 21 and of 1 is the bytes of all guards; sizes are asked for too.
#[test]
fn outputs() {
    for (length, sizes) in [(91, 4), (92, 3), (999, 0), (0, 99)] {
        let (answer, _) = guards_into(&levels(), &sums(), length, sizes);
        assert_eq!(answer, refused(21, 4, 92));
    }
    assert_eq!(guards_into(&levels(), &sums(), 92, 4).0, ACCEPTED);
    // Two roundings by 16 inside one by 1, over 13 constants: too long.
    let mut numbers = [0; 14];
    numbers[13] = 1;
    let stages = [file(13, &[le(&numbers)])];
    let alike = |depth: usize| {
        (0..depth).fold(vec![close(0)], |inside, _| {
            [vec![round(0, 17, 16)], vec![inside; 17].concat()].concat()
        })
    };
    let rows = [vec![round(0, 17, 1)], alike(2), alike(2)].concat();
    let proof = file(13, &rows);
    let (answer, _) = guards_into(&stages, &proof, 0, 0);
    let needed = answer.place;
    assert_eq!(answer, refused(1, 4, needed));
    assert!(needed > 2 * 65_536 && needed.is_multiple_of(2));
    let (answer, _) = guards_into(&stages, &proof, needed, 2);
    assert_eq!(answer, refused(1, 4, needed));
}

/// Refusals of rows have their row, and the step and branch open there.
#[test]
fn rows_of_a_run() {
    let stages = [file(1, &[le(&[0, 1])])];
    let proof = file(1, &[strengthen(0), scale(7, 1)]);
    assert_eq!(answer_to(&stages, &proof), refused_at(10, 12, [1, 0, 0]));
    let proof = file(
        1,
        &[
            strengthen(0),
            close(0),
            scale(0, 1),
            claim(&[0, 1], &[0, 0]),
        ],
    );
    assert_eq!(answer_to(&stages, &proof), refused_at(27, 22, [2, 0, 1]));
    let proof = file(1, &[strengthen(0), close(0)]);
    assert_eq!(answer_to(&stages, &proof), refused_at(20, 16, [NONE, 0, 1]));
}
