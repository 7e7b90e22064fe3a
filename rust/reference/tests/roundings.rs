//! Row 0x16: rounding by several at once.

mod common;
use common::*;
use reference::{Answer, NONE};

const N: u16 = NONE;

/// The bundles of section 6.1 of the source, over x, y and z. Lines 0 "5x-y-1 ≤ 0" and 1 "-5x+y ≤ 0" of A, 2 "-y+5z+1 ≤ 0"
/// and 3 "y-5z-2 ≤ 0" of B.
fn section_6() -> (Vec<u8>, Vec<u8>) {
    let a = file(3, &[le(&[5, -1, 0, -1]), le(&[-5, 1, 0, 0])]);
    let b = file(3, &[le(&[0, -1, 5, 1]), le(&[0, 1, -5, -2])]);
    (a, b)
}

/// Line 4 is 5x-5z-3 ≤ 0 with 5x-y-1, line 5 is -5x+5z+1 ≤ 0 with -5x+y.
fn section_6_start() -> Vec<Vec<u8>> {
    vec![combine(0, 3, 1, 1), combine(1, 2, 1, 1)]
}

#[test]
fn the_stage_of_section_6() {
    let (a, b) = section_6();
    let branch = [combine(6, 5, 1, 1), close(7)].concat();
    let fields = [section_6_start(), vec![round(4, 5, 3)], vec![branch; 4]].concat();
    let number = |d: i32| at_most(&[0, 0, 0, d]);
    // x is not in B, and -1 reduced by 5 is 4.
    let stride = |d: i32| divides(5, &[0, 4, 0, d]);
    let expected = file(
        3,
        &[
            or(),
            number(2),
            or(),
            and(),
            stride(4),
            number(-1),
            or(),
            and(),
            stride(0),
            number(0),
            and(),
            stride(1),
            number(1),
        ],
    );
    let written = formula(&a, &b, &file(3, &fields));
    assert_eq!(written, expected);
    assert_eq!(written.len(), 171);
    // It says that y or y+1 is a multiple of 5.
    for y in -12..=12_i32 {
        let expected = y.rem_euclid(5) == 0 || (y + 1).rem_euclid(5) == 0;
        assert_eq!(test(&written, &[3, y, -2]), Ok(expected));
    }
}

#[test]
fn by_1_it_writes_what_stage_5_writes() {
    let a = file(1, &[le(&[2, -1])]);
    let b = file(1, &[le(&[-2, 1])]);
    let branch = [combine(2, 1, 1, 1), close(3)].concat();
    let rounded = file(1, &[round(0, 2, 1), branch.clone(), branch.clone()]);
    let strengthened = file(1, &[strengthen(0), branch.clone(), stride(2, 2), branch]);
    let expected = file(
        1,
        &[
            or(),
            at_most(&[2, 0]),
            and(),
            divides(2, &[0, 1]),
            at_most(&[2, -1]),
        ],
    );
    assert_eq!(formula(&a, &b, &rounded), expected);
    assert_eq!(formula(&a, &b, &strengthened), expected);
}

#[test]
fn by_2_the_second_or_stands_between_the_pairs() {
    // 3x is at most 2 and at least 1.
    let a = file(1, &[le(&[3, -2])]);
    let b = file(1, &[le(&[-3, 1])]);
    let branch = [combine(2, 1, 1, 1), close(3)].concat();
    let proof = file(1, &[vec![round(0, 3, 2)], vec![branch; 3]].concat());
    let expected = file(
        1,
        &[
            or(),
            at_most(&[3, 0]),
            or(),
            and(),
            divides(3, &[0, 1]),
            at_most(&[3, -2]),
            and(),
            divides(3, &[0, 2]),
            at_most(&[3, -1]),
        ],
    );
    assert_eq!(formula(&a, &b, &proof), expected);
}

/// The formula of a rounding by k of "d ≤ 0" over one constant, its branches closed by "1 = 0" of B: the stride is g, tA is d.
fn constant_formula(g: i32, d: i32, k: i32) -> Vec<u8> {
    let leaf = equals(&[0, 0]);
    let mut parts = vec![or(), leaf.clone()];
    for j in 0..k {
        if j < k - 1 {
            parts.push(or());
        }
        parts.extend([and(), divides(g, &[0, (d + j).rem_euclid(g)]), leaf.clone()]);
    }
    file(1, &parts)
}

#[test]
fn every_amount_and_its_levels() {
    let b = file(1, &[eq(&[0, 1])]);
    for k in 1..=16u16 {
        for (g, d) in [(17, 1), (17, -16), (65_535, -20), (40_000, 3), (300, -316)] {
            let a = file(1, &[le(&[0, d])]);
            let rows = [vec![round(0, g, k)], vec![close(1); usize::from(k) + 1]].concat();
            let (g, d) = (i32::from(g), i32::from(d));
            let expected = constant_formula(g, d, i32::from(k));
            let closed = file(1, &rows);
            assert_eq!(formula(&a, &b, &closed), expected, "{k}");
            // One close fewer, one more.
            let fewer = &closed[..closed.len() - 4];
            assert_eq!(answer(&a, &b, fewer), refused(20, 3, fewer.len()));
            let more = [closed.clone(), close(1)].concat();
            assert_eq!(answer(&a, &b, &more), refused(19, 3, closed.len()));
        }
    }
}

/// The rows of a branch that states its new line, line 6 of section 6.1, and closes.
fn stated(t_raised: i32, raised: i32) -> Vec<u8> {
    [
        scale(6, 1),
        claim(&[5, 0, -5, -3 + t_raised], &[5, -1, 0, -1 + raised]),
        combine(6, 5, 1, 1),
        close(8),
    ]
    .concat()
}

#[test]
fn each_branch_starts_with_t_raised_by_k_and_its_own_partial_interpolant() {
    let (a, b) = section_6();
    let with = |branches: [Vec<u8>; 4]| {
        let rows = [section_6_start(), vec![round(4, 5, 3)], branches.to_vec()];
        file(3, &rows.concat())
    };
    let right = [3, 0, 1, 2].map(|j| stated(3, j));
    assert_eq!(answer(&a, &b, &with(right.clone())), ACCEPTED);
    let start = with([vec![], vec![], vec![], vec![]]).len();
    let long = stated(0, 0).len();
    for branch in 0..4 {
        let place = start + branch * long + scale(6, 1).len();
        let row = 3 + 3 * branch as u16;
        for t_raised in 0..5 {
            for raised in -1..5 {
                let mut other = right.clone();
                other[branch] = stated(t_raised, raised);
                let expected = if other == right {
                    ACCEPTED
                } else {
                    refused_at(14, place, [row, 2, branch as u16])
                };
                assert_eq!(whole_answer(&a, &b, &with(other)), expected);
            }
        }
    }
}

#[test]
fn the_stride_parts_keep_only_the_constants_of_b() {
    // x is A's, y both have, z is B's; t is 6x + 3y + 9z - 4 with 6x + 2y - 4.
    let a = file(3, &[le(&[6, 2, 0, -4])]);
    let b = file(3, &[le(&[0, 1, 9, 0]), eq(&[0, 0, 0, 1])]);
    let rows = [combine(0, 1, 1, 1), round(3, 3, 1), close(2), close(2)];
    let leaf = equals(&[0, 0, 0, 0]);
    let expected = file(
        3,
        &[or(), leaf.clone(), and(), divides(3, &[0, 2, 0, 2]), leaf],
    );
    assert_eq!(formula(&a, &b, &file(3, &rows)), expected);
}

/// A: 0 "17x+1 ≤ 0", which may be rounded by 17 and any amount, 1 "1 = 0", which closes any branch, 2 "1 ≤ 0". B is empty.
fn bundles() -> (Vec<u8>, Vec<u8>) {
    (
        file(1, &[le(&[17, 1]), eq(&[0, 1]), le(&[0, 1])]),
        file(1, &[]),
    )
}

fn over(fields: &[Vec<u8>]) -> Answer {
    let (a, b) = bundles();
    answer(&a, &b, &file(1, fields))
}

/// The last field is refused with the number.
fn last_refused(number: u8, fields: &[Vec<u8>]) {
    let place = file(1, &fields[..fields.len() - 1]).len();
    assert_eq!(over(fields), refused(number, 3, place));
}

/// The rows stand, the table is only unfinished.
fn stands(fields: &[Vec<u8>]) {
    assert_eq!(over(fields), refused(20, 3, file(1, fields).len()));
}

#[test]
fn refusal_10_before_11() {
    for line in 3..=255 {
        last_refused(10, &[round(line, 17, 1)]);
        last_refused(10, &[round(line, 0, 0)]);
    }
    stands(&[round(0, 17, 1)]);
    stands(&[round(2, 17, 1)]);
}

#[test]
fn refusal_11_before_12() {
    for (g, k) in [(17, 1), (0, 1), (1, 1), (17, 0), (17, 17), (0, 65_535)] {
        last_refused(11, &[round(1, g, k)]);
    }
    // What a branch starts with is an inequality.
    for closes in 0..3 {
        let rows = [vec![round(0, 17, 2)], vec![close(1); closes]].concat();
        last_refused(11, &[rows.clone(), vec![reduce(0, 3, 1)]].concat());
        stands(&[rows, vec![combine(0, 3, 1, 1)]].concat());
    }
}

#[test]
fn refusal_12_before_15() {
    for k in [1, 16] {
        last_refused(12, &[round(0, 0, k)]);
        last_refused(12, &[round(0, 1, k)]);
    }
    for k in [0, 17, 18, 256, 257, 272, 32_768, 65_535] {
        last_refused(12, &[round(0, 17, k)]);
        // 5 divides no coefficient of line 0.
        last_refused(12, &[round(0, 5, k)]);
        last_refused(12, &[round(2, 65_535, k)]);
    }
    // g has two bytes, and no sign.
    for g in [17, 32_767, 32_768, 65_535] {
        stands(&[round(2, g, 16)]);
    }
    stands(&[scale(2, 65_534), round(3, 65_535, 1)]);
    last_refused(15, &[scale(2, 65_534), round(3, 65_535, 2)]);
}

#[test]
fn refusal_15_goes_by_every_coefficient_and_by_d_up_to_k_less_1() {
    let empty = file(2, &[]);
    for (x, y) in [(0, 0), (6, -3), (-6, 4), (1, 0), (0, 5), (9, 9)] {
        for d in -9..=9 {
            let b = file(2, &[le(&[x, y, d])]);
            for g in 2..=7 {
                for k in 1..=8 {
                    let proof = file(2, &[round(0, g, k)]);
                    let divides = |n: i16| n.rem_euclid(g as i16) == 0;
                    let met = divides(x) && divides(y) && !(0..k).any(|j| divides(d + j as i16));
                    let expected = if met {
                        refused(20, 3, proof.len())
                    } else {
                        refused(15, 3, 8)
                    };
                    assert_eq!(answer(&empty, &b, &proof), expected);
                }
            }
        }
    }
}

#[test]
fn refusal_15_before_17_16_and_13() {
    // Line 0 at 2^31 - 1; g divides it or the next number.
    let a = file(1, &[le(&[0, 32_767]), le(&[0, 1]), eq(&[0, 1])]);
    let b = file(1, &[]);
    let most = vec![
        combine(0, 1, 65_535, 32_767),
        combine(3, 1, 1, 65_535),
        claim(&[0, i32::MAX], &[0, i32::MAX]),
    ];
    let deep = [most.clone(), vec![strengthen(1); 32]].concat();
    let full = [most.clone(), vec![scale(2, 1); 123]].concat();
    let both = [deep.clone(), vec![scale(2, 1); 128 - 37]].concat();
    // 2 divides 2^31, which is one more; 7 does not divide it.
    for (before, good) in [(&most, 13), (&full, 16), (&deep, 17), (&both, 17)] {
        let place = file(1, before).len();
        for (row, number) in [
            (round(200, 2, 2), 10),
            (round(2, 2, 2), 11),
            (round(4, 2, 0), 12),
            (round(4, 2, 2), 15),
            (round(4, 2, 1), good),
            (round(4, 7, 1), good),
        ] {
            let proof = file(1, &[before.clone(), vec![row]].concat());
            assert_eq!(answer(&a, &b, &proof), refused(number, 3, place));
        }
    }
}

#[test]
fn refusal_18_before_10() {
    let (a, b) = bundles();
    // 60 roundings by 16 and 961 closes, three lines more: 1,024 rows.
    let mut rows = vec![scale(0, 1); 4];
    for _ in 0..30 {
        rows.extend([round(0, 17, 16), round(0, 17, 16)]);
        rows.extend(vec![close(1); 31]);
    }
    rows.extend(vec![close(1); 30]);
    assert_eq!(rows.len(), 1_024);
    let place = file(1, &rows).len();
    for row in [round(0, 17, 16), round(255, 0, 0), close(1)] {
        let proof = file(1, &[rows.clone(), vec![row]].concat());
        assert_eq!(answer(&a, &b, &proof), refused(18, 3, place));
    }
    let short = file(1, &[rows[1..].to_vec(), vec![close(1)]].concat());
    assert_eq!(answer(&a, &b, &short), ACCEPTED);
}

#[test]
fn refusal_6_and_4() {
    for length in (0..12).filter(|&length| length != 5) {
        last_refused(6, &[field(0x16, &vec![0; length])]);
    }
    // A claim may not stand after it, of its first line or of no length.
    let claimed = claim(&[17, 3], &[17, 3]);
    last_refused(4, &[round(0, 17, 2), claimed.clone()]);
    last_refused(4, &[round(0, 17, 2), note(), claimed.clone()]);
    last_refused(4, &[scale(0, 1), round(3, 17, 2), claimed]);
    last_refused(4, &[round(0, 17, 2), field(0x20, &[])]);
    last_refused(4, &[round(0, 17, 2), close(1), claim(&[17, 3], &[17, 1])]);
    // In other files it is unknown.
    let (a, b) = bundles();
    let with = |bytes: &[u8]| [bytes, &round(0, 17, 1)].concat();
    assert_eq!(read(&with(&a)).answer, refused(3, 1, a.len()));
    let whole = file(1, &[at_most(&[0, 0])]);
    assert_eq!(test(&with(&whole), &[0]), Err(refused(3, 3, whole.len())));
    // Before the header, and after the root.
    assert_eq!(answer(&a, &b, &round(0, 17, 1)), refused(4, 3, 0));
    last_refused(19, &[close(1), round(0, 17, 1)]);
}

#[test]
fn a_33rd_open_step_of_either_sort() {
    let steps = [strengthen(0), round(0, 17, 1), round(0, 17, 16)];
    for first in &steps {
        for last in &steps {
            let rows = [vec![first.clone(); 16], vec![last.clone(); 16]].concat();
            stands(&rows);
            for more in &steps {
                last_refused(17, &[rows.clone(), vec![more.clone()]].concat());
            }
        }
    }
    // It is open until its last branch is closed.
    let last = |closes: usize| {
        let before = vec![strengthen(0); 31];
        [before, vec![round(0, 17, 3)], vec![close(1); closes]].concat()
    };
    for closes in 0..4 {
        last_refused(17, &[last(closes), vec![round(0, 17, 1)]].concat());
        last_refused(17, &[last(closes), vec![strengthen(0)]].concat());
    }
    stands(&[last(4), vec![round(0, 17, 1)]].concat());
    last_refused(
        17,
        &[last(4), vec![round(0, 17, 1), strengthen(0)]].concat(),
    );
}

#[test]
fn a_rounding_makes_the_128th_line_in_all_its_branches() {
    let (a, b) = bundles();
    let start = [vec![scale(0, 1); 124], vec![round(0, 17, 16)]].concat();
    for closes in 0..17 {
        let rows = [start.clone(), vec![close(1); closes]].concat();
        last_refused(16, &[rows.clone(), vec![scale(0, 1)]].concat());
        last_refused(16, &[rows.clone(), vec![round(0, 17, 1)]].concat());
        last_refused(10, &[rows, vec![scale(128, 1)]].concat());
    }
    let closed = file(1, &[start, vec![close(1); 17]].concat());
    assert_eq!(answer(&a, &b, &closed), ACCEPTED);
    last_refused(
        16,
        &[vec![scale(0, 1); 125], vec![round(0, 17, 1)]].concat(),
    );
    // Lines made in a branch are gone in the next.
    let rows = vec![round(0, 17, 2), scale(3, 1), scale(4, 1), close(1)];
    last_refused(10, &[rows.clone(), vec![scale(4, 1)]].concat());
    stands(&[rows, vec![scale(3, 1), scale(4, 1)]].concat());
}

#[test]
fn refusal_13_for_t_and_for_the_partial_interpolant() {
    let a = file(1, &[le(&[0, 32_767]), le(&[0, 1]), eq(&[0, 1])]);
    let b = file(1, &[le(&[0, -9]), le(&[0, 1])]);
    let highest = 2_147_483_647;
    for k in 1..=16u16 {
        let at = highest - i32::from(k);
        let start = [
            combine(0, 1, 65_535, 32_767),
            combine(5, 1, 1, 65_535 - k),
            claim(&[0, at], &[0, at]),
        ]
        .concat();
        // A prime that divides none of the numbers from there on.
        let g = 65_521;
        let tried = |more: &[Vec<u8>], line: u8| {
            let before = file(1, &[vec![start.clone()], more.to_vec()].concat());
            let proof = [before.clone(), round(line, g, k)].concat();
            (answer(&a, &b, &proof), before.len(), proof.len())
        };
        let (found, _, end) = tried(&[], 6);
        assert_eq!(found, refused(20, 3, end));
        // Both one too high; t alone; tA alone, and just not.
        for more in [
            vec![combine(6, 1, 1, 1)],
            vec![combine(6, 4, 1, 1)],
            vec![combine(6, 1, 1, 1), combine(7, 3, 1, 1)],
        ] {
            let (found, place, _) = tried(&more, 6 + more.len() as u8);
            assert_eq!(found, refused(13, 3, place));
        }
        let (found, _, end) = tried(&[combine(6, 3, 1, 1)], 7);
        assert_eq!(found, refused(20, 3, end));
    }
}

#[test]
fn where_in_the_tree_its_branches_are() {
    let (a, b) = bundles();
    let whole = |fields: &[Vec<u8>]| whole_answer(&a, &b, &file(1, fields));
    let end = |fields: &[Vec<u8>]| file(1, fields).len();
    for k in [1, 2, 16] {
        for branch in 0..=k {
            let before = [
                vec![scale(0, 1), round(0, 17, k)],
                vec![close(1); usize::from(branch)],
            ]
            .concat();
            let row = 2 + branch;
            // The file ends; a row at fault; a step at fault; bytes at fault.
            let expected = refused_at(20, end(&before), [N, 1, branch]);
            assert_eq!(whole(&before), expected);
            for (number, field, row) in [
                (15, close(0), row),
                (15, round(0, 5, 1), row),
                (12, round(0, 17, 17), row),
                (10, round(255, 17, 1), row),
                (3, field(0x7F, &[]), N),
                (6, field(0x16, &[]), N),
                (4, claim(&[17, 1], &[17, 1]), N),
            ] {
                let fields = [before.clone(), vec![field]].concat();
                let expected = refused_at(number, end(&before), [row, 1, branch]);
                assert_eq!(whole(&fields), expected);
            }
            // After an inner rounding is closed, this branch's successor.
            if branch < k {
                let inner = [vec![round(0, 17, 3)], vec![close(1); 4]].concat();
                let fields = [before.clone(), inner].concat();
                let expected = refused_at(20, end(&fields), [N, 1, branch + 1]);
                assert_eq!(whole(&fields), expected);
            }
        }
    }
    // A refused rounding stands in the branch around it.
    let fields = [strengthen(0), close(1), round(0, 17, 0)];
    let expected = refused_at(12, end(&fields[..2]), [2, 0, 1]);
    assert_eq!(whole(&fields), expected);
    let expected = refused_at(15, 8, [0, N, N]);
    assert_eq!(whole(&[round(0, 3, 1)]), expected);
    // A strengthen in its second branch, and the fault behind it.
    let fields = [
        vec![round(0, 17, 2), close(1), strengthen(0)],
        vec![close(1); 3],
        vec![close(0)],
    ]
    .concat();
    let expected = refused_at(15, end(&fields[..6]), [6, 0, 2]);
    assert_eq!(whole(&fields), expected);
}

/// Bundles over K constants with "1 ≤ 0" to be rounded and "1 = 0" to close by, in A.
fn of_ones(k: u8) -> (Vec<u8>, Vec<u8>) {
    let mut one = vec![0; usize::from(k) + 1];
    one[usize::from(k)] = 1;
    (file(k, &[le(&one), eq(&one)]), file(k, &[]))
}

/// 26 roundings by 16 and one by 14, each in the last branch of the one before, and 431 closes, the first so many of them
/// by stride: each is 4 bytes more.
fn long_rows(strides: usize) -> Vec<Vec<u8>> {
    let mut rows = Vec::new();
    let mut left = strides;
    let mut end = |rows: &mut Vec<Vec<u8>>| {
        rows.push(if left > 0 { stride(1, 2) } else { close(1) });
        left = left.saturating_sub(1);
    };
    for _ in 0..26 {
        rows.push(round(0, 17, 16));
        (0..16).for_each(|_| end(&mut rows));
    }
    rows.push(round(0, 17, 14));
    (0..15).for_each(|_| end(&mut rows));
    rows
}

#[test]
fn refusal_1_at_the_end_above_65536_bytes() {
    let (a, b) = of_ones(16);
    // An or, an and and a stride part for each amount, and one close more than amounts.
    let amounts = 26 * 16 + 14;
    let least = 8 + amounts * (6 + 75) + (amounts + 1) * 71;
    for (strides, needed) in [(0, least), (24, 65_535), (25, 65_539), (49, 65_635)] {
        assert_eq!(needed, least + 4 * strides);
        let proof = file(16, &long_rows(strides));
        for lent in [0, needed - 1, needed, 65_536, 65_539, 200_000] {
            let (answer, bytes) = check_whole(&a, &b, &proof, lent);
            if needed > 65_536 {
                assert_eq!(answer, refused(1, 4, needed));
            } else if needed > lent {
                assert_eq!(answer, refused(21, 4, needed));
            } else {
                assert_eq!((answer, bytes.len()), (ACCEPTED, needed));
                assert_eq!(test(&bytes, &[0; 16]), Ok(false));
            }
        }
        // What is wrong with the proof comes first.
        let place = proof.len();
        let after = |more: &[u8]| check_whole(&a, &b, &[&proof[..], more].concat(), 0).0;
        assert_eq!(after(&[0x80, 0]), refused(2, 3, place));
        assert_eq!(after(&field(0x7F, &[])), refused(3, 3, place));
        assert_eq!(after(&close(1)), refused(19, 3, place));
        let open = &proof[..place - 4];
        let expected = refused_at(20, open.len(), [N, 26 * 17, 14]);
        assert_eq!(check_whole(&a, &b, open, 0).0, expected);
        // Notes are no part of it.
        let noted = check_whole(&a, &b, &[proof.clone(), note()].concat(), 200_000).0;
        let expected = if needed > 65_536 {
            refused(1, 4, needed)
        } else {
            ACCEPTED
        };
        assert_eq!(noted, expected);
    }
}

#[test]
fn the_longest_formula_of_all() {
    let (a, b) = of_ones(16);
    let mut rows = vec![scale(0, 1); 3];
    for _ in 0..30 {
        rows.extend([round(0, 17, 16), round(0, 17, 16)]);
        rows.extend(vec![stride(1, 7); 31]);
    }
    rows.extend(vec![stride(1, 7); 31]);
    assert_eq!(rows.len(), 1_024);
    let needed = 8 + 60 * 16 * (6 + 75) + 961 * 75;
    let (answer, _) = check_whole(&a, &b, &file(16, &rows), 200_000);
    assert_eq!(answer, refused(1, 4, needed));
}

#[test]
fn the_deepest_formula_has_544_levels_and_can_be_tested() {
    let (a, b) = of_ones(1);
    // 32 roundings by 16, the next always in the last branch.
    let mut rows = Vec::new();
    for _ in 0..32 {
        rows.push(round(0, 17, 16));
        rows.extend(vec![close(1); 16]);
    }
    rows.push(close(1));
    let written = formula(&a, &b, &file(1, &rows));
    assert_eq!(test(&written, &[0]), Ok(false));
    // Levels by the tags: an or and an and on the way to each pair, and the last pair has no or of its own.
    let (mut level, mut deepest, mut open) = (0, 0, vec![]);
    let mut place = 8;
    while place < written.len() {
        let length = usize::from(written[place + 2]);
        if matches!(written[place], 0x31 | 0x32) {
            level += 1;
            open.push(2);
            deepest = deepest.max(level);
        } else {
            while let Some(parts) = open.last_mut() {
                *parts -= 1;
                if *parts > 0 {
                    break;
                }
                open.pop();
                level -= 1;
            }
        }
        place += 3 + length;
    }
    assert_eq!((deepest, level), (32 * 17, 0));
}
