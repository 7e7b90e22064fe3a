//! The paper's five plausible but wrong readings, and those of reduced stride
//! formulas, of roundings, of splits and of edition 2; each test fails for a checker with that fault. (But for one: since
//! stride formulas are reduced, constants that only A has are gone from them
//! whether a checker drops them or not.)

mod common;
use common::*;

#[test]
fn the_first_branch_has_the_raised_partial_interpolant_and_the_third_not() {
    let a = file(1, &[le(&[2, -1])]);
    let b = file(1, &[le(&[-2, 1])]);
    let branch = [combine(2, 1, 1, 1), close(3)].concat();
    let proof = file(1, &[strengthen(0), branch.clone(), stride(2, 2), branch]);
    let expected = file(
        1,
        &[
            or(),
            at_most(&[2, 0]),
            and(),
            divides(2, &[0, 1]),
            at_most(&[2, -1]),
        ],
    );
    assert_eq!(formula(&a, &b, &proof), expected);
    // The same seen by claims in each branch.
    let claimed = |partial: i32| {
        [
            scale(2, 1),
            claim(&[2, 0], &[2, partial]),
            combine(2, 1, 1, 1),
            close(4),
        ]
        .concat()
    };
    let rows = |first: i32, third: i32| {
        file(
            1,
            &[strengthen(0), claimed(first), stride(2, 2), claimed(third)],
        )
    };
    assert_eq!(formula(&a, &b, &rows(0, -1)), expected);
    assert_eq!(answer(&a, &b, &rows(-1, 0)), refused(14, 3, 18));
    assert_eq!(answer(&a, &b, &rows(-1, -1)), refused(14, 3, 18));
    let place = 18 + claimed(0).len() + stride(2, 2).len();
    assert_eq!(answer(&a, &b, &rows(0, 0)), refused(14, 3, place));
}

#[test]
fn a_stride_formula_has_no_constants_that_only_a_has() {
    let a = file(3, &[eq(&[-2, 1, 0, 0])]);
    let b = file(3, &[eq(&[0, -1, 2, 1])]);
    let proof = file(3, &[reduce(1, 0, 1), stride(2, 2)]);
    let expected = file(3, &[divides(2, &[0, 1, 0, 0])]);
    assert_eq!(formula(&a, &b, &proof), expected);
}

/// "5 divides u" for a tA of x, y and d; B has what makes t 5 times a form.
fn divided_by_5(x: i16, y: i16, d: i16) -> Vec<u8> {
    let a = file(2, &[eq(&[x, y, d])]);
    let b = file(2, &[eq(&[-x, 5 - y, 1 - d])]);
    let proof = file(2, &[reduce(1, 0, 1), stride(2, 5)]);
    formula(&a, &b, &proof)
}

#[test]
fn a_negative_number_is_reduced_upwards() {
    let expected = file(2, &[divides(5, &[4, 3, 2])]);
    for (x, y, d) in [(-1, -2, -3), (-6, -7, -8), (4, 3, 2), (-1, 8, -33)] {
        assert_eq!(divided_by_5(x, y, d), expected);
    }
    // Neither the remainder of the absolute value nor a negative one.
    for wrong in [[1, 2, 3], [-1, -2, -3]] {
        assert_ne!(divided_by_5(-1, -2, -3), file(2, &[divides(5, &wrong)]));
    }
    // Nor the number nearest to 0, where that is negative.
    assert_ne!(divided_by_5(4, 3, 2), file(2, &[divides(5, &[-1, -2, 2])]));
}

#[test]
fn d_is_reduced_like_the_coefficients_and_the_coefficients_like_d() {
    assert_eq!(divided_by_5(1, 2, 8), file(2, &[divides(5, &[1, 2, 3])]));
    assert_eq!(divided_by_5(1, 2, -1), file(2, &[divides(5, &[1, 2, 4])]));
    assert_eq!(divided_by_5(8, -9, 3), file(2, &[divides(5, &[3, 1, 3])]));
}

#[test]
fn remainders_go_from_0_to_g_less_1() {
    // Not from 1 to g, and not one too many.
    assert_eq!(divided_by_5(5, -5, 10), file(2, &[divides(5, &[0, 0, 0])]));
    assert_eq!(divided_by_5(0, 4, 9), file(2, &[divides(5, &[0, 4, 4])]));
    assert_eq!(divided_by_5(6, 1, 11), file(2, &[divides(5, &[1, 1, 1])]));
}

#[test]
fn the_stride_itself_and_number_closes_are_not_reduced() {
    // 2 would do for "4 divides 2x + 2", but g stays.
    let a = file(1, &[eq(&[2, 2])]);
    let b = file(1, &[eq(&[2, 1])]);
    let proof = file(1, &[reduce(1, 0, 1), stride(2, 4)]);
    assert_eq!(formula(&a, &b, &proof), file(1, &[divides(4, &[2, 2])]));
    // -7x - 8 = 0 by number.
    let a = file(1, &[eq(&[-7, -8])]);
    let b = file(1, &[eq(&[7, 9])]);
    let proof = file(1, &[reduce(1, 0, 1), close(2)]);
    assert_eq!(formula(&a, &b, &proof), file(1, &[equals(&[-7, -8])]));
}

#[test]
fn multipliers_of_inequalities_have_no_sign() {
    // -1 times x ≤ 0 plus x+1 ≤ 0 would be 1 ≤ 0, though x = -1 meets both.
    let a = file(1, &[le(&[1, 0])]);
    let b = file(1, &[le(&[1, 1])]);
    for (row, t, partial) in [
        (combine(0, 1, 0xFFFF, 1), [65_536, 1], [65_535, 0]),
        (combine(0, 1, 1, 0xFFFF), [65_536, 65_535], [1, 0]),
        (combine(0, 1, 0x8000, 0x8000), [65_536, 32_768], [32_768, 0]),
        (scale(1, 0xFFFF), [65_535, 65_535], [0, 0]),
        (scale(0, 0x8000), [32_768, 0], [32_768, 0]),
    ] {
        let stated = file(1, &[row.clone(), claim(&t, &partial)]);
        assert_eq!(answer(&a, &b, &stated), refused(20, 3, stated.len()));
        let closed = file(1, &[row.clone(), close(2)]);
        assert_eq!(answer(&a, &b, &closed), refused(15, 3, 8 + row.len()));
    }
    // A reduce takes an equality only.
    let proof = file(1, &[reduce(1, 0, -1), close(2)]);
    assert_eq!(answer(&a, &b, &proof), refused(11, 3, 8));
}

#[test]
fn lines_of_a_closed_branch_are_not_counted_on() {
    let a = file(1, &[le(&[1, 0]), eq(&[0, 1])]);
    let b = file(1, &[]);
    // 3 lines and 100 new ones in each branch: 128 would be passed in the second.
    let mut rows = vec![strengthen(0)];
    for _ in 0..3 {
        rows.extend(vec![scale(0, 1); 100]);
        rows.push(close(1));
    }
    assert_eq!(answer(&a, &b, &file(1, &rows)), ACCEPTED);
    // The line that starts a branch has the same number in all three.
    let branch = [scale(2, 2), scale(3, 2), close(1)].concat();
    let proof = file(1, &[strengthen(0), branch.clone(), branch.clone(), branch]);
    assert_eq!(answer(&a, &b, &proof), ACCEPTED);
}

#[test]
fn an_unknown_tag_below_0x80_is_not_passed_over() {
    let a = file(1, &[le(&[1, 0])]);
    let b = file(1, &[le(&[-1, 1])]);
    let proof = file(1, &[combine(0, 1, 1, 1), close(2)]);
    let formula = formula(&a, &b, &proof);
    let unknown = |tag| field(tag, &[]);
    for tag in [
        0x00, 0x06, 0x07, 0x0F, 0x18, 0x19, 0x1F, 0x21, 0x30, 0x36, 0x7F,
    ] {
        let with = |bytes: &[u8]| [bytes, &unknown(tag)].concat();
        assert_eq!(answer(&with(&a), &b, &proof), refused(3, 1, 15));
        assert_eq!(answer(&a, &with(&b), &proof), refused(3, 2, 15));
        assert_eq!(answer(&a, &b, &with(&proof)), refused(3, 3, 21));
        assert_eq!(test(&with(&formula), &[0]), Err(refused(3, 3, 19)));
        assert_eq!(read(&with(&a)).answer, refused(3, 1, 15));
        assert_eq!(show_part(&a, &with(&b), 0).0, refused(3, 2, 15));
    }
}

/// A, B and the rows up to a rounding by 5 and 3, as in section 6.1 of the source; each branch starts with line 6.
fn rounded(branch: impl Fn(i32) -> Vec<u8>) -> [Vec<u8>; 3] {
    let rows = [combine(0, 3, 1, 1), combine(1, 2, 1, 1), round(4, 5, 3)];
    let branches = [3, 0, 1, 2].map(branch);
    [
        file(3, &[le(&[5, -1, 0, -1]), le(&[-5, 1, 0, 0])]),
        file(3, &[le(&[0, -1, 5, 1]), le(&[0, 1, -5, -2])]),
        file(3, &[rows.concat(), branches.concat()]),
    ]
}

/// What the check of that stage writes.
fn rounded_formula() -> Vec<u8> {
    let [a, b, proof] = rounded(|_| [combine(6, 5, 1, 1), close(7)].concat());
    formula(&a, &b, &proof)
}

/// Ij and Ej of that stage.
fn closed(j: i32) -> Vec<u8> {
    at_most(&[0, 0, 0, j - 1])
}

fn divided(j: i32) -> Vec<u8> {
    divides(5, &[0, 4, 0, (j - 1).rem_euclid(5)])
}

/// The formula of a rounding by 3, given Ij and Ej.
fn joined(i: impl Fn(i32) -> Vec<u8>, e: impl Fn(i32) -> Vec<u8>) -> Vec<u8> {
    let pair = |j| [and(), e(j), i(j)].concat();
    file(3, &[or(), i(3), or(), pair(0), or(), pair(1), pair(2)])
}

#[test]
fn a_rounding_is_nested_to_the_right_with_the_last_amount_first() {
    let written = rounded_formula();
    assert_eq!(written, joined(closed, divided));
    let pair = |j| [and(), divided(j), closed(j)].concat();
    let last_first = [or(), closed(3)].concat();
    for wrong in [
        // To the left.
        [vec![or(); 3].concat(), closed(3), pair(0), pair(1), pair(2)].concat(),
        // In the order 0 to k.
        [or(), pair(0), or(), pair(1), or(), pair(2), closed(3)].concat(),
        // An "or" before the last pair too, or none between the pairs.
        [
            &last_first[..],
            &[or(), pair(0), or(), pair(1), or(), pair(2)].concat(),
        ]
        .concat(),
        [&last_first[..], &[pair(0), pair(1), pair(2)].concat()].concat(),
    ] {
        assert_ne!(written, file(3, &[wrong]));
    }
}

#[test]
fn a_pair_of_a_rounding_has_its_stride_part_first_and_of_its_own_amount() {
    let written = rounded_formula();
    // I before E; E of tA for all; E of t; one tA for all; tA raised by 1 in the first.
    let swapped = |j| [and(), closed(j), divided(j)].concat();
    let other = [
        or(),
        closed(3),
        or(),
        swapped(0),
        or(),
        swapped(1),
        swapped(2),
    ];
    assert_ne!(written, file(3, &other));
    assert_ne!(written, joined(closed, |_| divided(0)));
    assert_ne!(
        written,
        joined(closed, |j| divides(5, &[0, 0, 0, (j + 2) % 5]))
    );
    assert_ne!(written, joined(closed, |j| divides(5, &[5, -1, 0, j - 1])));
    assert_ne!(written, joined(|_| closed(0), divided));
    assert_ne!(
        written,
        joined(|j| closed(if j == 3 { 1 } else { j }), divided)
    );
}

#[test]
fn the_branches_of_a_rounding_start_with_t_raised_by_k() {
    // Each branch states its line in some reading.
    let reading = |t: fn(i32) -> i32, partial: fn(i32) -> i32| {
        let [a, b, proof] = rounded(|j| {
            let stated = claim(&[5, 0, -5, t(j) - 3], &[5, -1, 0, partial(j) - 1]);
            [scale(6, 1), stated, combine(6, 5, 1, 1), close(8)].concat()
        });
        answer(&a, &b, &proof).number
    };
    assert_eq!(reading(|_| 3, |j| j), 0);
    // t+j for t+k; one tA for all; raised by 1 in the first; from 0 to k in file order.
    assert_eq!(reading(|j| j, |j| j), 14);
    assert_eq!(reading(|_| 3, |_| 3), 14);
    assert_eq!(reading(|_| 3, |_| 0), 14);
    assert_eq!(reading(|_| 3, |j| if j == 3 { 1 } else { j }), 14);
    assert_eq!(reading(|_| 1, |j| j), 14);
    assert_eq!(reading(|_| 3, |j| (j + 1) % 4), 14);
}

#[test]
fn a_rounding_goes_up_to_16_and_to_the_multiple_itself() {
    // 20 divides d + 17, and nothing before.
    let a = file(1, &[le(&[20, 3]), eq(&[0, 1])]);
    let b = file(1, &[]);
    for k in [16, 17] {
        let rows = [vec![round(0, 20, k)], vec![close(1); usize::from(k) + 1]].concat();
        let expected = if k == 16 { ACCEPTED } else { refused(12, 3, 8) };
        assert_eq!(answer(&a, &b, &file(1, &rows)), expected);
    }
    // 20 divides d + 5: by 5 it stands, by 6 it does not.
    let a = file(1, &[le(&[20, 15]), eq(&[0, 1])]);
    for k in [4, 5, 6] {
        let rows = [vec![round(0, 20, k)], vec![close(1); usize::from(k) + 1]].concat();
        let expected = if k < 6 { ACCEPTED } else { refused(15, 3, 8) };
        assert_eq!(answer(&a, &b, &file(1, &rows)), expected);
    }
}

/// y is not 3 in one bundle, and 3 in the other: A, B and the proof that splits the first and states each new line, given
/// the two partial interpolants. The lines are 0 to 2, those of the disequality's bundle first or last.
fn interlock(own: bool, first: [i32; 2], second: [i32; 2]) -> [Vec<u8>; 3] {
    let distinct = file(1, &[ne(&[1, -3])]);
    let equal = file(1, &[le(&[1, -3]), le(&[-1, 3])]);
    let (line, most, least) = if own { (0, 1, 2) } else { (2, 0, 1) };
    let proof = file(
        1,
        &[
            split(line),
            scale(3, 1),
            claim(&[1, -2], &first),
            combine(3, least, 1, 1),
            close(5),
            scale(3, 1),
            claim(&[-1, 4], &second),
            combine(3, most, 1, 1),
            close(5),
        ],
    );
    if own {
        [distinct, equal, proof]
    } else {
        [equal, distinct, proof]
    }
}

fn interlocked(own: bool, first: [i32; 2], second: [i32; 2]) -> Result<Vec<u8>, u8> {
    let [a, b, proof] = interlock(own, first, second);
    let (answer, bytes) = check_all(&a, &b, &proof);
    if answer == ACCEPTED {
        Ok(bytes)
    } else {
        Err(answer.number)
    }
}

#[test]
fn a_split_is_an_or_for_a_and_an_and_for_b() {
    let own = interlocked(true, [1, -2], [-1, 4]).unwrap();
    let parts = [at_most(&[1, -2]), at_most(&[-1, 4])];
    assert_eq!(own, file(1, &[or(), parts.concat()]));
    let theirs = interlocked(false, [0, 0], [0, 0]).unwrap();
    let parts = [at_most(&[-1, 3]), at_most(&[1, -3])];
    assert_eq!(theirs, file(1, &[and(), parts.concat()]));
    // True wherever A holds, false wherever B does.
    for y in -10..=10 {
        assert_eq!(test(&own, &[y]), Ok(y != 3));
        assert_eq!(test(&theirs, &[y]), Ok(y == 3));
    }
}

#[test]
fn the_branches_of_a_split_have_their_own_partial_interpolants() {
    // A's are the forms themselves: not 0, not tA as it stands, not exchanged.
    for wrong in [
        ([0, 0], [0, 0]),
        ([1, -3], [-1, 3]),
        ([1, -3], [-1, 4]),
        ([1, -2], [-1, 3]),
        ([1, -2], [1, -2]),
        ([-1, 4], [1, -2]),
    ] {
        assert_eq!(interlocked(true, wrong.0, wrong.1), Err(14));
    }
    // B's are 0, and not raised.
    for wrong in [
        ([0, 1], [0, 1]),
        ([0, 1], [0, 0]),
        ([0, 0], [0, 1]),
        ([1, -2], [-1, 4]),
    ] {
        assert_eq!(interlocked(false, wrong.0, wrong.1), Err(14));
    }
}

#[test]
fn whose_a_disequality_is_goes_by_its_place() {
    // 0 ≠ 0: t and tA are 0 in both bundles.
    let (with, without) = (file(1, &[ne(&[0, 0])]), file(1, &[]));
    let proof = file(1, &[split(0), close(1), close(1)]);
    let part = |d: i32| at_most(&[0, d]);
    let expected = file(1, &[or(), part(1), part(1)]);
    assert_eq!(formula(&with, &without, &proof), expected);
    let expected = file(1, &[and(), part(0), part(0)]);
    assert_eq!(formula(&without, &with, &proof), expected);
    // In both, the last of A's and the first of B's.
    let a = file(1, &[le(&[1, 0]), ne(&[0, 0])]);
    let b = file(1, &[ne(&[0, 0]), le(&[-1, 0])]);
    for (line, junction, d) in [(1, or(), 1), (2, and(), 0)] {
        let proof = file(1, &[split(line), close(4), close(4)]);
        let expected = file(1, &[junction, part(d), part(d)]);
        assert_eq!(formula(&a, &b, &proof), expected);
    }
}

#[test]
fn a_disequality_counts_as_occurring() {
    // Over x and z; x stands in B's disequality only. In the second branch 2z + 1 ≤ 0 with x + 2z is rounded by 2.
    let a = file(2, &[le(&[1, 2, 0])]);
    let b = file(2, &[ne(&[1, 0, 0]), eq(&[0, 0, 1])]);
    let rows = [
        split(1),
        close(2),
        combine(0, 3, 1, 1),
        claim(&[0, 2, 1], &[1, 2, 0]),
        round(4, 2, 1),
        close(2),
        close(2),
    ];
    let leaf = || equals(&[0, 0, 0]);
    let expected = [
        and(),
        leaf(),
        or(),
        leaf(),
        and(),
        divides(2, &[1, 0, 0]),
        leaf(),
    ];
    assert_eq!(formula(&a, &b, &file(2, &rows)), file(2, &expected));
}

#[test]
fn a_disequality_may_only_be_split() {
    // 1 ≠ 0 is true, so no close may take it; 0 ≠ 0 is false, and may be split only.
    for d in [1, 0] {
        let a = file(1, &[ne(&[0, d]), eq(&[1, 0]), le(&[1, 0])]);
        let b = file(1, &[]);
        for row in [
            close(0),
            stride(0, 2),
            scale(0, 1),
            reduce(0, 1, 1),
            reduce(1, 0, 1),
            reduce(2, 0, 1),
            combine(0, 2, 1, 1),
            combine(2, 0, 1, 1),
            strengthen(0),
            round(0, 2, 1),
        ] {
            assert_eq!(answer(&a, &b, &file(1, &[row])), refused(11, 3, 8));
        }
        let proof = file(1, &[split(0)]);
        assert_eq!(answer(&a, &b, &proof), refused(20, 3, 12));
    }
}

#[test]
fn the_late_1_stands_at_place_0_and_after_5() {
    // Not at the place of 0x01, which is 7 here.
    let late = fill(&[note(), file(1, &[])].concat(), 5_000);
    assert_eq!(read(&late).answer, refused(1, 1, 0));
    // Not before 5, and not for an edition that is not there.
    let other = fill(&[note(), file_of(3, 1, &[])].concat(), 5_000);
    assert_eq!(read(&other).answer, refused(5, 1, 7));
}

#[test]
fn an_edition_1_bundle_of_5000_bytes_is_refused_also_where_its_notes_fill_it() {
    let (a, b) = (file(1, &[le(&[0, 1])]), file(1, &[]));
    let proofs = [file(1, &[close(0)]), two::file(1, &[two::close(0)])];
    for proof in &proofs {
        assert_eq!(answer(&a, &b, proof), ACCEPTED);
        assert_eq!(answer(&fill(&a, 5_000), &b, proof), refused(1, 1, 0));
        assert_eq!(answer(&a, &fill(&b, 5_000), proof), refused(1, 2, 0));
        // Neither by what the other files are in.
        let second = two::file(1, &[two::le(&[0, 1])]);
        assert_eq!(answer(&fill(&second, 8_192), &b, proof), ACCEPTED);
        let expected = refused(1, 2, 0);
        assert_eq!(answer(&second, &fill(&b, 5_000), proof), expected);
    }
}

#[test]
fn the_lines_on_a_branch_go_by_the_proof() {
    let line = [eq(&[0, 1]), two::eq(&[0, 1])];
    for (number, field) in [1, 2].into_iter().zip(line) {
        let a = file_of(number, 1, &[field]);
        for (other, row, most) in [(1, scale(0, 1), 128), (2, two::scale(0, 1), 1_000)] {
            let full = file_of(other, 1, &[row.repeat(most - 1)]);
            let over = [full.clone(), row].concat();
            for b in [file(1, &[]), two::file(1, &[])] {
                assert_eq!(answer(&a, &b, &full), refused(20, 3, full.len()));
                assert_eq!(answer(&a, &b, &over), refused(16, 3, full.len()));
            }
        }
    }
}

#[test]
fn the_lowest_number_comes_after_8_and_that_of_two_bytes_stands() {
    let full = two::file(1, &vec![two::le(&[0, 1]); 32]);
    let over = [full.clone(), two::le(&[0, i32::MIN])].concat();
    assert_eq!(read(&over).answer, refused(8, 1, full.len()));
    assert_eq!(read(&file(1, &[le(&[-32_768, 0])])).answer, ACCEPTED);
    let negative = two::file(1, &[two::le(&[-32_768, 0])]);
    assert_eq!(read(&negative).answer, ACCEPTED);
    // Written in edition 1 it stands too, and in both at the end of the range.
    assert_eq!(write_of(1, 1, &[0], &[-32_768, 0], 99).0, ACCEPTED);
    assert_eq!(write_of(2, 1, &[0], &[-32_768, -i32::MAX], 99).0, ACCEPTED);
}

#[test]
fn a_formula_stays_in_edition_1() {
    let a = two::file(1, &[two::le(&[0, 1])]);
    let b = two::file(1, &[]);
    let written = formula(&a, &b, &two::file(1, &[two::close(0)]));
    assert_eq!(written, file(1, &[at_most(&[0, 1])]));
    let other = two::file(1, &[at_most(&[0, 1])]);
    assert_eq!(test(&other, &[0]), Err(refused(5, 3, 0)));
}

#[test]
fn line_numbers_stand_two_bytes_apart() {
    // Read one byte apart, combine 1, 0 would name the lines 0 and 1.
    let a = file(1, &[le(&[3, 0]), le(&[5, 0])]);
    let b = file(1, &[]);
    let stated = |t: i32| {
        let row = two::combine(1, 0, 1, 2);
        let proof = two::file(1, &[row, claim(&[t, 0], &[t, 0])]);
        answer(&a, &b, &proof).number
    };
    assert_eq!(stated(11), 20);
    assert_eq!(stated(13), 14);
    // And a multiplier behind one: not 0x0000, not 0x0201.
    let row = [0x12, 0, 4, 0, 1, 2, 3];
    let form = [5 * 0x0203, 0];
    let proof = two::file(1, &[row.to_vec(), claim(&form, &form)]);
    assert_eq!(answer(&a, &b, &proof), refused(20, 3, proof.len()));
}

#[test]
fn writing_tells_the_index_of_the_number_and_not_of_its_constraint() {
    let numbers = [0, 1, 2, 3, 4, 40_000];
    let answer = write_of(1, 2, &[0, 0], &numbers, 99).0;
    assert_eq!(answer, refused(13, 4, 5));
}
