//! What check accepts and refuses, and in which order.

mod common;
use common::*;
use reference::Answer;

/// Lines: 0 "x ≤ 0" and 1 "2x+1 = 0" of A, 2 "-x+1 ≤ 0" and 3 "3x+4 = 0" of B.
fn bundles() -> (Vec<u8>, Vec<u8>) {
    let a = file(1, &[le(&[1, 0]), eq(&[2, 1])]);
    let b = file(1, &[le(&[-1, 1]), eq(&[3, 4])]);
    (a, b)
}

fn over(proof: &[u8]) -> Answer {
    let (a, b) = bundles();
    answer(&a, &b, proof)
}

/// The rows after the header, the last of them at fault.
fn last_refused(number: u8, fields: &[Vec<u8>]) {
    let place = file(1, &fields[..fields.len() - 1]).len();
    assert_eq!(over(&file(1, fields)), refused(number, 3, place));
}

/// The rows stand, the table is only unfinished.
fn stands(fields: &[Vec<u8>]) {
    let proof = file(1, fields);
    assert_eq!(over(&proof), refused(20, 3, proof.len()));
}

#[test]
fn refusal_1_in_turn_and_before_all_else() {
    let bundle = vec![0x7F; 8_193];
    let proof = vec![0x7F; 65_537];
    assert_eq!(answer(&bundle, &bundle, &proof), refused(1, 1, 0));
    assert_eq!(answer(&[], &bundle, &proof), refused(1, 2, 0));
    assert_eq!(answer(&[], &[], &proof), refused(1, 3, 0));
    assert_eq!(answer(&[], &[], &proof[1..]), refused(2, 1, 0));
    assert_eq!(answer(&bundle[1..], &bundle[1..], &[]), refused(2, 1, 0));
}

#[test]
fn a_proof_of_65536_bytes_is_read_and_65537_not() {
    let (a, b) = bundles();
    let start = file(1, &[combine(0, 2, 1, 1), close(4)]);
    let expected = formula(&a, &b, &start);
    let filler = |length: usize| [start.clone(), field(0x80, &vec![7; length])].concat();
    let full = filler(65_536 - start.len() - 3);
    assert_eq!(full.len(), 65_536);
    assert_eq!(formula(&a, &b, &full), expected);
    let longer = filler(65_537 - start.len() - 3);
    assert_eq!(answer(&a, &b, &longer), refused(1, 3, 0));
}

#[test]
fn bundles_of_4096_bytes_are_read_and_4097_not() {
    let (a, b) = bundles();
    let proof = file(1, &[combine(0, 2, 1, 1), close(4)]);
    let expected = formula(&a, &b, &proof);
    assert_eq!(
        formula(&fill(&a, 4_096), &fill(&b, 4_096), &proof),
        expected
    );
    let answers = [
        answer(&fill(&a, 4_097), &b, &proof),
        answer(&a, &fill(&b, 4_097), &proof),
    ];
    assert_eq!(answers, [refused(1, 1, 0), refused(1, 2, 0)]);
}

#[test]
fn bundles_are_refused_as_in_reading_and_a_comes_first() {
    let (a, b) = bundles();
    let faults: Vec<(Vec<u8>, u8, usize)> = vec![
        (vec![], 2, 0),
        (edition(1), 2, 4),
        (file(1, &[note(), vec![0x03, 0, 4, 0]]), 2, 15),
        (file(1, &[field(0x10, &[0; 6])]), 3, 8),
        (file(1, &[constants(1)]), 4, 8),
        (edition(0), 5, 0),
        (file(1, &[le(&[1, 2, 3])]), 6, 8),
        (file(17, &[]), 7, 4),
        (file(1, &vec![le(&[1, 2]); 33]), 8, 8 + 32 * 7),
    ];
    let broken = vec![0x01];
    for (bytes, number, place) in faults {
        assert_eq!(answer(&bytes, &broken, &broken), refused(number, 1, place));
        assert_eq!(answer(&a, &bytes, &broken), refused(number, 2, place));
    }
    assert_eq!(answer(&a, &b, &broken), refused(2, 3, 0));
}

#[test]
fn refusal_9_in_b_follows_7() {
    let (a, _) = bundles();
    for k in 0..=0xFF {
        let result = answer(&a, &file(k, &[]), &[]);
        let expected = match k {
            1 => refused(2, 3, 0),
            2..=16 => refused(9, 2, 4),
            _ => refused(7, 2, 4),
        };
        assert_eq!(result, expected);
        let result = answer(&a, &file(1, &[]), &file(k, &[]));
        let expected = match k {
            1 => refused(20, 3, 8),
            2..=16 => refused(9, 3, 4),
            _ => refused(7, 3, 4),
        };
        assert_eq!(result, expected);
    }
}

#[test]
fn refusal_9_in_b_comes_before_its_later_fields() {
    let (a, _) = bundles();
    let b = file(2, &[le(&[1, 2])]);
    assert_eq!(answer(&a, &b, &[]), refused(9, 2, 4));
}

#[test]
fn refusal_2_every_cut_of_a_proof() {
    let fields = [
        note(),
        edition(1),
        constants(1),
        note(),
        combine(0, 2, 2, 2),
        note(),
        claim(&[0, 2], &[2, 0]),
        close(4),
        note(),
    ];
    let bytes = fields.concat();
    let mut starts = vec![0];
    for part in &fields {
        starts.push(starts[starts.len() - 1] + part.len());
    }
    for cut in 0..=bytes.len() {
        let start = *starts.iter().rev().find(|&&start| start <= cut).unwrap();
        let expected = if start < cut || cut < starts[3] {
            refused(2, 3, start)
        } else if cut < starts[8] {
            refused(20, 3, cut)
        } else {
            ACCEPTED
        };
        assert_eq!(over(&bytes[..cut]), expected, "cut at {cut}");
    }
}

#[test]
fn refusal_3_for_every_tag_that_a_proof_lacks() {
    let closed = file(1, &[combine(0, 2, 1, 1), close(4)]);
    assert_eq!(over(&closed), ACCEPTED);
    for tag in 0..=0xFF {
        for place in [0, 4, 8, 17, 21] {
            let mut bytes = closed.clone();
            // A length that no known field has.
            bytes.splice(place..place, field(tag, &[0, 1, 1, 1, 1, 1, 1]));
            let result = over(&bytes);
            match tag {
                0x80.. => assert_eq!(result, ACCEPTED),
                0x01 | 0x02 | 0x10..=0x17 | 0x20 => {
                    let number = match (place, tag) {
                        (21, _) => 19,
                        // 0x01 in its own place, but too long.
                        (0, 0x01) | (4, 0x02) => 6,
                        (0 | 4, _) | (_, 0x01 | 0x02) => 4,
                        // A claim after the header; after the row it is in place.
                        (8, 0x20) => 4,
                        _ => 6,
                    };
                    assert_eq!(result, refused(number, 3, place), "{tag:02X} at {place}");
                }
                _ => assert_eq!(result, refused(3, 3, place), "{tag:02X} at {place}"),
            }
            let mut bytes = closed[..place].to_vec();
            bytes.extend([tag, 0, 1]);
            assert_eq!(over(&bytes), refused(2, 3, place));
        }
    }
}

#[test]
fn refusal_19_for_every_known_field_after_the_root_is_closed() {
    let closed = file(1, &[combine(0, 2, 1, 1), close(4), note()]);
    let right = [
        edition(1),
        constants(1),
        combine(0, 2, 1, 1),
        reduce(0, 1, 1),
        scale(0, 1),
        strengthen(0),
        close(4),
        stride(1, 2),
        round(0, 2, 1),
        split(0),
        claim(&[0, 1], &[1, 0]),
    ];
    for later in right {
        let bytes = [closed.clone(), later.clone()].concat();
        assert_eq!(over(&bytes), refused(19, 3, closed.len()));
        // Also where its length is wrong, as 19 comes before 4 and 6.
        let bytes = [closed.clone(), field(later[0], &[])].concat();
        assert_eq!(over(&bytes), refused(19, 3, closed.len()));
        // Not whole comes before.
        let bytes = [&closed[..], &later[..later.len() - 1]].concat();
        assert_eq!(over(&bytes), refused(2, 3, closed.len()));
    }
}

#[test]
fn refusal_4_rows_before_the_header_and_headers_after_it() {
    for tag in [0x02, 0x10, 0x11, 0x12, 0x13, 0x14, 0x15, 0x16, 0x17, 0x20] {
        assert_eq!(over(&field(tag, &[])), refused(4, 3, 0));
    }
    for tag in [0x01, 0x10, 0x11, 0x12, 0x13, 0x14, 0x15, 0x16, 0x17, 0x20] {
        let bytes = [edition(1), field(tag, &[])].concat();
        assert_eq!(over(&bytes), refused(4, 3, 4));
    }
    last_refused(4, &[edition(1)]);
    last_refused(4, &[constants(1)]);
    last_refused(4, &[scale(0, 1), edition(2)]);
    last_refused(4, &[scale(0, 1), note(), constants(17)]);
}

#[test]
fn refusal_4_where_a_claim_may_not_stand() {
    let right = claim(&[1, 0], &[1, 0]);
    last_refused(4, &[right.clone()]);
    last_refused(4, &[note(), right.clone()]);
    // A second claim in a row.
    stands(&[scale(0, 1), right.clone()]);
    last_refused(4, &[scale(0, 1), right.clone(), right.clone()]);
    last_refused(4, &[scale(0, 1), right.clone(), note(), right.clone()]);
    // Not after a strengthen or a close, though these begin a new line.
    last_refused(4, &[strengthen(0), claim(&[1, 1], &[1, 1])]);
    last_refused(4, &[strengthen(0), stride(1, 2), claim(&[1, 0], &[1, 0])]);
    last_refused(
        4,
        &[scale(0, 1), strengthen(0), note(), claim(&[1, 1], &[1, 1])],
    );
    // Before its length is looked at.
    last_refused(4, &[field(0x20, &[])]);
    // After a close, where the row before it was one of 0x10 to 0x12.
    last_refused(
        4,
        &[
            strengthen(0),
            scale(0, 1),
            stride(1, 2),
            claim(&[1, 0], &[1, 0]),
        ],
    );
}

#[test]
fn a_claim_stands_after_each_of_the_three_rows() {
    stands(&[
        combine(0, 2, 3, 5),
        note(),
        note(),
        claim(&[-2, 5], &[3, 0]),
        reduce(0, 1, -2),
        claim(&[-3, -2], &[-3, -2]),
        reduce(3, 1, 7),
        claim(&[17, 11], &[14, 7]),
        reduce(0, 3, -1),
        claim(&[-2, -4], &[1, 0]),
        scale(2, 9),
        claim(&[-9, 9], &[0, 0]),
        scale(0, 9),
        claim(&[9, 0], &[9, 0]),
    ]);
}

#[test]
fn refusal_6_wrong_lengths() {
    assert_eq!(over(&field(0x01, &[])), refused(6, 3, 0));
    let bytes = [edition(1), field(0x02, &[1, 1])].concat();
    assert_eq!(over(&bytes), refused(6, 3, 4));
    for (tag, right) in [
        (0x10, 6),
        (0x11, 4),
        (0x12, 3),
        (0x13, 1),
        (0x14, 1),
        (0x15, 3),
        (0x16, 5),
        (0x17, 1),
    ] {
        for length in 0..20 {
            // Line 255 is not there, so a right length gives 10.
            let bytes = file(1, &[field(tag, &vec![0xFF; length])]);
            let number = if length == right { 10 } else { 6 };
            assert_eq!(over(&bytes), refused(number, 3, 8));
        }
    }
    for length in 0..40 {
        let number = if length == 16 { 14 } else { 6 };
        last_refused(number, &[scale(0, 1), field(0x20, &vec![0; length])]);
    }
}

#[test]
fn refusal_6_a_claims_length_goes_with_k() {
    for k in 1..=16usize {
        let mut numbers = vec![0; k + 1];
        numbers[k] = 3;
        let a = file(k as u8, &[le(&numbers)]);
        let b = file(k as u8, &[]);
        let mut form = vec![0; k + 1];
        form[k] = 6;
        let proof = file(k as u8, &[scale(0, 2), claim(&form, &form), close(1)]);
        assert_eq!(formula(&a, &b, &proof), file(k as u8, &[at_most(&form)]));
        let proof = file(k as u8, &[scale(0, 2), claim(&form, &form[1..]), close(1)]);
        assert_eq!(answer(&a, &b, &proof), refused(6, 3, 14));
    }
}

#[test]
fn refusal_5_every_other_edition() {
    for number in (0..=0xFF).filter(|number| ![1, 2].contains(number)) {
        assert_eq!(over(&edition(number)), refused(5, 3, 0));
    }
}

#[test]
fn refusal_10_for_each_parameter_that_is_a_line() {
    for line in 4..=0xFF {
        last_refused(10, &[combine(line, 0, 1, 1)]);
        last_refused(10, &[combine(0, line, 1, 1)]);
        last_refused(10, &[reduce(line, 1, 1)]);
        last_refused(10, &[reduce(0, line, 1)]);
        last_refused(10, &[scale(line, 1)]);
        last_refused(10, &[strengthen(line)]);
        last_refused(10, &[close(line)]);
        last_refused(10, &[stride(line, 2)]);
    }
}

#[test]
fn refusal_10_before_11_and_12() {
    last_refused(10, &[combine(1, 4, 0, 0)]);
    last_refused(10, &[combine(4, 1, 0, 0)]);
    last_refused(10, &[reduce(4, 0, 0)]);
    last_refused(10, &[reduce(0, 4, 0)]);
    last_refused(10, &[scale(4, 0)]);
    last_refused(10, &[stride(4, 0)]);
}

#[test]
fn refusal_11_for_each_row_that_asks_for_a_kind() {
    last_refused(11, &[combine(1, 0, 1, 1)]);
    last_refused(11, &[combine(0, 1, 1, 1)]);
    last_refused(11, &[combine(1, 3, 0, 0)]);
    last_refused(11, &[reduce(0, 2, 1)]);
    last_refused(11, &[reduce(1, 0, 0)]);
    last_refused(11, &[strengthen(1)]);
    last_refused(11, &[stride(0, 2)]);
    last_refused(11, &[stride(2, 0)]);
    stands(&[
        combine(0, 0, 1, 1),
        combine(0, 2, 1, 1),
        combine(2, 2, 1, 1),
    ]);
    stands(&[
        reduce(0, 1, 1),
        reduce(1, 1, 1),
        reduce(2, 3, 1),
        reduce(3, 1, 1),
    ]);
    stands(&[scale(0, 1), scale(1, 1)]);
}

#[test]
fn new_lines_have_their_own_kind() {
    // A reduced or scaled line keeps its kind.
    last_refused(11, &[reduce(1, 3, 1), strengthen(4)]);
    last_refused(11, &[reduce(0, 3, 1), reduce(0, 4, 1)]);
    last_refused(11, &[scale(1, 3), combine(4, 0, 1, 1)]);
    last_refused(11, &[scale(0, 3), stride(4, 2)]);
    last_refused(11, &[combine(0, 2, 1, 1), reduce(0, 4, 1)]);
    stands(&[
        reduce(1, 3, 1),
        reduce(0, 4, 1),
        scale(1, 3),
        reduce(0, 6, 1),
    ]);
    stands(&[reduce(0, 3, 1), strengthen(4)]);
    // First branch an inequality, second an equality, third an inequality.
    let branch = [strengthen(0)];
    last_refused(11, &[&branch[..], &[reduce(0, 4, 1)]].concat());
    stands(&[&branch[..], &[combine(0, 4, 1, 1)]].concat());
    let branch = [strengthen(0), stride(1, 2)];
    stands(&[&branch[..], &[reduce(0, 4, 1)]].concat());
    last_refused(11, &[&branch[..], &[combine(0, 4, 1, 1)]].concat());
    let branch = [strengthen(0), stride(1, 2), stride(1, 2)];
    last_refused(11, &[&branch[..], &[reduce(0, 4, 1)]].concat());
    stands(&[&branch[..], &[combine(0, 4, 1, 1)]].concat());
}

#[test]
fn refusal_12_and_the_bounds_of_multipliers() {
    last_refused(12, &[combine(0, 2, 0, 1)]);
    last_refused(12, &[combine(0, 2, 1, 0)]);
    last_refused(12, &[reduce(0, 1, 0)]);
    last_refused(12, &[scale(0, 0)]);
    last_refused(12, &[stride(1, 0)]);
    last_refused(12, &[stride(1, 1)]);
    stands(&[
        combine(0, 2, 1, 65_535),
        claim(&[-65_534, 65_535], &[1, 0]),
        combine(0, 2, 65_535, 1),
        claim(&[65_534, 1], &[65_535, 0]),
        reduce(0, 1, -32_768),
        claim(&[-65_535, -32_768], &[-65_535, -32_768]),
        reduce(0, 1, 32_767),
        claim(&[65_535, 32_767], &[65_535, 32_767]),
        reduce(0, 1, -1),
        claim(&[-1, -1], &[-1, -1]),
        scale(2, 65_535),
        claim(&[-65_535, 65_535], &[0, 0]),
        scale(1, 65_535),
        claim(&[131_070, 65_535], &[131_070, 65_535]),
    ]);
}

#[test]
fn the_bounds_of_a_stride() {
    let a = file(1, &[eq(&[0, 1]), eq(&[0, 0])]);
    let b = file(1, &[]);
    for g in [2, 3, 32_767, 32_768, 65_535] {
        let proof = file(1, &[stride(0, g)]);
        let expected = file(1, &[divides(i32::from(g), &[0, 1])]);
        assert_eq!(formula(&a, &b, &proof), expected);
        // Every g divides 0.
        let proof = file(1, &[stride(1, g)]);
        assert_eq!(answer(&a, &b, &proof), refused(15, 3, 8));
    }
}

#[test]
fn refusal_15_close_by_number() {
    for (kind, d, closes) in [
        (0, 1, true),
        (0, 0, false),
        (0, -1, false),
        (0, 32_767, true),
        (0, -32_768, false),
        (1, 1, true),
        (1, 0, false),
        (1, -1, true),
        (1, -32_768, true),
    ] {
        let constraint = |numbers: &[i16]| {
            if kind == 1 {
                eq(numbers)
            } else {
                le(numbers)
            }
        };
        let empty = file(2, &[]);
        let proof = file(2, &[close(0)]);
        let a = file(2, &[constraint(&[0, 0, d])]);
        let expected = if closes { ACCEPTED } else { refused(15, 3, 8) };
        assert_eq!(answer(&a, &empty, &proof), expected);
        for numbers in [[1, 0, d], [0, -1, d], [32_767, -32_768, d]] {
            let a = file(2, &[constraint(&numbers)]);
            assert_eq!(answer(&a, &empty, &proof), refused(15, 3, 8));
        }
    }
}

#[test]
fn refusal_15_close_by_stride() {
    let empty = file(2, &[]);
    for x in -7..=7 {
        for y in [-6, 0, 3, 4] {
            for d in -7..=7 {
                for g in 2..=6 {
                    let b = file(2, &[eq(&[x, y, d])]);
                    let proof = file(2, &[stride(0, g)]);
                    let divides = |n: i16| n.rem_euclid(g as i16) == 0;
                    let expected = if divides(x) && divides(y) && !divides(d) {
                        ACCEPTED
                    } else {
                        refused(15, 3, 8)
                    };
                    assert_eq!(check_into(&empty, &b, &proof, 60).0, expected);
                }
            }
        }
    }
}

#[test]
fn a_stride_formula_keeps_only_the_constants_of_b() {
    // x occurs in both, y only in A, z only in B, the last nowhere.
    let a = file(4, &[eq(&[4, 6, 0, 0, 8])]);
    let b = file(
        4,
        &[
            eq(&[5, 0, 9, 0, 2]),
            le(&[0, 0, 0, 0, 5]),
            eq(&[3, 0, 9, 0, 1]),
        ],
    );
    let proof = file(4, &[reduce(1, 0, 1), stride(4, 3)]);
    let expected = file(4, &[divides(3, &[1, 0, 0, 0, 2])]);
    assert_eq!(formula(&a, &b, &proof), expected);
    // With B's line alone the partial interpolant is 0.
    let proof = file(4, &[stride(3, 3)]);
    let expected = file(4, &[divides(3, &[0, 0, 0, 0, 0])]);
    assert_eq!(formula(&a, &b, &proof), expected);
    // Coefficients and d are reduced by g: from -80 and -160.
    let proof = file(4, &[reduce(1, 0, -20), stride(4, 3)]);
    let expected = file(4, &[divides(3, &[1, 0, 0, 0, 2])]);
    assert_eq!(formula(&a, &b, &proof), expected);
}

#[test]
fn a_stride_formula_has_the_remainders_from_0_to_g_less_1() {
    // A has x and d, B takes x back up to 5 or -5.
    for (x, d, a_d) in [(1, 1, 1), (-1, -1, 4), (4, -6, 4), (-6, 9, 4), (7, -7, 3)] {
        let expected = file(1, &[divides(5, &[i32::from(x).rem_euclid(5), a_d])]);
        for back in [5 - x, -5 - x, -x] {
            let a = file(1, &[eq(&[x, d])]);
            let b = file(1, &[eq(&[back, 1 - d])]);
            let proof = file(1, &[reduce(1, 0, 1), stride(2, 5)]);
            assert_eq!(formula(&a, &b, &proof), expected);
        }
    }
    // The end of the range: 65,535 times -32,768, and -32,767 more.
    let a = file(1, &[eq(&[-32_768, -32_768]), eq(&[-32_767, -32_767])]);
    let least = -2_147_483_647;
    for (g, back, remainder) in [
        (2, 1, 1),
        (32_768, 32_767, 1),
        (65_534, 1, 65_533),
        (65_535, 32_767, 32_768),
    ] {
        let b = file(1, &[eq(&[back, back - 1])]);
        let sum = least + i32::from(back);
        let proof = file(
            1,
            &[
                scale(0, 65_535),
                reduce(3, 1, 1),
                reduce(4, 2, 1),
                claim(&[sum, sum - 1], &[least, least]),
                stride(5, g),
            ],
        );
        let expected = file(1, &[divides(i32::from(g), &[remainder, remainder])]);
        assert_eq!(formula(&a, &b, &proof), expected);
    }
}

#[test]
fn lines_and_other_closes_are_not_reduced() {
    // The same line closed by 2, by 6 and by 3; its claim has tA as it stands.
    let a = file(1, &[le(&[1, 0]), eq(&[-7, -8])]);
    let b = file(1, &[eq(&[1, 1])]);
    let proof = file(
        1,
        &[
            reduce(2, 1, 1),
            claim(&[-6, -7], &[-7, -8]),
            strengthen(0),
            stride(3, 2),
            stride(3, 6),
            stride(3, 3),
        ],
    );
    let expected = file(
        1,
        &[
            or(),
            divides(2, &[1, 0]),
            and(),
            divides(6, &[5, 4]),
            divides(3, &[2, 1]),
        ],
    );
    assert_eq!(formula(&a, &b, &proof), expected);
    // By number, all stands.
    let b = file(1, &[eq(&[7, 1])]);
    let proof = file(1, &[reduce(2, 1, 1), close(3)]);
    assert_eq!(formula(&a, &b, &proof), file(1, &[equals(&[-7, -8])]));
}

#[test]
fn whether_b_has_a_constant_that_g_divides_away_leaves_no_trace() {
    let a = file(2, &[eq(&[4, 6, 1])]);
    let proof = file(2, &[stride(0, 2)]);
    for b in [
        vec![],
        vec![le(&[0, 1, 0])],
        vec![le(&[0, 0, 9]), eq(&[-5, 0, 0])],
        vec![le(&[1, 0, 0]), eq(&[0, -1, 0])],
    ] {
        let written = formula(&a, &file(2, &b), &proof);
        assert_eq!(written, file(2, &[divides(2, &[0, 0, 1])]));
    }
}

#[test]
fn refusal_22_is_given_by_nothing_and_a_close_names_common_constants() {
    let numbers = || (-2..=2).flat_map(|x| (-2..=2).flat_map(move |y| [0, 1].map(|d| [x, y, d])));
    let closes = [close(2), stride(2, 2), stride(2, 3)];
    let mut accepted = 0;
    for (s, t) in numbers().flat_map(|s| numbers().map(move |t| (s, t))) {
        let (a, b) = (file(2, &[eq(&s)]), file(2, &[eq(&t)]));
        for alpha in [-2, -1, 1, 2] {
            for end in &closes {
                let proof = file(2, &[reduce(1, 0, alpha), end.clone()]);
                let (answer, bytes) = check_into(&a, &b, &proof, 40);
                if answer != ACCEPTED {
                    assert_eq!(answer, refused(15, 3, 15));
                    continue;
                }
                accepted += 1;
                // The form stands at the end: two coefficients and d.
                let form = &bytes[bytes.len() - 12..];
                for constant in 0..2 {
                    let named = form[4 * constant..4 * constant + 4] != [0; 4];
                    assert!(!named || (s[constant] != 0 && t[constant] != 0));
                }
            }
        }
    }
    assert!(accepted > 1_000, "{accepted}");
}

#[test]
fn a_claim_that_is_right_or_wrong_in_each_number() {
    let a = file(2, &[le(&[1, 2, 3])]);
    let b = file(2, &[le(&[4, 5, 6])]);
    let right = [7 + 44, 14 + 55, 21 + 66, 7, 14, 21];
    let proof = |numbers: &[i32]| {
        file(
            2,
            &[combine(0, 1, 7, 11), claim(&numbers[..3], &numbers[3..])],
        )
    };
    let good = proof(&right);
    assert_eq!(answer(&a, &b, &good), refused(20, 3, good.len()));
    for index in 0..6 {
        for change in [1, -1, 256, 65_536, 1 << 24, i32::MIN] {
            let mut numbers = right;
            numbers[index] = numbers[index].wrapping_add(change);
            let place = file(2, &[combine(0, 1, 7, 11)]).len();
            assert_eq!(answer(&a, &b, &proof(&numbers)), refused(14, 3, place));
        }
    }
}

#[test]
fn a_claim_speaks_of_the_row_just_before() {
    // Line 4 would fit, but line 5 is the new one.
    last_refused(14, &[scale(0, 2), scale(0, 3), claim(&[2, 0], &[2, 0])]);
    stands(&[scale(0, 2), scale(0, 3), claim(&[3, 0], &[3, 0])]);
}

#[test]
fn the_three_branches_start_with_their_own_lines() {
    let a = file(1, &[le(&[5, 7]), eq(&[0, 1])]);
    let b = file(1, &[le(&[-5, 2])]);
    let line = |multiplier: i32, t: [i32; 2], partial: [i32; 2]| {
        [
            scale(4, multiplier as u16),
            claim(&t.map(|n| n * multiplier), &partial.map(|n| n * multiplier)),
            close(1),
        ]
        .concat()
    };
    // A mixed line: t is 5x+7 and twice -5x+2, tA is 5x+7.
    let proof = file(
        1,
        &[
            combine(0, 2, 1, 2),
            claim(&[-5, 11], &[5, 7]),
            strengthen(3),
            line(1, [-5, 12], [5, 8]),
            line(3, [-5, 11], [5, 7]),
            line(2, [-5, 12], [5, 7]),
        ],
    );
    let leaf = equals(&[0, 1]);
    let expected = file(1, &[or(), leaf.clone(), and(), leaf.clone(), leaf]);
    assert_eq!(formula(&a, &b, &proof), expected);
}

#[test]
fn nested_strengthens_give_nested_formulas() {
    // Line 0 "x ≤ 0" is strengthened; lines d = 1 .. 9 of A tell the leaves apart.
    let mut constraints = vec![le(&[1, 0])];
    constraints.extend((1..=9).map(|d| le(&[0, d])));
    let a = file(1, &constraints);
    let b = file(1, &[]);
    let leaf = |d: i32| at_most(&[0, d]);
    let s = || strengthen(0);
    let c = |line: u8| close(line);
    // In the first branch.
    let proof = file(1, &[s(), s(), c(1), c(2), c(3), c(4), c(5)]);
    let expected = file(
        1,
        &[
            or(),
            or(),
            leaf(1),
            and(),
            leaf(2),
            leaf(3),
            and(),
            leaf(4),
            leaf(5),
        ],
    );
    assert_eq!(formula(&a, &b, &proof), expected);
    // In the second.
    let proof = file(1, &[s(), c(1), s(), c(2), c(3), c(4), c(5)]);
    let expected = file(
        1,
        &[
            or(),
            leaf(1),
            and(),
            or(),
            leaf(2),
            and(),
            leaf(3),
            leaf(4),
            leaf(5),
        ],
    );
    assert_eq!(formula(&a, &b, &proof), expected);
    // In the third, twice.
    let proof = file(
        1,
        &[s(), c(1), c(2), s(), c(3), c(4), s(), c(5), c(6), c(7)],
    );
    let expected = file(
        1,
        &[
            or(),
            leaf(1),
            and(),
            leaf(2),
            or(),
            leaf(3),
            and(),
            leaf(4),
            or(),
            leaf(5),
            and(),
            leaf(6),
            leaf(7),
        ],
    );
    assert_eq!(formula(&a, &b, &proof), expected);
    // One more row than needed, one less.
    let more = [proof.clone(), c(8)].concat();
    assert_eq!(answer(&a, &b, &more), refused(19, 3, proof.len()));
    let less = &proof[..proof.len() - 4];
    assert_eq!(answer(&a, &b, less), refused(20, 3, less.len()));
}

#[test]
fn a_branch_works_on_the_lines_before_its_strengthen() {
    let a = file(1, &[le(&[2, -1]), eq(&[0, 1])]);
    let b = file(1, &[le(&[-2, 1])]);
    // The line made before the strengthen stays, those of a branch go.
    let proof = file(
        1,
        &[
            scale(0, 5),
            strengthen(3),
            scale(0, 7),
            scale(4, 1),
            claim(&[10, -4], &[10, -4]),
            close(1),
            scale(4, 1),
            claim(&[10, -5], &[10, -5]),
            close(1),
            scale(4, 1),
            claim(&[10, -4], &[10, -5]),
            scale(3, 2),
            claim(&[20, -10], &[20, -10]),
            close(1),
        ],
    );
    assert_eq!(answer(&a, &b, &proof), ACCEPTED);
}

#[test]
fn refusal_20_before_21() {
    let (a, b) = bundles();
    let open = file(1, &[scale(0, 1)]);
    assert_eq!(check_into(&a, &b, &open, 0).0, refused(20, 3, open.len()));
    let open = file(1, &[strengthen(0), stride(1, 2), stride(1, 2), note()]);
    assert_eq!(check_into(&a, &b, &open, 0).0, refused(20, 3, open.len()));
}

#[test]
fn refusal_21_when_a_byte_is_missing() {
    let (a, b) = bundles();
    let proof = file(
        1,
        &[strengthen(0), stride(1, 2), stride(1, 2), stride(1, 2)],
    );
    let needed = 8 + 3 + 15 + 3 + 15 + 15;
    let (answer, bytes) = check_into(&a, &b, &proof, needed);
    assert_eq!((answer, bytes.len()), (ACCEPTED, needed));
    for length in [0, 1, 8, needed - 1] {
        let answer = check_into(&a, &b, &proof, length).0;
        assert_eq!(answer, refused(21, 4, needed));
    }
    assert_eq!(check_into(&a, &b, &proof, 100_000).1, bytes);
}

#[test]
fn notes_change_nothing_in_any_place() {
    let (a, b) = bundles();
    let fields = [
        edition(1),
        constants(1),
        strengthen(0),
        combine(4, 2, 1, 1),
        claim(&[0, 2], &[1, 1]),
        close(5),
        stride(1, 2),
        scale(4, 3),
        combine(5, 2, 1, 3),
        close(6),
    ];
    let expected = formula(&a, &b, &fields.concat());
    for index in 0..=fields.len() {
        for tag in [0x80, 0x81, 0xA0, 0xFE, 0xFF] {
            let mut noted = fields.to_vec();
            noted.insert(index, field(tag, &[0x20, 0, 0]));
            noted.insert(index, field(tag, &[]));
            assert_eq!(formula(&a, &b, &noted.concat()), expected);
        }
    }
}

#[test]
fn every_number_has_its_own_words() {
    let numbers = (0..=24).chain([29, 30, 31, 34, 35]);
    let mut words: Vec<&str> = numbers.map(reference::meaning).collect();
    words.sort_unstable();
    words.dedup();
    assert_eq!(words.len(), 30);
    assert!(!words.contains(&reference::meaning(25)));
    assert_eq!(reference::meaning(0), "accepted");
    let free = reference::meaning(reference::NOT_GIVEN);
    assert!(free.starts_with("no longer given"));
}
