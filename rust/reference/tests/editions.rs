//! Edition 2 beside edition 1: what differs, what stays, and both sides of each
//! limit that goes by the edition.

mod common;
use common::*;
use reference::{Edition, NONE};

const MOST: i32 = 2_147_483_647;

/// A has "x ≤ 0", "1 = 0" and "x ≠ 0" as lines 0 to 2, B is empty.
fn bundles() -> (Vec<u8>, Vec<u8>) {
    (
        file(1, &[le(&[1, 0]), eq(&[0, 1]), ne(&[1, 0])]),
        file(1, &[]),
    )
}

#[test]
fn reads_numbers_of_four_bytes_and_tells_the_edition() {
    let bytes = [
        note(),
        edition(2),
        note(),
        constants(2),
        two::le(&[MOST, -MOST, 40_000]),
        note(),
        two::eq(&[-32_768, 32_768, -32_769]),
        two::ne(&[0x0102_0304, -1, 0]),
    ]
    .concat();
    let result = read(&bytes);
    let told = (result.answer, result.count, result.k, result.edition);
    assert_eq!(told, (ACCEPTED, 3, 2, 2));
    assert_eq!(result.kinds, [0, 1, 2]);
    let numbers = [
        MOST,
        -MOST,
        40_000,
        -32_768,
        32_768,
        -32_769,
        0x0102_0304,
        -1,
        0,
    ];
    assert_eq!(result.numbers, numbers);
    let result = read(&file(2, &[le(&[-32_768, 32_767, -1])]));
    assert_eq!((result.answer, result.edition), (ACCEPTED, 1));
    assert_eq!(result.numbers, [-32_768, 32_767, -1]);
    assert_eq!(read(&two::file(3, &[])).edition, 2);
}

#[test]
fn every_length_of_a_constraint() {
    for k in 1..=16 {
        for length in 0..80 {
            for tag in [0x03, 0x04, 0x05] {
                let right = [2, 4].map(|bytes| length == bytes * (usize::from(k) + 1));
                for (number, right) in [1, 2].into_iter().zip(right) {
                    let bytes = file_of(number, k, &[field(tag, &vec![0; length])]);
                    let expected = if right { ACCEPTED } else { refused(6, 1, 8) };
                    assert_eq!(read(&bytes).answer, expected);
                }
            }
        }
    }
}

/// The bundle's own refusals, at their places, by each operation that reads it.
fn refused_everywhere(bundle: &[u8], number: u8, place: usize) {
    let (_, other) = bundles();
    assert_eq!(read(bundle).answer, refused(number, 1, place));
    let proof = file(1, &[close(0)]);
    let expected = refused(number, 1, place);
    assert_eq!(whole_answer(bundle, &other, &proof), expected);
    assert_eq!(show_part(bundle, &other, 0), (expected, None));
    let expected = refused(number, 2, place);
    assert_eq!(whole_answer(&other, bundle, &proof), expected);
    assert_eq!(show_part(&other, bundle, 0), (expected, None));
}

#[test]
fn the_lowest_number_gives_13_at_its_field_after_8() {
    for index in 0..2 {
        for kind in [two::le, two::eq, two::ne] {
            let mut numbers = [MOST, -MOST];
            let right = two::file(1, &[note(), kind(&numbers)]);
            assert_eq!(read(&right).answer, ACCEPTED);
            numbers[index] = i32::MIN;
            let wrong = [right.clone(), note(), kind(&numbers)].concat();
            let place = right.len() + note().len();
            refused_everywhere(&wrong, 13, place);
            // Before the next field, whatever is wrong with that.
            refused_everywhere(&[wrong.clone(), vec![0x03]].concat(), 13, place);
            refused_everywhere(&[wrong, field(0x06, &[])].concat(), 13, place);
        }
    }
    // After 8 and after 6.
    let full = two::file(1, &vec![two::le(&[1, 1]); 32]);
    let over = [full.clone(), two::le(&[i32::MIN, 0])].concat();
    refused_everywhere(&over, 8, full.len());
    let short = two::file(1, &[two::le(&[i32::MIN])]);
    refused_everywhere(&short, 6, 8);
    let last = [full[..full.len() - 11].to_vec(), two::le(&[0, i32::MIN])].concat();
    refused_everywhere(&last, 13, full.len() - 11);
}

#[test]
fn the_lowest_number_of_edition_1_stands() {
    let result = read(&file(1, &[le(&[-32_768, -32_768])]));
    assert_eq!(result.answer, ACCEPTED);
    assert_eq!(result.numbers, [-32_768, -32_768]);
    // The same two numbers, as one of four bytes: -2,147,450,880.
    let bytes = [0x80, 0, 0x80, 0, 0, 0, 0, 0];
    let result = read(&two::file(1, &[field(0x03, &bytes)]));
    assert_eq!(result.answer, ACCEPTED);
    assert_eq!(result.numbers, [-2_147_450_880, 0]);
}

#[test]
fn lengths_of_bundles() {
    for (number, most) in [(1, 4_096), (2, 8_192)] {
        let start = file_of(number, 1, &[]);
        for length in [most - 1, most] {
            let result = read(&fill(&start, length));
            assert_eq!((result.answer, result.edition), (ACCEPTED, number));
        }
        refused_everywhere(&fill(&start, most + 1), 1, 0);
    }
    // All of it before 0x01: the edition is told last.
    let notes = |length: usize| fill(&[], length);
    let late = |number: u8, length: usize| [notes(length - 8), file_of(number, 1, &[])].concat();
    assert_eq!(read(&late(1, 4_096)).answer, ACCEPTED);
    refused_everywhere(&late(1, 4_097), 1, 0);
    refused_everywhere(&late(1, 8_192), 1, 0);
    assert_eq!(read(&late(2, 8_192)).answer, ACCEPTED);
    refused_everywhere(&late(2, 8_193), 1, 0);
}

#[test]
fn the_late_1_comes_after_each_fault_up_to_0x01_and_before_all_that_follow() {
    let long = |fields: &[Vec<u8>]| fill(&fields.concat(), 5_000);
    // In front of 0x01, and of 0x01 itself.
    for (number, place, first) in [
        (3, 7, [note(), field(0x06, &[])].concat()),
        (4, 7, [note(), constants(1)].concat()),
        (4, 7, [note(), le(&[1, 0])].concat()),
        (6, 7, [note(), field(0x01, &[1, 1])].concat()),
        (6, 0, field(0x01, &[])),
        (5, 0, edition(3)),
        (5, 7, [note(), edition(0)].concat()),
    ] {
        refused_everywhere(&long(&[first, edition(1), constants(1)]), number, place);
    }
    let cut = [note(), vec![0x01; 4_993]].concat();
    refused_everywhere(&cut[..5_000], 6, 7);
    refused_everywhere(&[fill(&[], 4_998), vec![0x01, 0]].concat(), 2, 4_998);
    refused_everywhere(&fill(&[], 5_000), 2, 5_000);
    // Behind 0x01, where edition 2 gives that fault.
    for (number, next) in [
        (7, constants(0)),
        (7, constants(17)),
        (6, field(0x02, &[])),
        (4, edition(1)),
        (3, field(0x06, &[])),
        (2, vec![0x02, 0xFF, 0xFF]),
    ] {
        refused_everywhere(&long(&[edition(1), next.clone()]), 1, 0);
        refused_everywhere(&long(&[edition(2), next]), number, 4);
    }
    // 2 at the end comes later too.
    refused_everywhere(&[edition(1), fill(&[], 4_996)].concat(), 1, 0);
    refused_everywhere(&[edition(2), fill(&[], 4_996)].concat(), 2, 5_000);
}

#[test]
fn the_late_1_of_a_comes_after_the_first_1_of_each_file() {
    let (a, b) = bundles();
    let late = fill(&a, 5_000);
    let proof = file(1, &[close(1)]);
    let (over, longest) = (vec![0x80; 8_193], vec![0x80; 65_537]);
    assert_eq!(answer(&late, &over, &longest), refused(1, 2, 0));
    assert_eq!(answer(&late, &b, &longest), refused(1, 3, 0));
    assert_eq!(answer(&late, &b, &proof), refused(1, 1, 0));
    assert_eq!(show_part(&late, &over, 0).0, refused(1, 2, 0));
    // A fault in A comes before the late 1 of B, and that before the proof's.
    let late_b = fill(&b, 5_000);
    let unknown = [a.clone(), field(0x06, &[])].concat();
    assert_eq!(answer(&unknown, &late_b, &proof), refused(3, 1, a.len()));
    assert_eq!(show_part(&unknown, &late_b, 0).0, refused(3, 1, a.len()));
    assert_eq!(answer(&a, &late_b, &[]), refused(1, 2, 0));
    // And before 9.
    let other = fill(&file(2, &[]), 5_000);
    assert_eq!(answer(&a, &other, &proof), refused(1, 2, 0));
    let other = fill(&two::file(2, &[]), 5_000);
    assert_eq!(answer(&a, &other, &proof), refused(9, 2, 4));
}

#[test]
fn short_outputs_come_after_all_of_it() {
    let right = two::file(1, &[two::le(&[1, 2])]);
    assert_eq!(read_into(&right, 1, 2).answer, ACCEPTED);
    assert_eq!(read_into(&right, 1, 1).answer, refused(21, 4, 1));
    assert_eq!(read_into(&right, 0, 2).answer, refused(21, 4, 1));
    let wrong = two::file(1, &[two::le(&[1, i32::MIN])]);
    assert_eq!(read_into(&wrong, 0, 0).answer, refused(13, 1, 8));
}

#[test]
fn each_file_is_read_by_its_own_edition() {
    // A: 5x ≤ 0, B: -5x + 1 ≤ 0; combine and close.
    let all_a = [file(1, &[le(&[5, 0])]), two::file(1, &[two::le(&[5, 0])])];
    let all_b = [file(1, &[le(&[-5, 1])]), two::file(1, &[two::le(&[-5, 1])])];
    let proofs = [
        file(1, &[combine(0, 1, 1, 1), close(2)]),
        two::file(1, &[two::combine(0, 1, 1, 1), two::close(2)]),
    ];
    let expected = file(1, &[at_most(&[5, 0])]);
    for a in &all_a {
        for b in &all_b {
            for proof in &proofs {
                assert_eq!(formula(a, b, proof), expected);
            }
            assert_eq!(reference::show(a, b, 0), &a[8..]);
            assert_eq!(reference::show(a, b, 1), &b[8..]);
            // The rows of the other edition have the wrong length.
            for (number, rows) in [(1, &proofs[1][8..]), (2, &proofs[0][8..])] {
                let proof = file_of(number, 1, &[rows.to_vec()]);
                assert_eq!(answer(a, b, &proof), refused(6, 3, 8));
            }
        }
    }
    // K must still agree.
    let proof = two::file(2, &[]);
    assert_eq!(answer(&all_a[0], &all_b[1], &proof), refused(9, 3, 4));
    let b = two::file(2, &[]);
    assert_eq!(answer(&all_a[0], &b, &proofs[0]), refused(9, 2, 4));
}

#[test]
fn every_length_of_a_row() {
    let (a, b) = bundles();
    for (tag, lengths) in [
        (0x10, [6, 8]),
        (0x11, [4, 6]),
        (0x12, [3, 4]),
        (0x13, [1, 2]),
        (0x14, [1, 2]),
        (0x15, [3, 4]),
        (0x16, [5, 6]),
        (0x17, [1, 2]),
    ] {
        for (number, right) in [1, 2].into_iter().zip(lengths) {
            for length in 0..12 {
                // Line 0xFF or 0xFFFF, which is not there.
                let proof = file_of(number, 1, &[field(tag, &vec![0xFF; length])]);
                let expected = if length == right { 10 } else { 6 };
                assert_eq!(answer(&a, &b, &proof), refused(expected, 3, 8));
            }
        }
    }
    // A claim has the same length in both.
    for number in [1, 2] {
        let row = if number == 1 {
            scale(0, 2)
        } else {
            two::scale(0, 2)
        };
        let stands = file_of(number, 1, &[row, claim(&[2, 0], &[2, 0])]);
        assert_eq!(answer(&a, &b, &stands), refused(20, 3, stands.len()));
    }
}

#[test]
fn every_row_in_edition_2() {
    // Lines 0 "5x - 4 ≤ 0", 1 "1 = 0", 2 "x ≠ 0" of A, 3 "-x + 1 ≤ 0" of B.
    let a = file(1, &[le(&[5, -4]), eq(&[0, 1]), ne(&[1, 0])]);
    let b = file(1, &[le(&[-1, 1])]);
    let rows = [
        two::combine(0, 3, 258, 513),
        claim(&[777, -519], &[1_290, -1_032]),
        two::reduce(0, 1, -258),
        claim(&[5, -262], &[5, -262]),
        two::scale(3, 513),
        claim(&[-513, 513], &[0, 0]),
        two::strengthen(0),
        two::close(1),
        two::split(2),
        two::stride(1, 258),
        two::close(1),
        two::round(0, 5, 3),
        vec![two::close(1); 4].concat(),
    ];
    let leaf = || equals(&[0, 1]);
    let expected = [
        or(),
        leaf(),
        and(),
        or(),
        divides(258, &[0, 1]),
        leaf(),
        or(),
        leaf(),
        or(),
        [and(), divides(5, &[0, 1]), leaf()].concat(),
        or(),
        [and(), divides(5, &[0, 2]), leaf()].concat(),
        [and(), divides(5, &[0, 3]), leaf()].concat(),
    ];
    assert_eq!(formula(&a, &b, &two::file(1, &rows)), file(1, &expected));
}

/// The rows of a proof that fills a branch up to so many lines from three.
fn scales(number: u8, lines: usize) -> Vec<u8> {
    let row = if number == 1 {
        scale(0, 1)
    } else {
        two::scale(0, 1)
    };
    row.repeat(lines - 3)
}

#[test]
fn lines_on_a_branch_by_the_proofs_edition() {
    let (old, b) = bundles();
    let new = two::file(1, &[two::le(&[1, 0]), two::eq(&[0, 1]), two::ne(&[1, 0])]);
    for a in [&old, &new] {
        let full = file(1, &[scales(1, 128)]);
        assert_eq!(answer(a, &b, &full), refused(20, 3, full.len()));
        for row in [scale(0, 1), strengthen(0), split(2), combine(0, 0, 1, 1)] {
            let over = [full.clone(), row].concat();
            assert_eq!(answer(a, &b, &over), refused(16, 3, full.len()));
        }
        let full = two::file(1, &[scales(2, 1_000)]);
        assert_eq!(answer(a, &b, &full), refused(20, 3, full.len()));
        for row in [
            two::scale(0, 1),
            two::scale(999, 1),
            two::strengthen(0),
            two::strengthen(999),
            two::split(2),
            two::combine(0, 999, 1, 1),
            two::reduce(0, 1, 1),
        ] {
            let over = [full.clone(), row].concat();
            assert_eq!(answer(a, &b, &over), refused(16, 3, full.len()));
        }
        for (number, row) in [
            (10, two::scale(1_000, 1)),
            (10, two::close(65_535)),
            (11, two::split(999)),
            (12, two::scale(0, 0)),
            (15, two::close(999)),
        ] {
            let over = [full.clone(), row].concat();
            assert_eq!(answer(a, &b, &over), refused(number, 3, full.len()));
        }
        let closed = [full.clone(), two::close(1)].concat();
        assert_eq!(answer(a, &b, &closed), ACCEPTED);
    }
}

#[test]
fn a_step_makes_the_1000th_line_in_each_branch() {
    let (_, b) = bundles();
    let a = file(1, &[le(&[17, 1]), eq(&[0, 1]), ne(&[1, 0])]);
    let start = two::file(1, &[scales(2, 999)]);
    for (step, branches) in [
        (two::strengthen(0), 3),
        (two::split(2), 2),
        (two::round(0, 17, 16), 17),
    ] {
        let proof = [start.clone(), step.clone(), two::close(1).repeat(branches)].concat();
        assert_eq!(answer(&a, &b, &proof), ACCEPTED);
        for closed in 0..branches {
            let inside = [start.clone(), step.clone(), two::close(1).repeat(closed)].concat();
            let over = [inside.clone(), two::scale(0, 1)].concat();
            assert_eq!(answer(&a, &b, &over), refused(16, 3, inside.len()));
        }
    }
    // 1,000 lines in each of two branches are more rows than there may be.
    let branch = [two::scale(0, 1).repeat(996), two::close(1)].concat();
    let twice = two::file(1, &[two::split(2), branch.clone(), branch]);
    // Row 0 is the split, rows 1 to 997 are the first branch.
    let place = 8 + 5 + 996 * 7 + 5 + 26 * 7;
    let expected = refused_at(18, place, [1_024, 0, 1]);
    assert_eq!(whole_answer(&a, &b, &twice), expected);
}

#[test]
fn line_numbers_are_read_whole() {
    let (a, b) = bundles();
    // Lines 3 to 599 are "x ≤ 0" times 2, then once more times 3: 599 is 3x ≤ 0.
    let start = two::file(1, &[two::scale(0, 2).repeat(596), two::scale(0, 3)]);
    for (row, times) in [
        (two::scale(599, 1), 3),
        (two::scale(511, 1), 2),
        (two::scale(256, 1), 2),
        (two::combine(599, 0, 1, 1), 4),
        (two::combine(0, 599, 1, 1), 4),
        (two::reduce(599, 1, 0x0100), 3),
    ] {
        let d = if row[0] == 0x11 { 256 } else { 0 };
        let stated = claim(&[times, d], &[times, d]);
        let proof = [start.clone(), row, stated].concat();
        assert_eq!(answer(&a, &b, &proof), refused(20, 3, proof.len()));
    }
    // Neither byte alone is the number: 0x0100 is not line 1, nor line 0.
    for row in [
        two::scale(0x0300, 1),
        two::scale(600, 1),
        two::close(0x0300),
        two::combine(0, 0x0300, 1, 1),
        two::round(0x8000, 17, 1),
    ] {
        let proof = [start.clone(), row].concat();
        assert_eq!(answer(&a, &b, &proof), refused(10, 3, start.len()));
    }
    let few = two::file(1, &[]);
    for row in [two::close(0x0100), two::close(0x0101), two::split(0x0200)] {
        let proof = [few.clone(), row].concat();
        assert_eq!(answer(&a, &b, &proof), refused(10, 3, 8));
    }
}

#[test]
fn where_in_the_tree_a_refusal_of_edition_2_stands() {
    let (a, b) = bundles();
    let before = two::file(1, &[two::scale(0, 1), two::strengthen(0), two::close(1)]);
    for (number, row, field) in [
        (10, 3, two::close(300)),
        (15, 3, two::close(0)),
        (6, NONE, field(0x14, &[0])),
        (3, NONE, field(0x18, &[0])),
        (4, NONE, edition(2)),
    ] {
        let proof = [before.clone(), field].concat();
        let expected = refused_at(number, before.len(), [row, 1, 1]);
        assert_eq!(whole_answer(&a, &b, &proof), expected);
    }
}

#[test]
fn the_largest_numbers_of_a_bundle_in_each_row() {
    let a = two::file(
        1,
        &[
            two::le(&[MOST, -MOST]),
            two::eq(&[0, 1]),
            two::le(&[0, MOST]),
            two::le(&[0, MOST - 1]),
            two::le(&[-1, -MOST]),
        ],
    );
    let b = two::file(1, &[two::eq(&[-MOST, MOST])]);
    let stated = |row: Vec<u8>, t: [i32; 2], partial: [i32; 2]| {
        let proof = two::file(1, &[row, claim(&t, &partial)]);
        assert_eq!(answer(&a, &b, &proof), refused(20, 3, proof.len()));
    };
    stated(two::scale(0, 1), [MOST, -MOST], [MOST, -MOST]);
    stated(two::scale(5, 1), [-MOST, MOST], [0, 0]);
    stated(two::reduce(0, 5, 1), [0, 0], [MOST, -MOST]);
    stated(two::combine(0, 2, 1, 1), [MOST, 0], [MOST, 0]);
    stated(two::reduce(3, 1, 1), [0, MOST], [0, MOST]);
    for row in [
        two::scale(0, 2),
        two::scale(0, 65_535),
        two::reduce(5, 5, 1),
        two::reduce(5, 5, 32_767),
        two::reduce(2, 1, 1),
        two::combine(2, 2, 65_535, 65_535),
        two::combine(0, 4, 1, 1),
        two::strengthen(2),
    ] {
        let proof = two::file(1, &[row]);
        assert_eq!(answer(&a, &b, &proof), refused(13, 3, 8));
    }
    for row in [two::strengthen(3), two::strengthen(0), two::strengthen(4)] {
        let proof = two::file(1, &[row, two::close(1).repeat(3)]);
        assert_eq!(answer(&a, &b, &proof), ACCEPTED);
    }
}

#[test]
fn a_split_at_the_ends_of_the_range_gives_13_for_either_branch() {
    let closing = || two::eq(&[0, 1]);
    let without = two::file(1, &[]);
    for (d, number) in [
        (MOST, 13),
        (-MOST, 13),
        (MOST - 1, 0),
        (1 - MOST, 0),
        (0, 0),
    ] {
        let with = two::file(1, &[two::ne(&[MOST, d]), closing()]);
        let proof = two::file(1, &[two::split(0), two::close(1), two::close(1)]);
        for (a, b) in [(&with, &without), (&without, &with)] {
            let expected = if number == 0 {
                ACCEPTED
            } else {
                // At the row itself, before its first branch.
                refused_at(13, 8, [0, NONE, NONE])
            };
            assert_eq!(whole_answer(a, b, &proof), expected);
        }
    }
    // 17 and 16 come before.
    let a = two::file(1, &[two::ne(&[1, -MOST]), closing(), two::ne(&[1, 0])]);
    let deep = two::file(1, &[two::split(2).repeat(32)]);
    let over = [deep.clone(), two::split(0)].concat();
    assert_eq!(answer(&a, &without, &over), refused(17, 3, deep.len()));
    let full = two::file(1, &[two::scale(1, 1).repeat(997)]);
    let over = [full.clone(), two::split(0)].concat();
    assert_eq!(answer(&a, &without, &over), refused(16, 3, full.len()));
    let room = two::file(1, &[two::scale(1, 1).repeat(996)]);
    let over = [room.clone(), two::split(0)].concat();
    assert_eq!(answer(&a, &without, &over), refused(13, 3, room.len()));
}

#[test]
fn a_rounding_at_the_end_of_the_range() {
    // The stride is larger than any rounding and divides no d + j.
    for (less, number) in [(3, 0), (2, 13), (0, 13)] {
        let a = two::file(1, &[two::le(&[0, MOST - less]), two::eq(&[0, 1])]);
        let b = two::file(1, &[]);
        let g = (5..)
            .find(|g| (-(MOST - less)).rem_euclid(*g) >= 3)
            .unwrap();
        let rows = [two::round(0, g as u16, 3), two::close(1).repeat(4)];
        let expected = if number == 0 {
            ACCEPTED
        } else {
            refused(number, 3, 8)
        };
        assert_eq!(answer(&a, &b, &two::file(1, &rows)), expected);
    }
}

#[test]
fn large_numbers_reach_the_formula() {
    let a = two::file(2, &[two::eq(&[-MOST, 70_000, MOST])]);
    let b = two::file(2, &[two::eq(&[MOST, -70_000, 1 - MOST])]);
    let proof = file(2, &[reduce(0, 1, 1), close(2)]);
    let expected = file(2, &[equals(&[-MOST, 70_000, MOST])]);
    assert_eq!(formula(&a, &b, &proof), expected);
    // Reduced by a stride: -2,147,483,647 is 1 below a multiple of 4 and 3 above one.
    let proof = file(2, &[reduce(0, 1, 1), stride(2, 4)]);
    let expected = file(2, &[divides(4, &[1, 0, 3])]);
    assert_eq!(formula(&a, &b, &proof), expected);
}

#[test]
fn a_constant_occurs_by_any_of_its_four_bytes() {
    // 5 divides each of these less 1. Where x did not occur in B it would leave "5 divides -x".
    for coefficient in [1 << 24, 1 << 16, 1 << 8, 1] {
        let a = two::file(1, &[two::eq(&[-1, 0])]);
        let b = two::file(1, &[two::eq(&[coefficient, 1])]);
        let proof = two::file(1, &[two::reduce(1, 0, 1), two::stride(2, 5)]);
        assert_eq!(formula(&a, &b, &proof), file(1, &[divides(5, &[4, 0])]));
    }
}

#[test]
fn writes_in_each_edition() {
    let numbers = [1, -2, -32_768, 32_767];
    let (answer, bytes) = write_of(1, 1, &[0, 2], &numbers, 100);
    let expected = file(1, &[le(&[1, -2]), ne(&[-32_768, 32_767])]);
    assert_eq!((answer, bytes), (ACCEPTED, expected));
    let (answer, bytes) = write_of(2, 1, &[0, 2], &numbers, 100);
    let expected = two::file(1, &[two::le(&[1, -2]), two::ne(&[-32_768, 32_767])]);
    assert_eq!((answer, bytes), (ACCEPTED, expected));
    let numbers = [MOST, -MOST, 32_768, -32_769];
    let (answer, bytes) = write_of(2, 3, &[1], &numbers, 27);
    assert_eq!(
        (answer, bytes),
        (ACCEPTED, two::file(3, &[two::eq(&numbers)]))
    );
    for number in [1, 2] {
        for k in 1..=16 {
            let expected = file_of(number, k, &[]);
            let wide = (usize::from(number), usize::from(k));
            assert_eq!(write_of(wide.0, wide.1, &[], &[], 8), (ACCEPTED, expected));
        }
    }
}

#[test]
fn writing_refuses_5_first() {
    for number in (0..=0xFF).filter(|number| ![1, 2].contains(number)) {
        let answer = write_of(number, 17, &[3; 33], &[i32::MIN], 0).0;
        assert_eq!(answer, refused(5, 4, 0));
    }
    for number in [1, 2] {
        assert_eq!(write_of(number, 17, &[3; 33], &[], 0).0, refused(7, 4, 0));
        assert_eq!(write_of(number, 1, &[3; 33], &[], 0).0, refused(8, 4, 0));
        assert_eq!(write_of(number, 1, &[0, 3], &[], 0).0, refused(24, 4, 1));
    }
}

#[test]
fn writing_refuses_13_after_24_and_before_21_at_the_numbers_index() {
    for (number, outside) in [
        (1, vec![-32_769, 32_768, 65_536, -MOST, MOST, i32::MIN]),
        (2, vec![i32::MIN]),
    ] {
        for wrong in outside {
            for index in 0..9 {
                let mut numbers = vec![-32_768, 32_767, 0, 1, -1, 2, -2, 3, -3];
                numbers[index] = wrong;
                // The first one counts.
                numbers[8] = wrong;
                let expected = refused(13, 4, index);
                assert_eq!(write_of(number, 2, &[0, 1, 2], &numbers, 0).0, expected);
                assert_eq!(write_of(number, 2, &[0, 1, 2], &numbers, 99).0, expected);
                let kind = write_of(number, 2, &[0, 1, 3], &numbers, 99).0;
                assert_eq!(kind, refused(24, 4, 2));
                let count = write_of(number, 2, &[0, 1], &numbers, 99).0;
                assert_eq!(count, refused(24, 4, 2));
            }
        }
    }
}

#[test]
fn writing_in_edition_2_refuses_21_when_a_byte_is_missing() {
    for k in 1..=16 {
        for count in 0..=32usize {
            let numbers = vec![-70_000; count * (k + 1)];
            let kinds = vec![2; count];
            let needed = 8 + count * (3 + 4 * (k + 1));
            let (answer, bytes) = write_of(2, k, &kinds, &numbers, needed);
            assert_eq!((answer, bytes.len()), (ACCEPTED, needed));
            let result = read(&bytes);
            assert_eq!((result.edition, result.numbers), (2, numbers.clone()));
            let short = write_of(2, k, &kinds, &numbers, needed - 1).0;
            assert_eq!(short, refused(21, 4, needed));
        }
    }
}

#[test]
fn the_editions_by_number() {
    for number in 0..=0xFF {
        let found = Edition::numbered(number);
        assert_eq!(found.is_some(), [1, 2].contains(&number));
        assert!(found.is_none_or(|edition| edition.number() == number));
    }
    for edition in Edition::ALL {
        assert_eq!(Edition::numbered(edition.number()), Some(edition));
    }
}
