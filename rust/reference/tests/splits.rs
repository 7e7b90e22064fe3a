//! Tag 0x05 and row 0x17: constraints "t ≠ 0", and their split.

mod common;
use common::*;
use reference::{Answer, NONE};

const N: u16 = NONE;

#[test]
fn the_worked_stage_and_the_same_with_the_bundles_exchanged() {
    // x is not 0, and at most and at least 0.
    let all = file(1, &[ne(&[1, 0]), le(&[1, 0]), le(&[-1, 0])]);
    let empty = file(1, &[]);
    let proof = file(
        1,
        &[
            split(0),
            combine(3, 2, 1, 1),
            close(4),
            combine(3, 1, 1, 1),
            close(4),
        ],
    );
    let part = |d: i32| at_most(&[0, d]);
    let expected = file(1, &[or(), part(1), part(1)]);
    assert_eq!(formula(&all, &empty, &proof), expected);
    let expected = file(1, &[and(), part(0), part(0)]);
    assert_eq!(formula(&empty, &all, &proof), expected);
}

#[test]
fn the_ends_of_two_bytes_stand() {
    for d in [-32_768, 32_767] {
        let a = file(1, &[ne(&[d, d]), eq(&[0, 1])]);
        let b = file(1, &[]);
        let d = i32::from(d);
        let stated = |t: [i32; 2]| [scale(2, 1), claim(&t, &t), close(1)].concat();
        let proof = file(1, &[split(0), stated([d, d + 1]), stated([-d, 1 - d])]);
        assert_eq!(answer(&a, &b, &proof), ACCEPTED);
    }
}

/// Lines: 0 "5x+1 ≠ 0", 1 "1 = 0", which closes any branch, 2 "5x-4 ≤ 0" of A; 3 "x ≠ 0" of B.
fn bundles() -> (Vec<u8>, Vec<u8>) {
    let a = file(1, &[ne(&[5, 1]), eq(&[0, 1]), le(&[5, -4])]);
    let b = file(1, &[ne(&[1, 0])]);
    (a, b)
}

fn whole(fields: &[Vec<u8>]) -> Answer {
    let (a, b) = bundles();
    whole_answer(&a, &b, &file(1, fields))
}

fn over(fields: &[Vec<u8>]) -> Answer {
    let (a, b) = bundles();
    answer(&a, &b, &file(1, fields))
}

/// The last field is refused with the number.
fn last_refused(number: u8, fields: &[Vec<u8>]) {
    let place = file(1, &fields[..fields.len() - 1]).len();
    assert_eq!(over(fields), refused(number, 3, place));
}

/// The rows stand, the table is only unfinished.
fn stands(fields: &[Vec<u8>]) {
    assert_eq!(over(fields), refused(20, 3, file(1, fields).len()));
}

#[test]
fn refusal_10_and_11() {
    for line in 4..=255 {
        last_refused(10, &[split(line)]);
    }
    last_refused(11, &[split(1)]);
    last_refused(11, &[split(2)]);
    stands(&[split(0)]);
    stands(&[split(3)]);
    // What a branch starts with is an inequality, and may be anything but split.
    for closes in 0..2 {
        let rows = [vec![split(0)], vec![close(1); closes]].concat();
        last_refused(11, &[rows.clone(), vec![split(4)]].concat());
        last_refused(11, &[rows.clone(), vec![reduce(2, 4, 1)]].concat());
        stands(&[rows.clone(), vec![combine(2, 4, 1, 1)]].concat());
        stands(&[rows.clone(), vec![strengthen(4)]].concat());
        // The disequality itself stays, and may be split again.
        stands(&[rows, vec![split(0)]].concat());
    }
}

/// Every older row on a disequality, with faults that come later in its list.
#[test]
fn refusal_11_for_every_older_row_after_10_and_before_12_and_15() {
    for line in [0, 3] {
        for row in [
            combine(line, 2, 0, 0),
            combine(2, line, 0, 0),
            combine(line, line, 1, 1),
            reduce(line, 1, 0),
            reduce(line, 1, 1),
            reduce(1, line, 0),
            reduce(2, line, 1),
            reduce(line, line, 1),
            scale(line, 0),
            scale(line, 1),
            strengthen(line),
            close(line),
            stride(line, 0),
            stride(line, 1),
            stride(line, 5),
            round(line, 0, 0),
            round(line, 5, 17),
            round(line, 5, 1),
        ] {
            last_refused(11, &[row]);
        }
        for row in [
            combine(line, 200, 0, 0),
            combine(200, line, 0, 0),
            reduce(line, 200, 0),
            reduce(200, line, 0),
        ] {
            last_refused(10, &[row]);
        }
    }
    // Before 17 and 16 too.
    let deep = vec![split(0); 32];
    let full = vec![scale(2, 1); 124];
    for before in [deep, full] {
        for row in [strengthen(0), round(0, 5, 1), split(1), scale(0, 0)] {
            last_refused(11, &[before.clone(), vec![row]].concat());
        }
        last_refused(10, &[before, vec![split(255)]].concat());
    }
}

#[test]
fn refusal_17_before_16_and_18_before_10() {
    let deep = vec![split(0); 32];
    stands(&deep);
    let both = [deep.clone(), vec![scale(2, 1); 128 - 36]].concat();
    stands(&both);
    for before in [&deep, &both] {
        for row in [split(0), split(3), strengthen(2), round(2, 5, 1)] {
            last_refused(17, &[before.clone(), vec![row]].concat());
        }
    }
    let full = vec![scale(2, 1); 124];
    last_refused(16, &[full.clone(), vec![split(0)]].concat());
    last_refused(16, &[full, vec![split(3)]].concat());
    // 1,024 rows: 511 splits in one another's second branches as far as that goes, closes, one line.
    let mut rows = vec![scale(2, 1)];
    let mut left = 511;
    let mut branches = vec![0];
    while let Some(depth) = branches.pop() {
        if left > 0 && depth < 32 {
            left -= 1;
            rows.push(split(if left % 2 == 0 { 0 } else { 3 }));
            branches.extend([depth + 1; 2]);
        } else {
            rows.push(close(1));
        }
    }
    assert_eq!(rows.len(), 1_024);
    assert_eq!(over(&rows), ACCEPTED);
    rows.insert(0, scale(2, 1));
    last_refused(18, &rows);
    rows[1_024] = split(255);
    last_refused(18, &rows);
}

#[test]
fn a_split_is_open_until_its_second_branch_is_closed() {
    // Mixed with the other steps.
    let steps = [split(0), split(3), strengthen(2), round(2, 5, 3)];
    for first in &steps {
        for last in &steps {
            let rows = [vec![first.clone(); 16], vec![last.clone(); 16]].concat();
            stands(&rows);
            for more in &steps {
                last_refused(17, &[rows.clone(), vec![more.clone()]].concat());
            }
        }
    }
    for line in [0, 3] {
        let last = |closes: usize| {
            let before = vec![strengthen(2); 31];
            [before, vec![split(line)], vec![close(1); closes]].concat()
        };
        last_refused(17, &[last(0), vec![split(0)]].concat());
        last_refused(17, &[last(1), vec![split(0)]].concat());
        stands(&[last(2), vec![split(0)]].concat());
        last_refused(17, &[last(2), vec![split(0), split(3)]].concat());
    }
}

#[test]
fn refusal_4_6_and_19() {
    for length in (0..8).filter(|&length| length != 1) {
        last_refused(6, &[field(0x17, &vec![0; length])]);
    }
    last_refused(4, &[split(0), claim(&[5, 2], &[5, 2])]);
    last_refused(4, &[split(0), note(), claim(&[5, 2], &[5, 2])]);
    last_refused(4, &[split(0), close(1), claim(&[-5, 0], &[-5, 0])]);
    last_refused(4, &[scale(2, 1), split(0), claim(&[5, -4], &[5, -4])]);
    last_refused(4, &[split(0), field(0x20, &[])]);
    last_refused(19, &[close(1), split(0)]);
    last_refused(19, &[split(0), close(1), close(1), close(1)]);
    // A constraint's tag in a proof, and the row in a bundle or a formula.
    last_refused(3, &[ne(&[1, 0])]);
    let (a, _) = bundles();
    let with = |bytes: &[u8]| [bytes, &split(0)].concat();
    assert_eq!(read(&with(&a)).answer, refused(3, 1, a.len()));
    let formula = file(1, &[at_most(&[0, 0])]);
    let expected = Err(refused(3, 3, formula.len()));
    assert_eq!(test(&with(&formula), &[0]), expected);
    let with = [formula.clone(), ne(&[0, 0])].concat();
    assert_eq!(test(&with, &[0]), Err(refused(3, 3, formula.len())));
}

#[test]
fn a_disequality_is_shown() {
    let (a, b) = bundles();
    assert_eq!(show_part(&a, &b, 0), (ACCEPTED, Some((1, 8, 15))));
    assert_eq!(show_part(&a, &b, 3), (ACCEPTED, Some((2, 8, 15))));
    assert_eq!(show_part(&a, &b, 4), (refused(10, 1, 0), None));
}

#[test]
fn lines_of_a_branch_go_when_it_is_closed() {
    let rows = vec![split(3), scale(4, 1), scale(5, 1), close(1)];
    last_refused(10, &[rows.clone(), vec![scale(5, 1)]].concat());
    stands(&[rows, vec![scale(4, 1), scale(5, 1)]].concat());
    // A split makes the 128th line in both.
    let full = [vec![scale(2, 1); 123], vec![split(0)]].concat();
    last_refused(16, &[full.clone(), vec![scale(2, 1)]].concat());
    last_refused(16, &[full.clone(), vec![close(1), scale(2, 1)]].concat());
    assert_eq!(over(&[full, vec![close(1), close(1)]].concat()), ACCEPTED);
}

#[test]
fn where_in_the_tree_its_branches_are() {
    let end = |fields: &[Vec<u8>]| file(1, fields).len();
    for line in [0, 3] {
        for branch in 0..2 {
            let before = [
                vec![scale(2, 1), split(line)],
                vec![close(1); usize::from(branch)],
            ]
            .concat();
            let expected = refused_at(20, end(&before), [N, 1, branch]);
            assert_eq!(whole(&before), expected);
            for (number, fault, row) in [
                (11, split(1), 2 + branch),
                (11, close(0), 2 + branch),
                (10, split(255), 2 + branch),
                (15, close(2), 2 + branch),
                (6, field(0x17, &[]), N),
                (4, claim(&[5, 2], &[5, 2]), N),
                (3, ne(&[1, 0]), N),
            ] {
                let fields = [before.clone(), vec![fault]].concat();
                let expected = refused_at(number, end(&before), [row, 1, branch]);
                assert_eq!(whole(&fields), expected);
            }
        }
    }
    // A refused split stands in the branch around it; behind a closed one comes the outer step's next branch.
    let fields = [round(2, 5, 3), close(1), split(2)];
    let expected = refused_at(11, end(&fields[..2]), [2, 0, 1]);
    assert_eq!(whole(&fields), expected);
    let fields = [strengthen(2), split(0), close(1), close(1), close(0)];
    let expected = refused_at(11, end(&fields[..4]), [4, 0, 1]);
    assert_eq!(whole(&fields), expected);
    let fields = [
        split(0),
        close(1),
        strengthen(2),
        close(1),
        close(1),
        close(1),
    ];
    assert_eq!(whole(&fields), ACCEPTED);
}

#[test]
fn steps_in_one_another_give_nested_formulas() {
    let leaf = || equals(&[0, 1]);
    let (a, b) = bundles();
    let c = || close(1);
    // A split of A's in the second branch of B's, in a rounding.
    let rows = [
        round(2, 5, 2),
        c(),
        split(3),
        c(),
        split(0),
        c(),
        c(),
        strengthen(2),
        c(),
        c(),
        split(3),
        c(),
        c(),
    ];
    let expected = file(
        1,
        &[
            or(),
            leaf(),
            or(),
            and(),
            // 5x - 4 reduced by 5.
            divides(5, &[0, 1]),
            and(),
            leaf(),
            or(),
            leaf(),
            leaf(),
            and(),
            divides(5, &[0, 2]),
            or(),
            leaf(),
            and(),
            leaf(),
            and(),
            leaf(),
            leaf(),
        ],
    );
    assert_eq!(formula(&a, &b, &file(1, &rows)), expected);
}

#[test]
fn formulas_of_65533_bytes_and_of_65537() {
    // "1 ≤ 0" to be rounded, "1 = 0" to close by, "1 ≠ 0" to be split, over 16 constants.
    let mut one = vec![0; 17];
    one[16] = 1;
    let with = file(16, &[le(&one), eq(&one), ne(&one)]);
    let without = file(16, &[]);
    for (strides, needed) in [(4, 65_529), (5, 65_533), (6, 65_537), (7, 65_541)] {
        // A split, then 26 roundings by 16 and one by 14, each in the last branch of the one before.
        let mut rows = vec![split(2), close(1)];
        for (by, closes) in [vec![(16, 16); 26], vec![(14, 15)]].concat() {
            rows.push(round(0, 17, by));
            rows.extend(vec![close(1); closes]);
        }
        let ends = rows.iter_mut().filter(|row| row[0] == 0x14);
        ends.take(strides).for_each(|row| *row = stride(1, 2));
        let proof = file(16, &rows);
        for (a, b) in [(&with, &without), (&without, &with)] {
            for lent in [0, 65_536, 70_000] {
                let (answer, bytes) = check_whole(a, b, &proof, lent);
                if needed > 65_536 {
                    assert_eq!(answer, refused(1, 4, needed));
                } else if lent == 0 {
                    assert_eq!(answer, refused(21, 4, needed));
                } else {
                    assert_eq!((answer, bytes.len()), (ACCEPTED, needed));
                }
            }
        }
    }
}
