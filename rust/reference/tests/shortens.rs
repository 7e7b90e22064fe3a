//! Tables without the rows that nothing rests on: what is told of each row, what
//! stays, and each reading that would be wrong.

mod common;
use common::*;
use reference::{shorten, Answer, NONE};

/// Shortens with outputs of these lengths, which must be unchanged on refusal
/// and behind what is used.
fn shorten_into(
    a: &[u8],
    b: &[u8],
    proof: &[u8],
    rows: usize,
    length: usize,
) -> (Answer, Vec<u8>, Vec<u8>) {
    let (mut report, mut out) = (vec![0xA5; rows], vec![0x5A; length]);
    let result = shorten(a, b, proof, &mut report, &mut out);
    if result.answer != ACCEPTED {
        assert_eq!((result.rows, result.written), (0, 0));
    }
    assert!(report[result.rows..].iter().all(|&byte| byte == 0xA5));
    assert!(out[result.written..].iter().all(|&byte| byte == 0x5A));
    report.truncate(result.rows);
    out.truncate(result.written);
    (result.answer, report, out)
}

/// A proof that is accepted: its report, and its shorter table, which gives the
/// same formula and stays as it is.
fn shortened(a: &[u8], b: &[u8], proof: &[u8]) -> (Vec<u8>, Vec<u8>) {
    let (answer, report, table) = shorten_into(a, b, proof, 1_024, proof.len());
    assert_eq!(answer, ACCEPTED);
    assert_eq!(formula(a, b, &table), formula(a, b, proof));
    let kept: Vec<u8> = report.iter().copied().filter(|&told| told != 0).collect();
    let again = shorten_into(a, b, &table, kept.len(), table.len());
    assert_eq!(again, (ACCEPTED, kept, table.clone()));
    (report, table)
}

/// 2x - 1 ≤ 0 and -2x + 1 ≤ 0.
fn stage_5() -> (Vec<u8>, Vec<u8>) {
    (file(1, &[le(&[2, -1])]), file(1, &[le(&[-2, 1])]))
}

/// Stage 5 with rows that nothing needs: one that only such a row uses, with a
/// claim, and one on the third branch; what the third branch alone uses stays.
fn unused() -> Vec<u8> {
    file(
        1,
        &[
            combine(0, 1, 1, 1),
            claim(&[0, 0], &[2, -1]),
            scale(2, 5),
            note(),
            scale(1, 3),
            strengthen(0),
            combine(5, 1, 1, 1),
            close(6),
            stride(5, 2),
            scale(5, 2),
            combine(5, 4, 3, 1),
            claim(&[0, 3], &[6, -3]),
            close(7),
        ],
    )
}

#[test]
fn a_stage_that_shrinks() {
    let (a, b) = stage_5();
    let (report, table) = shortened(&a, &b, &unused());
    assert_eq!(report, [0, 0, 1, 2, 1, 2, 2, 0, 1, 2]);
    let expected = file(
        1,
        &[
            scale(1, 3),
            strengthen(0),
            combine(3, 1, 1, 1),
            close(4),
            stride(3, 2),
            combine(3, 2, 3, 1),
            claim(&[0, 3], &[6, -3]),
            close(4),
        ],
    );
    assert_eq!(table, expected);
}

/// The same in edition 2: its own header, line numbers of two bytes.
#[test]
fn the_proofs_own_edition() {
    let (a, b) = stage_5();
    let proof = two::file(
        1,
        &[
            two::scale(0, 7),
            two::strengthen(0),
            two::combine(3, 1, 1, 1),
            two::close(4),
            two::stride(3, 2),
            two::combine(3, 1, 1, 1),
            two::close(4),
        ],
    );
    let (report, table) = shortened(&a, &b, &proof);
    assert_eq!(report, [0, 2, 1, 2, 2, 1, 2]);
    let expected = two::file(
        1,
        &[
            two::strengthen(0),
            two::combine(2, 1, 1, 1),
            two::close(3),
            two::stride(2, 2),
            two::combine(2, 1, 1, 1),
            two::close(3),
        ],
    );
    assert_eq!(table, expected);
}

/// A row is needed through any number of others: direct uses are not all.
#[test]
fn needed_at_second_hand() {
    let a = file(1, &[le(&[0, 1])]);
    let b = file(1, &[]);
    let proof = file(
        1,
        &[
            scale(0, 2),
            scale(1, 2),
            scale(0, 9),
            scale(2, 2),
            scale(4, 2),
            close(4),
        ],
    );
    let (report, table) = shortened(&a, &b, &proof);
    assert_eq!(report, [1, 1, 0, 1, 0, 2]);
    assert_eq!(
        table,
        file(1, &[scale(0, 2), scale(1, 2), scale(2, 2), close(3)])
    );
}

/// A row that a later row uses is not needed if that one is not; a row is used
/// also by both names of one row, and by a branching row alone.
#[test]
fn what_a_use_is() {
    let a = file(1, &[le(&[0, 1]), ne(&[1, 0])]);
    let b = file(1, &[]);
    let proof = file(
        1,
        &[
            scale(0, 2),
            scale(0, 3),
            scale(3, 3),
            strengthen(2),
            close(5),
            close(5),
            combine(2, 5, 1, 1),
            combine(6, 6, 1, 1),
            close(7),
        ],
    );
    let (report, table) = shortened(&a, &b, &proof);
    assert_eq!(report, [1, 0, 0, 2, 2, 2, 1, 1, 2]);
    let expected = file(
        1,
        &[
            scale(0, 2),
            strengthen(2),
            close(3),
            close(3),
            combine(2, 3, 1, 1),
            combine(4, 4, 1, 1),
            close(5),
        ],
    );
    assert_eq!(table, expected);
}

/// Line 3 of one branch is not line 3 of its sibling: what the second branch
/// needs does not make the first branch's row needed.
#[test]
fn siblings_do_not_mix() {
    let a = file(1, &[le(&[0, 1]), ne(&[0, 5])]);
    let b = file(1, &[]);
    let proof = file(1, &[split(1), scale(0, 2), close(0), scale(0, 3), close(3)]);
    let (report, table) = shortened(&a, &b, &proof);
    assert_eq!(report, [2, 0, 2, 1, 2]);
    assert_eq!(table, file(1, &[split(1), close(0), scale(0, 3), close(3)]));
    let proof = file(1, &[split(1), scale(0, 2), close(3), scale(0, 3), close(0)]);
    let (report, table) = shortened(&a, &b, &proof);
    assert_eq!(report, [2, 1, 2, 0, 2]);
    assert_eq!(table, file(1, &[split(1), scale(0, 2), close(3), close(0)]));
}

/// A row before a step counts if any one branch uses its line, and numbers start
/// anew behind each close, also behind that of an inner step.
#[test]
fn numbers_on_each_branch() {
    let a = file(1, &[le(&[0, 1])]);
    let b = file(1, &[]);
    let proof = file(
        1,
        &[
            scale(0, 2),     // line 1, not needed
            scale(0, 3),     // line 2, needed on the last branch
            round(0, 17, 2), // line 3
            scale(0, 4),     // line 4, not needed
            strengthen(3),   // line 5
            scale(5, 1),     // line 6
            close(6),
            close(5),
            close(3),
            close(3),
            scale(3, 1), // line 4
            combine(4, 2, 1, 1),
            close(5),
        ],
    );
    let (report, table) = shortened(&a, &b, &proof);
    assert_eq!(report, [0, 1, 2, 0, 2, 1, 2, 2, 2, 2, 1, 1, 2]);
    let expected = file(
        1,
        &[
            scale(0, 3),
            round(0, 17, 2),
            strengthen(2),
            scale(3, 1),
            close(4),
            close(3),
            close(2),
            close(2),
            scale(2, 1),
            combine(3, 1, 1, 1),
            close(4),
        ],
    );
    assert_eq!(table, expected);
}

/// What is wrong is refused as by a check, in a row that nothing needs too; a
/// claim is no use of a line.
#[test]
fn refused_as_by_a_check() {
    let (a, b) = stage_5();
    let end = [close(0)];
    let one = file(1, &[le(&[0, 1])]);
    for (first, number) in [(scale(9, 1), 10), (reduce(0, 0, 1), 11), (scale(0, 0), 12)] {
        let proof = file(1, &[first, end.concat()]);
        let expected = refused_at(number, 8, [0, NONE, NONE]);
        let (answer, ..) = shorten_into(&one, &file(1, &[]), &proof, 9, 99);
        assert_eq!(answer, expected);
        assert_eq!(whole_answer(&one, &file(1, &[]), &proof), expected);
    }
    let mut wrong = unused();
    wrong[24] = 1;
    let (answer, ..) = shorten_into(&a, &b, &wrong, 99, 999);
    assert_eq!(answer, refused_at(14, 17, [0, NONE, NONE]));
    // Outputs are looked at last.
    let (answer, ..) = shorten_into(&a, &b, &wrong, 0, 0);
    assert_eq!(answer, refused_at(14, 17, [0, NONE, NONE]));
    let (answer, ..) = shorten_into(&a, &b, &unused()[..40], 0, 0);
    assert_eq!(answer.number, 2);
}

/// A formula that is too long is refused with 1 before 21, as in a check.
#[test]
fn a_formula_that_is_too_long() {
    let mut numbers = [0; 14];
    numbers[13] = 1;
    let a = file(13, &[le(&numbers)]);
    let b = file(13, &[]);
    let mut rows = vec![round(0, 17, 16); 32];
    rows.extend(vec![close(0); 1 + 32 * 16]);
    let proof = file(13, &rows);
    let expected = refused(1, 4, 65_603);
    assert_eq!(answer(&a, &b, &proof), expected);
    assert_eq!(shorten_into(&a, &b, &proof, 0, 0).0, expected);
    assert_eq!(shorten_into(&a, &b, &proof, 1_024, 65_536).0, expected);
}

/// 21 has the table's bytes as place, also where the report alone is too short.
#[test]
fn outputs_that_are_too_short() {
    let (a, b) = stage_5();
    let (report, table) = shortened(&a, &b, &unused());
    let (rows, bytes) = (report.len(), table.len());
    assert_eq!((rows, bytes), (10, 69));
    for (rows, bytes) in [(rows - 1, bytes), (rows, bytes - 1), (0, 999), (999, 0)] {
        let (answer, ..) = shorten_into(&a, &b, &unused(), rows, bytes);
        assert_eq!(answer, refused(21, 4, 69));
    }
    let (answer, ..) = shorten_into(&a, &b, &unused(), rows, bytes);
    assert_eq!(answer, ACCEPTED);
}
