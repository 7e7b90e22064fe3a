//! Turning bundles and proofs into the other edition.

mod common;
use common::*;
use reference::{turn_bundle, turn_proof, Answer, WriteResult};

type Turn = fn(&[u8], usize, &mut [u8]) -> WriteResult;

/// Turns into an output of the given length, which must be unchanged on refusal
/// and behind the bytes written.
fn turn_into(turn: Turn, file: &[u8], to: usize, length: usize) -> (Answer, Vec<u8>) {
    let mut out = vec![0xA5; length];
    let result = turn(file, to, &mut out);
    assert!(out[result.written..].iter().all(|&byte| byte == 0xA5));
    assert_eq!(result.answer == ACCEPTED, result.written > 0);
    out.truncate(result.written);
    (result.answer, out)
}

/// Turns a file that must be accepted, also with just enough room and with a
/// byte less.
fn turned(turn: Turn, file: &[u8], to: usize) -> Vec<u8> {
    let (answer, bytes) = turn_into(turn, file, to, 70_000);
    assert_eq!(answer, ACCEPTED);
    let needed = bytes.len();
    assert_eq!(turn_into(turn, file, to, needed), (ACCEPTED, bytes.clone()));
    let short = turn_into(turn, file, to, needed - 1);
    assert_eq!(short, (refused(21, 4, needed), Vec::new()));
    bytes
}

fn bundle_answer(file: &[u8], to: usize) -> Answer {
    turn_into(turn_bundle, file, to, 70_000).0
}

fn proof_answer(file: &[u8], to: usize) -> Answer {
    turn_into(turn_proof, file, to, 70_000).0
}

/// Both ways, notes aside.
fn both(turn: Turn, one: &[u8], two: &[u8]) {
    assert_eq!(turned(turn, one, 2), two);
    assert_eq!(turned(turn, two, 1), one);
}

#[test]
fn a_bundle_byte_by_byte() {
    let one = hex("01000101 02000101 030004 FFFE 0001 040004 8000 7FFF 050004 0000 FFFF");
    let two = hex(
        "01000102 02000101 030008 FFFFFFFE 00000001 040008 FFFF8000 00007FFF 050008 00000000 FFFFFFFF",
    );
    both(turn_bundle, &one, &two);
}

#[test]
fn a_proof_byte_by_byte() {
    let one = hex(
        "01000101 02000101 100006 02 01 0003 FFFF 110004 FF 00 8000 120003 07 0102
        200010 00000000 00000001 00000002 FFFFFFFF
        130001 05 140001 03 150003 02 0002 160005 04 0005 0003 170001 00",
    );
    let two = hex(
        "01000102 02000101 100008 0002 0001 0003 FFFF 110006 00FF 0000 8000 120004 0007 0102
        200010 00000000 00000001 00000002 FFFFFFFF
        130002 0005 140002 0003 150004 0002 0002 160006 0004 0005 0003 170002 0000",
    );
    both(turn_proof, &one, &two);
}

#[test]
fn header_fields_alone() {
    for k in [1, 16] {
        both(turn_bundle, &file(k, &[]), &two::file(k, &[]));
        both(turn_proof, &file(k, &[]), &two::file(k, &[]));
    }
}

#[test]
fn notes_are_dropped_wherever_they_stand() {
    let noted = [
        note(),
        edition(1),
        note(),
        note(),
        constants(2),
        note(),
        le(&[1, 2, 3]),
        field(0xFF, &[]),
        ne(&[0, 0, 1]),
        note(),
    ]
    .concat();
    let two = two::file(2, &[two::le(&[1, 2, 3]), two::ne(&[0, 0, 1])]);
    assert_eq!(turned(turn_bundle, &noted, 2), two);
    let plain = turned(turn_bundle, &two, 1);
    assert_eq!(plain, file(2, &[le(&[1, 2, 3]), ne(&[0, 0, 1])]));

    let stated = claim(&[1, 2], &[3, 4]);
    let noted = [
        note(),
        edition(2),
        field(0x80, &[1; 300]),
        constants(1),
        two::scale(3, 1),
        note(),
        stated.clone(),
        note(),
        two::close(3),
        note(),
    ]
    .concat();
    let one = file(1, &[scale(3, 1), stated, close(3)]);
    assert_eq!(turned(turn_proof, &noted, 1), one);
}

#[test]
fn the_edition_asked_for_comes_first() {
    for to in [0, 3, 4, 128, 255, 257, 258, usize::MAX] {
        // Whatever the file, and without any room.
        for bytes in [vec![], vec![0x06; 70_000], file(1, &[]), two::file(1, &[])] {
            for turn in [turn_bundle as Turn, turn_proof] {
                assert_eq!(turn_into(turn, &bytes, to, 0).0, refused(5, 4, 0));
            }
        }
    }
}

#[test]
fn a_file_that_has_the_edition_already() {
    for (to, other) in [(1_u8, 2), (2, 1)] {
        for (turn, name) in [(turn_bundle as Turn, 1), (turn_proof, 3)] {
            let refuse = |number, place| refused(number, name, place);
            let answer = |bytes: &[u8]| turn_into(turn, bytes, to.into(), 70_000).0;
            assert_eq!(answer(&file_of(to, 1, &[])), refuse(5, 0));
            assert_eq!(answer(&[note(), edition(to)].concat()), refuse(5, 7));
            // Neither 0 nor 3 is an edition, whichever is asked for.
            for wrong in [0, 3, 255] {
                assert_eq!(answer(&file_of(wrong, 1, &[])), refuse(5, 0));
            }
            // Behind 0x01 nothing is looked at; before it everything is.
            assert_eq!(answer(&[edition(to), constants(17)].concat()), refuse(5, 0));
            assert_eq!(answer(&[edition(to), vec![9]].concat()), refuse(5, 0));
            assert_eq!(answer(&[vec![6, 0, 0], edition(to)].concat()), refuse(3, 0));
            assert_eq!(answer(&field(0x01, &[to, to])), refuse(6, 0));
            assert_eq!(answer(&[constants(1), edition(to)].concat()), refuse(4, 0));
            assert_eq!(
                answer(&[edition(other), edition(to)].concat()),
                refuse(4, 4)
            );
        }
    }
}

#[test]
fn lengths_of_bundles() {
    let start = two::file(1, &[two::le(&[1, 2])]);
    let small = file(1, &[le(&[1, 2])]);
    assert_eq!(turned(turn_bundle, &fill(&start, 8_192), 1), small);
    assert_eq!(turned(turn_bundle, &fill(&small, 4_096), 2), start);
    // Above 8,192 the length comes before everything in the file.
    for to in [1, 2] {
        assert_eq!(bundle_answer(&vec![0x06; 8_193], to), refused(1, 1, 0));
        assert_eq!(bundle_answer(&fill(&start, 8_193), to), refused(1, 1, 0));
    }
    // In edition 1 it comes late: at 0x01, behind 5.
    assert_eq!(bundle_answer(&fill(&small, 4_097), 2), refused(1, 1, 0));
    assert_eq!(bundle_answer(&fill(&small, 8_192), 2), refused(1, 1, 0));
    assert_eq!(bundle_answer(&fill(&small, 4_097), 1), refused(5, 1, 0));
    let noted = fill(&[note(), small].concat(), 5_000);
    assert_eq!(bundle_answer(&noted, 2), refused(1, 1, 0));
    assert_eq!(bundle_answer(&noted, 1), refused(5, 1, 7));
    let other = fill(&[edition(1), constants(0)].concat(), 5_000);
    assert_eq!(bundle_answer(&other, 2), refused(1, 1, 0));
}

#[test]
fn bundles_are_refused_as_in_reading() {
    let one = |fields: &[Vec<u8>]| bundle_answer(&file(2, fields), 2);
    let wide = |fields: &[Vec<u8>]| bundle_answer(&two::file(2, fields), 1);
    assert_eq!(bundle_answer(&[], 2), refused(2, 1, 0));
    assert_eq!(bundle_answer(&note(), 2), refused(2, 1, 7));
    assert_eq!(bundle_answer(&edition(1), 2), refused(2, 1, 4));
    assert_eq!(one(&[vec![0x03]]), refused(2, 1, 8));
    assert_eq!(one(&[vec![0x80, 0]]), refused(2, 1, 8));
    for tag in [0x00, 0x06, 0x10, 0x20, 0x31, 0x7F] {
        assert_eq!(one(&[field(tag, &[])]), refused(3, 1, 8));
        assert_eq!(wide(&[field(tag, &[])]), refused(3, 1, 8));
    }
    assert_eq!(one(&[edition(1)]), refused(4, 1, 8));
    assert_eq!(one(&[constants(2)]), refused(4, 1, 8));
    // A field of the other edition's length.
    assert_eq!(one(&[two::le(&[1, 2, 3])]), refused(6, 1, 8));
    assert_eq!(wide(&[le(&[1, 2, 3])]), refused(6, 1, 8));
    for k in [0, 17, 255] {
        assert_eq!(bundle_answer(&file(k, &[]), 2), refused(7, 1, 4));
    }
    let place = 8 + 32 * 9;
    assert_eq!(one(&vec![le(&[1, 2, 3]); 33]), refused(8, 1, place));
    let place = 8 + 32 * 15;
    assert_eq!(wide(&vec![two::le(&[1, 2, 3]); 33]), refused(8, 1, place));
    let full = turned(turn_bundle, &file(2, &vec![le(&[1, 2, 3]); 32]), 2);
    assert_eq!(full, two::file(2, &vec![two::le(&[1, 2, 3]); 32]));
    assert_eq!(wide(&[two::le(&[0, i32::MIN, 0])]), refused(13, 1, 8));
}

#[test]
fn numbers_that_two_bytes_cannot_hold() {
    for number in [-32_768, -32_767, -1, 0, 32_767] {
        for place in 0..3 {
            let mut numbers = [0; 3];
            numbers[place] = number;
            let short = numbers.map(|n| n as i16);
            both(
                turn_bundle,
                &file(2, &[eq(&[9, 9, 9]), le(&short)]),
                &two::file(2, &[two::eq(&[9, 9, 9]), two::le(&numbers)]),
            );
        }
    }
    for number in [-32_769, 32_768, 65_535, 65_536, -i32::MAX, i32::MAX] {
        for place in 0..3 {
            let mut numbers = [0; 3];
            numbers[place] = number;
            let file = two::file(2, &[two::eq(&[9, 9, 9]), note(), two::ne(&numbers)]);
            assert_eq!(bundle_answer(&file, 1), refused(13, 1, 30));
            assert_eq!(turn_into(turn_bundle, &file, 1, 0).0, refused(13, 1, 30));
        }
    }
}

/// 13 for two bytes comes when the whole file has been read.
#[test]
fn the_file_is_read_whole_before_numbers_are_looked_at() {
    let large = two::le(&[40_000, 0]);
    let wide = |rest: Vec<u8>| bundle_answer(&two::file(1, &[large.clone(), rest]), 1);
    assert_eq!(wide(Vec::new()), refused(13, 1, 8));
    assert_eq!(wide(field(0x06, &[])), refused(3, 1, 19));
    assert_eq!(wide(constants(1)), refused(4, 1, 19));
    assert_eq!(wide(le(&[1, 2])), refused(6, 1, 19));
    assert_eq!(wide(vec![0x90, 0, 1]), refused(2, 1, 19));
    assert_eq!(wide(large.repeat(32)), refused(8, 1, 8 + 32 * 11));
    assert_eq!(wide(two::le(&[0, i32::MIN])), refused(13, 1, 19));
}

#[test]
fn lengths_of_proofs() {
    let small = file(1, &[close(3)]);
    let wide = two::file(1, &[two::close(3)]);
    assert_eq!(turned(turn_proof, &fill(&small, 65_536), 2), wide);
    assert_eq!(turned(turn_proof, &fill(&wide, 65_536), 1), small);
    for to in [1, 2] {
        assert_eq!(proof_answer(&fill(&small, 65_537), to), refused(1, 3, 0));
        assert_eq!(proof_answer(&vec![0x06; 65_537], to), refused(1, 3, 0));
    }
}

/// Each row with a line number of one byte takes one more in edition 2, and two
/// with two: 65,536 bytes may be what comes of it, and no more.
#[test]
fn results_that_are_too_long() {
    // In edition 2 a close has 5 bytes, a scale 7, a reduce 9 and a combine 11.
    for (rows, length) in [
        (vec![close(0); 13_105], 65_533),
        (
            [vec![close(0); 13_103], vec![combine(0, 0, 1, 1)]].concat(),
            65_534,
        ),
        ([vec![close(0); 13_104], vec![scale(0, 1)]].concat(), 65_535),
        (
            [vec![close(0); 13_102], vec![reduce(0, 0, 1), scale(0, 1)]].concat(),
            65_534,
        ),
        (
            [vec![close(0); 13_103], vec![scale(0, 1); 2]].concat(),
            65_537,
        ),
        (vec![close(0); 13_106], 65_538),
        (vec![close(0); 16_000], 80_008),
    ] {
        let long = file(1, &rows);
        let (answer, bytes) = turn_into(turn_proof, &long, 2, 90_000);
        if length > 65_536 {
            for room in [0, 65_536, length, 90_000] {
                let answer = turn_into(turn_proof, &long, 2, room).0;
                assert_eq!(answer, refused(1, 4, length));
            }
        } else {
            assert_eq!((answer, bytes.len()), (ACCEPTED, length));
            assert_eq!(turned(turn_proof, &bytes, 1), long);
        }
    }
    // 65,536 itself; notes are not counted in what comes of it.
    let rows = [vec![close(0); 13_102], vec![reduce(0, 0, 1); 2]].concat();
    let long = file(1, &rows);
    assert_eq!(turned(turn_proof, &long, 2).len(), 65_536);
    let noted = file(1, &[rows.concat(), note()]);
    assert_eq!(turned(turn_proof, &noted, 2).len(), 65_536);
}

#[test]
fn proofs_are_refused_as_in_a_check() {
    let one = |fields: &[Vec<u8>]| proof_answer(&file(1, fields), 2);
    let wide = |fields: &[Vec<u8>]| proof_answer(&two::file(1, fields), 1);
    assert_eq!(proof_answer(&[], 2), refused(2, 3, 0));
    assert_eq!(
        proof_answer(&[note(), edition(1)].concat(), 2),
        refused(2, 3, 11)
    );
    assert_eq!(
        proof_answer(&[edition(1), vec![2]].concat(), 2),
        refused(2, 3, 4)
    );
    assert_eq!(one(&[vec![0x14, 0, 1]]), refused(2, 3, 8));
    assert_eq!(one(&[vec![0x80, 0, 1]]), refused(2, 3, 8));
    for tag in [0x00, 0x03, 0x05, 0x0F, 0x18, 0x21, 0x31, 0x7F] {
        assert_eq!(one(&[field(tag, &[])]), refused(3, 3, 8));
        assert_eq!(wide(&[field(tag, &[])]), refused(3, 3, 8));
        assert_eq!(proof_answer(&field(tag, &[]), 1), refused(3, 3, 0));
    }
    assert_eq!(one(&[edition(1)]), refused(4, 3, 8));
    assert_eq!(one(&[constants(1)]), refused(4, 3, 8));
    assert_eq!(proof_answer(&close(0), 2), refused(4, 3, 0));
    assert_eq!(
        proof_answer(&[edition(1), close(0)].concat(), 2),
        refused(4, 3, 4)
    );
    assert_eq!(
        proof_answer(&[edition(1), claim(&[0; 2], &[0; 2])].concat(), 2),
        refused(4, 3, 4)
    );
    for k in [0, 17, 255] {
        assert_eq!(proof_answer(&file(k, &[]), 2), refused(7, 3, 4));
        assert_eq!(proof_answer(&two::file(k, &[]), 1), refused(7, 3, 4));
    }
    assert_eq!(
        proof_answer(&[edition(1), field(0x02, &[])].concat(), 2),
        refused(6, 3, 4)
    );
}

/// One byte more and one less than a row's own length, in both editions; in that
/// of the other edition too.
#[test]
fn lengths_of_rows() {
    for (tag, one, two) in [
        (0x10, 6, 8),
        (0x11, 4, 6),
        (0x12, 3, 4),
        (0x13, 1, 2),
        (0x14, 1, 2),
        (0x15, 3, 4),
        (0x16, 5, 6),
        (0x17, 1, 2),
    ] {
        for length in 0..12 {
            let row = field(tag, &vec![0; length]);
            let expected = |right: bool| if right { ACCEPTED } else { refused(6, 3, 8) };
            assert_eq!(
                proof_answer(&file(1, &[row.clone()]), 2),
                expected(length == one)
            );
            assert_eq!(
                proof_answer(&two::file(1, &[row]), 1),
                expected(length == two)
            );
        }
    }
}

#[test]
fn claims_in_and_out_of_place() {
    let stated = claim(&[1, 2], &[3, 4]);
    let one = |fields: &[Vec<u8>]| proof_answer(&file(1, fields), 2);
    for row in [combine(0, 1, 1, 1), reduce(0, 1, 1), scale(0, 1)] {
        assert_eq!(one(&[row.clone(), stated.clone()]), ACCEPTED);
        assert_eq!(
            one(&[row.clone(), note(), note(), stated.clone()]),
            ACCEPTED
        );
        let after = 8 + row.len();
        let twice = [row.clone(), stated.clone(), stated.clone()];
        assert_eq!(one(&twice), refused(4, 3, after + stated.len()));
        let noted = [row.clone(), stated.clone(), note(), stated.clone()];
        assert_eq!(one(&noted), refused(4, 3, after + stated.len() + 7));
        assert_eq!(
            one(&[row.clone(), field(0x20, &[0; 15])]),
            refused(6, 3, after)
        );
        assert_eq!(one(&[row, field(0x20, &[0; 24])]), refused(6, 3, after));
    }
    for row in [
        strengthen(0),
        close(0),
        stride(0, 2),
        round(0, 2, 1),
        split(0),
    ] {
        let place = 8 + row.len();
        assert_eq!(one(&[row.clone(), stated.clone()]), refused(4, 3, place));
        // Out of place comes before a wrong length.
        assert_eq!(one(&[row, field(0x20, &[])]), refused(4, 3, place));
    }
    assert_eq!(one(&[stated.clone()]), refused(4, 3, 8));
    let k = 16;
    let wide = claim(&[7; 17], &[-7; 17]);
    both(
        turn_proof,
        &file(k, &[scale(0, 1), wide.clone()]),
        &two::file(k, &[two::scale(0, 1), wide]),
    );
}

/// Nothing of what a check says of rows is said here: multipliers, lines that are
/// not there, steps, and what stands behind the root's close.
#[test]
fn the_tree_is_not_followed() {
    let stated = claim(&[1, 2], &[3, 4]);
    both(
        turn_proof,
        &file(
            1,
            &[
                close(255),
                combine(9, 99, 0, 0),
                stated.clone(),
                close(0),
                stride(0, 0),
                round(0, 1, 99),
                strengthen(200),
            ],
        ),
        &two::file(
            1,
            &[
                two::close(255),
                two::combine(9, 99, 0, 0),
                stated.clone(),
                two::close(0),
                two::stride(0, 0),
                two::round(0, 1, 99),
                two::strengthen(200),
            ],
        ),
    );
    // 4, where a check says 19.
    let behind = [close(0), stated];
    assert_eq!(proof_answer(&file(1, &behind), 2), refused(4, 3, 12));
    let many = vec![two::close(1); 3_000];
    assert_eq!(
        turned(turn_proof, &two::file(1, &many), 1),
        file(1, &vec![close(1); 3_000])
    );
}

#[test]
fn line_numbers_above_255() {
    let down = |row: Vec<u8>| proof_answer(&two::file(1, &[note(), two::close(0), row]), 1);
    for line in [0, 1, 255, 256, 257, 511, 512, 1_000, 65_280, 65_535] {
        let expected = if line <= 255 {
            ACCEPTED
        } else {
            refused(10, 3, 20)
        };
        for row in [
            two::combine(line, 0, 1, 1),
            two::combine(0, line, 1, 1),
            two::reduce(line, 0, 1),
            two::reduce(0, line, 1),
            two::scale(line, 1),
            two::strengthen(line),
            two::close(line),
            two::stride(line, 2),
            two::round(line, 2, 1),
            two::split(line),
        ] {
            assert_eq!(down(row), expected);
        }
    }
    // Multipliers, strides and amounts have two bytes in both editions.
    for row in [
        two::combine(0, 0, 256, 65_535),
        two::reduce(0, 0, -1),
        two::scale(0, 65_535),
        two::stride(0, 65_535),
        two::round(0, 256, 65_535),
    ] {
        assert_eq!(down(row), ACCEPTED);
    }
    // The first such row, when the whole file has been read.
    let wide = |fields: &[Vec<u8>]| proof_answer(&two::file(1, fields), 1);
    let (large, larger) = (two::close(256), two::scale(300, 1));
    assert_eq!(wide(&[large.clone(), larger.clone()]), refused(10, 3, 8));
    assert_eq!(wide(&[larger.clone(), large.clone()]), refused(10, 3, 8));
    assert_eq!(wide(&[large.clone(), field(0x06, &[])]), refused(3, 3, 13));
    assert_eq!(wide(&[large.clone(), close(0)]), refused(6, 3, 13));
    assert_eq!(wide(&[large.clone(), vec![0x14]]), refused(2, 3, 13));
    assert_eq!(wide(&[large.clone(), constants(1)]), refused(4, 3, 13));
    // Behind the root's close too, and before 21.
    assert_eq!(wide(&[two::close(0), large.clone()]), refused(10, 3, 13));
    let file = two::file(1, &[large]);
    assert_eq!(turn_into(turn_proof, &file, 1, 0).0, refused(10, 3, 8));
}

/// The second line number is not written from the first.
#[test]
fn both_line_numbers_of_a_row() {
    both(
        turn_proof,
        &file(1, &[combine(1, 2, 3, 4), reduce(5, 6, 7)]),
        &two::file(1, &[two::combine(1, 2, 3, 4), two::reduce(5, 6, 7)]),
    );
}
