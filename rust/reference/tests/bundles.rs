//! Reading and writing bundles.

mod common;
use common::*;

#[test]
fn reads_kinds_and_numbers_in_file_order() {
    let bytes = file(
        2,
        &[
            note(),
            le(&[1, -2, 3]),
            note(),
            note(),
            eq(&[-32_768, 32_767, 0]),
            ne(&[7, 0, -7]),
            le(&[0, 0, -1]),
            note(),
        ],
    );
    let result = read(&bytes);
    assert_eq!((result.answer, result.count, result.k), (ACCEPTED, 4, 2));
    assert_eq!(result.kinds, [0, 1, 2, 0]);
    let numbers = [1, -2, 3, -32_768, 32_767, 0, 7, 0, -7, 0, 0, -1];
    assert_eq!(result.numbers, numbers);
}

#[test]
fn reads_a_bundle_without_constraints() {
    let result = read_into(&file(7, &[]), 0, 0);
    assert_eq!((result.answer, result.count, result.k), (ACCEPTED, 0, 7));
}

#[test]
fn notes_may_stand_anywhere() {
    let mut bytes = note();
    bytes.extend(edition(1));
    bytes.extend(field(0xFF, &[]));
    bytes.extend(constants(1));
    bytes.extend(field(0x80, &[0x01, 0, 1, 9]));
    bytes.extend(eq(&[5, 6]));
    bytes.extend(note());
    let result = read(&bytes);
    assert_eq!((result.answer, result.count, result.k), (ACCEPTED, 1, 1));
    assert_eq!((result.kinds, result.numbers), (vec![1], vec![5, 6]));
}

#[test]
fn outputs_may_be_exactly_long_enough() {
    let bytes = file(2, &[le(&[1, 2, 3]), eq(&[4, 5, 6])]);
    assert_eq!(read_into(&bytes, 2, 6).answer, ACCEPTED);
    assert_eq!(read_into(&bytes, 3, 7).answer, ACCEPTED);
    assert_eq!(read_into(&bytes, 1, 6).answer, refused(21, 4, 2));
    assert_eq!(read_into(&bytes, 2, 5).answer, refused(21, 4, 2));
    assert_eq!(read_into(&bytes, 0, 0).answer, refused(21, 4, 2));
    assert_eq!(read_into(&bytes, 40, 0).answer, refused(21, 4, 2));
}

#[test]
fn a_file_fault_comes_before_a_short_output() {
    let mut bytes = file(2, &[le(&[1, 2, 3]), eq(&[4, 5, 6])]);
    let length = bytes.len();
    bytes.push(0x80);
    assert_eq!(read_into(&bytes, 0, 0).answer, refused(2, 1, length));
}

#[test]
fn refusal_1_comes_before_all_else() {
    let mut long = vec![0x7F; 8_193];
    assert_eq!(read_into(&long, 0, 0).answer, refused(1, 1, 0));
    long.pop();
    assert_eq!(read(&long).answer, refused(2, 1, 0));
}

#[test]
fn a_bundle_of_4096_bytes_is_read_and_4097_not() {
    let start = file(1, &[le(&[1, 2])]);
    let filler = |length: usize| [start.clone(), field(0x80, &vec![7; length])].concat();
    let full = filler(4_096 - start.len() - 3);
    assert_eq!(full.len(), 4_096);
    assert_eq!(read(&full).answer, ACCEPTED);
    let over = filler(4_097 - start.len() - 3);
    assert_eq!(over.len(), 4_097);
    assert_eq!(read(&over).answer, refused(1, 1, 0));
}

#[test]
fn refusal_2_every_cut_of_a_file() {
    let bytes = [
        note(),
        edition(1),
        note(),
        constants(1),
        le(&[1, 2]),
        note(),
        eq(&[3, 4]),
    ]
    .concat();
    // Where the fields start, and whether the header is complete there.
    let starts = [0, 7, 11, 18, 22, 29, 36, 43];
    assert_eq!(bytes.len(), 43);
    for cut in 0..=bytes.len() {
        let answer = read(&bytes[..cut]).answer;
        let start = *starts.iter().rev().find(|&&start| start <= cut).unwrap();
        if start < cut {
            assert_eq!(answer, refused(2, 1, start), "cut at {cut}");
        } else if cut < 22 {
            // Whole fields only, but the header is not complete.
            assert_eq!(answer, refused(2, 1, cut), "cut at {cut}");
        } else {
            assert_eq!(answer, ACCEPTED, "cut at {cut}");
        }
    }
}

#[test]
fn refusal_2_before_3_for_a_field_that_is_not_whole() {
    for tag in 0..=0xFF {
        assert_eq!(read(&[tag]).answer, refused(2, 1, 0));
        assert_eq!(read(&[tag, 0]).answer, refused(2, 1, 0));
        assert_eq!(read(&[tag, 0, 1]).answer, refused(2, 1, 0));
        assert_eq!(read(&[tag, 0xFF, 0xFF, 0]).answer, refused(2, 1, 0));
        let mut bytes = file(1, &[le(&[1, 2])]);
        bytes.extend([tag, 0, 4, 1, 2, 3]);
        assert_eq!(read(&bytes).answer, refused(2, 1, 15));
    }
}

#[test]
fn refusal_3_for_every_tag_that_a_bundle_lacks() {
    for tag in 0..=0xFF {
        for place in [0, 4, 8] {
            let mut bytes = file(1, &[le(&[1, 2])]);
            // A length that no field of a bundle has.
            bytes.splice(place..place, field(tag, &[1, 1, 1, 1, 1]));
            let answer = read(&bytes).answer;
            match tag {
                0x80.. => assert_eq!(answer, ACCEPTED),
                0x01..=0x05 => assert_ne!(answer.number, 3),
                _ => assert_eq!(answer, refused(3, 1, place)),
            }
        }
    }
}

#[test]
fn refusal_4_order_of_the_header() {
    let constraint = le(&[1, 2]);
    let fields = [edition(1), constants(1), constraint.clone(), eq(&[1, 2])];
    for first in &fields[1..] {
        assert_eq!(read(first).answer, refused(4, 1, 0));
    }
    for index in [0, 2, 3] {
        let bytes = [edition(1), fields[index].clone()].concat();
        assert_eq!(read(&bytes).answer, refused(4, 1, 4));
    }
    for index in [0, 1] {
        let bytes = file(1, &[fields[index].clone()]);
        assert_eq!(read(&bytes).answer, refused(4, 1, 8));
        let bytes = file(1, &[constraint.clone(), note(), fields[index].clone()]);
        assert_eq!(read(&bytes).answer, refused(4, 1, 22));
    }
}

#[test]
fn refusal_4_before_6_5_and_7() {
    assert_eq!(read(&field(0x02, &[])).answer, refused(4, 1, 0));
    assert_eq!(read(&field(0x02, &[0])).answer, refused(4, 1, 0));
    let bytes = [edition(1), edition(2)].concat();
    assert_eq!(read(&bytes).answer, refused(4, 1, 4));
    let bytes = file(1, &[constants(17)]);
    assert_eq!(read(&bytes).answer, refused(4, 1, 8));
}

#[test]
fn refusal_6_wrong_lengths() {
    for length in [0, 2, 3, 300] {
        let bytes = field(0x01, &vec![1; length]);
        assert_eq!(read(&bytes).answer, refused(6, 1, 0));
        // Also where edition or K would be wrong.
        let bytes = field(0x01, &vec![2; length]);
        assert_eq!(read(&bytes).answer, refused(6, 1, 0));
        let bytes = [edition(1), field(0x02, &vec![0; length])].concat();
        assert_eq!(read(&bytes).answer, refused(6, 1, 4));
    }
    for k in 1..=16 {
        let right = 2 * (k as usize + 1);
        for length in 0..40 {
            for tag in [0x03, 0x04, 0x05] {
                let bytes = file(k, &[field(tag, &vec![0; length])]);
                let expected = if length == right {
                    ACCEPTED
                } else {
                    refused(6, 1, 8)
                };
                assert_eq!(read(&bytes).answer, expected);
            }
        }
    }
}

#[test]
fn refusal_6_reads_both_bytes_of_the_length() {
    // 4 and 256 more.
    let bytes = file(1, &[field(0x03, &[0; 260])]);
    assert_eq!(read(&bytes).answer, refused(6, 1, 8));
}

#[test]
fn refusal_5_every_other_edition() {
    for number in (0..=0xFF).filter(|number| ![1, 2].contains(number)) {
        let bytes = [edition(number), constants(0)].concat();
        assert_eq!(read(&bytes).answer, refused(5, 1, 0));
    }
}

#[test]
fn refusal_7_every_k() {
    for k in 0..=0xFF {
        let bytes = file(k, &[]);
        let result = read(&bytes);
        if (1..=16).contains(&k) {
            assert_eq!((result.answer, result.k), (ACCEPTED, k as usize));
        } else {
            assert_eq!(result.answer, refused(7, 1, 4));
        }
    }
}

#[test]
fn refusal_8_after_6() {
    let mut constraints = vec![eq(&[1, 2]); 16];
    constraints.extend(vec![ne(&[1, 2]); 16]);
    let full = file(1, &constraints);
    assert_eq!(read(&full).answer, ACCEPTED);
    for kind in [le, eq, ne] {
        let over = [full.clone(), kind(&[1, 2])].concat();
        assert_eq!(read(&over).answer, refused(8, 1, full.len()));
        let wrong = [full.clone(), kind(&[1])].concat();
        assert_eq!(read(&wrong).answer, refused(6, 1, full.len()));
    }
    let header = [full.clone(), constants(1)].concat();
    assert_eq!(read(&header).answer, refused(4, 1, full.len()));
    let noted = [full, note(), note()].concat();
    assert_eq!(read(&noted).answer, ACCEPTED);
}

#[test]
fn the_first_field_at_fault_is_given() {
    let bytes = file(1, &[field(0x06, &[]), constants(1)]);
    assert_eq!(read(&bytes).answer, refused(3, 1, 8));
    let bytes = file(1, &[constants(1), field(0x06, &[])]);
    assert_eq!(read(&bytes).answer, refused(4, 1, 8));
}

#[test]
fn writes_the_bytes_that_reading_takes() {
    let numbers = [1, -2, 3, -32_768, 32_767, 0, 4, 0, -4];
    let (answer, bytes) = write_into(2, &[0, 1, 2], &numbers, 100);
    assert_eq!(answer, ACCEPTED);
    let constraints = [le(&[1, -2, 3]), eq(&[-32_768, 32_767, 0]), ne(&[4, 0, -4])];
    assert_eq!(bytes, file(2, &constraints));
}

#[test]
fn writes_a_bundle_without_constraints() {
    for k in 1..=16 {
        let (answer, bytes) = write_into(k, &[], &[], 8);
        assert_eq!((answer, bytes), (ACCEPTED, file(k, &[])));
        assert_eq!(write_into(k, &[], &[], 7).0, refused(21, 4, 8));
    }
}

#[test]
fn writing_refuses_7_first() {
    for k in (0..=0xFF).filter(|k| !(1..=16).contains(k)) {
        assert_eq!(write_into(k, &[3; 33], &[], 0).0, refused(7, 4, 0));
    }
}

#[test]
fn writing_refuses_8_before_24() {
    let numbers = vec![0; 32 * 17];
    assert_eq!(write_into(16, &[0; 32], &numbers, 1_192).0, ACCEPTED);
    assert_eq!(write_into(16, &[2; 32], &numbers, 1_192).0, ACCEPTED);
    assert_eq!(write_into(16, &[3; 33], &numbers, 0).0, refused(8, 4, 0));
}

#[test]
fn writing_refuses_24_for_a_kind_then_for_the_numbers() {
    for index in 0..5 {
        for kind in 3..=0xFF {
            let mut kinds = [1, 0, 2, 0, 1];
            kinds[index] = kind;
            let answer = write_into(1, &kinds, &[0; 9], 0).0;
            assert_eq!(answer, refused(24, 4, index));
        }
    }
    assert_eq!(write_into(1, &[2, 3, 4], &[], 0).0, refused(24, 4, 1));
    assert_eq!(write_into(1, &[2, 2], &[0; 4], 22).0, ACCEPTED);
    for length in (0..20).filter(|&length| length != 9) {
        let answer = write_into(2, &[0, 1, 1], &vec![0; length], 0).0;
        assert_eq!(answer, refused(24, 4, 3));
    }
    assert_eq!(write_into(2, &[], &[0], 0).0, refused(24, 4, 0));
}

#[test]
fn writing_refuses_21_when_a_byte_is_missing() {
    for k in 1..=16u8 {
        for count in 0..=32usize {
            let numbers = vec![-7; count * (k as usize + 1)];
            let kinds = vec![1; count];
            let needed = 8 + count * (3 + 2 * (k as usize + 1));
            let (answer, bytes) = write_into(k, &kinds, &numbers, needed);
            assert_eq!((answer, bytes.len()), (ACCEPTED, needed));
            let short = write_into(k, &kinds, &numbers, needed - 1).0;
            assert_eq!(short, refused(21, 4, needed));
            assert_eq!(write_into(k, &kinds, &numbers, 0).0, refused(21, 4, needed));
        }
    }
}
