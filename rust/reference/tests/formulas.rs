//! Testing formulas at register values.

mod common;
use common::*;

#[test]
fn parts_are_true_as_they_read() {
    let le = file(2, &[at_most(&[2, -3, 1])]);
    assert_eq!(test(&le, &[1, 1]), Ok(true));
    assert_eq!(test(&le, &[2, 1]), Ok(false));
    assert_eq!(test(&le, &[0, 0]), Ok(false));
    assert_eq!(test(&le, &[0, 1]), Ok(true));
    let eq = file(2, &[equals(&[2, -3, 1])]);
    assert_eq!(test(&eq, &[1, 1]), Ok(true));
    assert_eq!(test(&eq, &[0, 1]), Ok(false));
    assert_eq!(test(&eq, &[2, 1]), Ok(false));
}

#[test]
fn a_stride_divides_values_of_either_sign() {
    for value in -20..=20 {
        for g in 2..9 {
            let bytes = file(1, &[divides(g, &[3, -2])]);
            let expected = (3 * value - 2_i32).rem_euclid(g) == 0;
            assert_eq!(test(&bytes, &[value]), Ok(expected));
        }
    }
}

#[test]
fn and_and_or() {
    let part = |value: bool| at_most(&[0, i32::from(!value)]);
    for x in [false, true] {
        for y in [false, true] {
            for z in [false, true] {
                let bytes = file(1, &[or(), part(x), and(), part(y), part(z)]);
                assert_eq!(test(&bytes, &[0]), Ok(x || (y && z)));
                let bytes = file(1, &[or(), and(), part(x), part(y), part(z)]);
                assert_eq!(test(&bytes, &[0]), Ok((x && y) || z));
                let bytes = file(1, &[and(), or(), part(x), part(y), part(z)]);
                assert_eq!(test(&bytes, &[0]), Ok((x || y) && z));
                let bytes = file(1, &[and(), part(x), or(), part(y), part(z)]);
                assert_eq!(test(&bytes, &[0]), Ok(x && (y || z)));
            }
        }
    }
}

#[test]
fn values_belong_to_constants_in_order() {
    for k in 1..=16usize {
        let values: Vec<i32> = (0..k as i32).map(|i| 10 + i).collect();
        for constant in 0..k {
            let mut form = vec![0; k + 1];
            form[constant] = 1;
            form[k] = -values[constant];
            let bytes = file(k as u8, &[equals(&form)]);
            assert_eq!(test(&bytes, &values), Ok(true));
            form[k] -= 1;
            let bytes = file(k as u8, &[equals(&form)]);
            assert_eq!(test(&bytes, &values), Ok(false));
        }
    }
}

#[test]
fn the_largest_sums_are_exact() {
    // Two sums that are equal only modulo 2^32.
    let mut form = vec![-2_147_483_648; 17];
    form[16] = 0;
    let bytes = file(16, &[equals(&form)]);
    assert_eq!(test(&bytes, &[2; 16]), Ok(false));
    let bytes = file(16, &[at_most(&form)]);
    assert_eq!(test(&bytes, &[1_000_000; 16]), Ok(true));
    assert_eq!(test(&bytes, &[-1_000_000; 16]), Ok(false));
    let form = vec![2_147_483_647; 17];
    let bytes = file(16, &[at_most(&form)]);
    assert_eq!(test(&bytes, &[1_000_000; 16]), Ok(false));
    assert_eq!(test(&bytes, &[-1_000_000; 16]), Ok(true));
    // (2^31 - 1) * (16,000,000 + 1) by its own factors.
    for (g, expected) in [
        (2_147_483_647, true),
        (2, false),
        (16_000_001, true),
        (3, false),
    ] {
        let bytes = file(16, &[divides(g, &form)]);
        assert_eq!(test(&bytes, &[1_000_000; 16]), Ok(expected), "{g}");
    }
}

#[test]
fn refusal_7_and_23_before_the_file() {
    let long = vec![0; 65_537];
    assert_eq!(test(&long, &[]), Err(refused(7, 4, 0)));
    assert_eq!(test(&long, &[2_000_000; 17]), Err(refused(7, 4, 0)));
    for value in [1_000_001, -1_000_001, i32::MAX, i32::MIN] {
        for k in 1..=16 {
            for index in 0..k {
                let mut values = vec![1_000_000; k];
                values[index] = value;
                assert_eq!(test(&long, &values), Err(refused(23, 4, index)));
            }
        }
    }
    let values = [0, 1_000_001, -1_000_001];
    assert_eq!(test(&long, &values), Err(refused(23, 4, 1)));
    let bytes = file(2, &[at_most(&[1, 1, 0])]);
    assert_eq!(test(&bytes, &[1_000_000, -1_000_000]), Ok(true));
    let bytes = file(16, &[at_most(&[0; 17])]);
    assert_eq!(test(&bytes, &[0; 16]), Ok(true));
    assert_eq!(test(&bytes, &[0; 17]), Err(refused(7, 4, 0)));
}

#[test]
fn refusal_1_above_65536_bytes() {
    let start = file(1, &[at_most(&[0, 0])]);
    let filler = |length: usize| [start.clone(), field(0x80, &vec![7; length])].concat();
    let full = filler(65_536 - start.len() - 3);
    assert_eq!(full.len(), 65_536);
    assert_eq!(test(&full, &[0]), Ok(true));
    let over = filler(65_537 - start.len() - 3);
    assert_eq!(test(&over, &[0]), Err(refused(1, 3, 0)));
    assert_eq!(test(&[0x7F; 65_537], &[0]), Err(refused(1, 3, 0)));
}

#[test]
fn refusal_2_every_cut_of_a_formula() {
    let fields = [
        edition(1),
        constants(1),
        note(),
        or(),
        at_most(&[1, 0]),
        note(),
        and(),
        divides(2, &[1, 0]),
        equals(&[1, 0]),
        note(),
    ];
    let bytes = fields.concat();
    let mut starts = vec![0];
    for part in &fields {
        starts.push(starts[starts.len() - 1] + part.len());
    }
    let complete = starts[9];
    for cut in 0..=bytes.len() {
        let start = *starts.iter().rev().find(|&&start| start <= cut).unwrap();
        let expected = if start == cut && cut >= complete {
            Ok(true)
        } else {
            Err(refused(2, 3, start))
        };
        assert_eq!(test(&bytes[..cut], &[0]), expected, "cut at {cut}");
    }
}

#[test]
fn a_formula_is_required() {
    let headers = file(3, &[]);
    assert_eq!(test(&headers, &[0; 3]), Err(refused(2, 3, 8)));
    let noted = file(3, &[note()]);
    assert_eq!(test(&noted, &[0; 3]), Err(refused(2, 3, 15)));
    assert_eq!(test(&[], &[0; 3]), Err(refused(2, 3, 0)));
    assert_eq!(test(&file(1, &[or()]), &[0]), Err(refused(2, 3, 11)));
    let half = file(1, &[and(), at_most(&[0, 0])]);
    assert_eq!(test(&half, &[0]), Err(refused(2, 3, half.len())));
}

#[test]
fn an_early_verdict_does_not_end_the_reading() {
    // The first part of the "or" is true, what follows is still read.
    let bytes = file(1, &[or(), at_most(&[0, 0]), field(0x36, &[])]);
    assert_eq!(test(&bytes, &[0]), Err(refused(3, 3, 22)));
    let bytes = file(1, &[and(), at_most(&[0, 1]), divides(1, &[0, 0])]);
    assert_eq!(test(&bytes, &[0]), Err(refused(12, 3, 22)));
}

#[test]
fn refusal_3_for_every_tag_that_a_formula_lacks() {
    for tag in 0..=0xFF {
        let whole = file(1, &[at_most(&[0, 0])]);
        for place in [0, 4, 8, 19] {
            let mut bytes = whole.clone();
            bytes.splice(place..place, field(tag, &[1, 1, 1]));
            let result = test(&bytes, &[0]);
            match tag {
                0x80.. => assert_eq!(result, Ok(true)),
                0x01 | 0x02 | 0x31..=0x35 => assert_ne!(result.unwrap_err().number, 3),
                _ => assert_eq!(result, Err(refused(3, 3, place))),
            }
            // Not whole comes first.
            let mut bytes = whole[..place].to_vec();
            bytes.extend([tag, 0, 1]);
            assert_eq!(test(&bytes, &[0]), Err(refused(2, 3, place)));
        }
    }
}

#[test]
fn refusal_19_for_every_known_field_after_the_formula() {
    let whole = file(1, &[or(), at_most(&[0, 0]), equals(&[0, 0]), note()]);
    for tag in [0x01, 0x02, 0x31, 0x32, 0x33, 0x34, 0x35] {
        // Before 4 and 6.
        for length in [0, 1, 5] {
            let bytes = [whole.clone(), field(tag, &vec![0; length])].concat();
            assert_eq!(test(&bytes, &[0]), Err(refused(19, 3, whole.len())));
        }
    }
}

#[test]
fn refusal_4_order_of_the_header() {
    for tag in [0x02, 0x31, 0x32, 0x33, 0x34, 0x35] {
        let bytes = field(tag, &[0; 9]);
        assert_eq!(test(&bytes, &[0]), Err(refused(4, 3, 0)));
    }
    for tag in [0x01, 0x31, 0x32, 0x33, 0x34, 0x35] {
        let bytes = [edition(1), field(tag, &[0; 9])].concat();
        assert_eq!(test(&bytes, &[0]), Err(refused(4, 3, 4)));
    }
    for tag in [0x01, 0x02] {
        let bytes = file(1, &[or(), field(tag, &[1])]);
        assert_eq!(test(&bytes, &[0]), Err(refused(4, 3, 11)));
    }
}

#[test]
fn refusal_6_wrong_lengths() {
    assert_eq!(test(&field(0x01, &[]), &[0]), Err(refused(6, 3, 0)));
    let bytes = [edition(1), field(0x02, &[1, 1])].concat();
    assert_eq!(test(&bytes, &[0]), Err(refused(6, 3, 4)));
    for k in 1..=16usize {
        for (tag, right) in [(0x33, 4 * k + 4), (0x34, 4 * k + 4), (0x35, 4 * k + 8)] {
            for length in 0..80 {
                let mut contents = vec![0; length];
                // A stride of 2 in the first four bytes.
                if let Some(byte) = contents.get_mut(3) {
                    *byte = 2;
                }
                let bytes = file(k as u8, &[field(tag, &contents)]);
                let result = test(&bytes, &vec![0; k]);
                if length == right {
                    assert!(result.is_ok());
                } else {
                    assert_eq!(result, Err(refused(6, 3, 8)));
                }
            }
        }
    }
    for tag in [0x31, 0x32] {
        let bytes = file(1, &[field(tag, &[0])]);
        assert_eq!(test(&bytes, &[0]), Err(refused(6, 3, 8)));
    }
}

#[test]
fn refusal_5_7_and_9() {
    for number in (0..=0xFF).filter(|&number| number != 1) {
        assert_eq!(test(&edition(number), &[0]), Err(refused(5, 3, 0)));
    }
    for k in 0..=0xFF {
        let bytes = file(k, &[at_most(&vec![0; k as usize + 1])]);
        let expected = match k {
            3 => Ok(true),
            1..=16 => Err(refused(9, 3, 4)),
            _ => Err(refused(7, 3, 4)),
        };
        assert_eq!(test(&bytes, &[0; 3]), expected);
    }
}

#[test]
fn refusal_12_a_stride_has_a_sign() {
    for g in [1, 0, -1, -2, i32::MIN] {
        let bytes = file(1, &[divides(g, &[1, 0])]);
        assert_eq!(test(&bytes, &[0]), Err(refused(12, 3, 8)));
    }
    for g in [2, 65_535, 65_536, i32::MAX] {
        let bytes = file(1, &[divides(g, &[1, 0])]);
        assert_eq!(test(&bytes, &[0]), Ok(true));
        assert_eq!(test(&bytes, &[1]), Ok(false));
    }
}

#[test]
fn refusal_17_a_601st_level() {
    let leaf = at_most(&[0, 0]);
    // Nested in the second part, then in the first.
    for levels in [63, 64, 65, 544, 599, 600] {
        let mut second = Vec::new();
        for _ in 0..levels {
            second.extend([or(), leaf.clone()]);
        }
        second.push(leaf.clone());
        assert_eq!(test(&file(1, &second), &[0]), Ok(true));
        let mut first = vec![and(); levels];
        first.extend(vec![leaf.clone(); levels + 1]);
        assert_eq!(test(&file(1, &first), &[0]), Ok(true));
    }
    let mut second = Vec::new();
    for _ in 0..600 {
        second.extend([or(), leaf.clone()]);
    }
    let place = file(1, &second).len();
    second.push(and());
    assert_eq!(test(&file(1, &second), &[0]), Err(refused(17, 3, place)));
    let first = vec![or(); 700];
    assert_eq!(
        test(&file(1, &first), &[0]),
        Err(refused(17, 3, 8 + 600 * 3))
    );
    // A wrong length comes first.
    let mut wrong = vec![or(); 600];
    wrong.push(field(0x31, &[0]));
    let expected = Err(refused(6, 3, 8 + 600 * 3));
    assert_eq!(test(&file(1, &wrong), &[0]), expected);
}

#[test]
fn levels_are_counted_downwards_not_in_all() {
    // Far more than 600 and/ors, none deeper than 10 levels.
    fn tree(levels: usize, fields: &mut Vec<Vec<u8>>) {
        if levels == 0 {
            fields.push(at_most(&[0, 0]));
        } else {
            fields.push(if levels.is_multiple_of(2) {
                or()
            } else {
                and()
            });
            tree(levels - 1, fields);
            tree(levels - 1, fields);
        }
    }
    let mut fields = Vec::new();
    tree(10, &mut fields);
    assert_eq!(test(&file(1, &fields), &[0]), Ok(true));
}
