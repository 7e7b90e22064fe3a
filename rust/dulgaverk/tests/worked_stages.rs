//! Worked stages of the paper through the verified operations.

use dulgaverk::{
    read_bundle_into, show, test_formula, write_bundle_into, Counts, Edition, Refusal,
};

fn refused<T>(number: u8, file: u8, place: usize) -> Result<T, Refusal> {
    Err(Refusal::outside(number, file, place))
}

/// Stage 10: K 16 is read, 17 gives 7; 32 constraints, the 33rd gives 8. In edition 1, and in edition 2 with numbers
/// that two bytes do not hold.
#[test]
fn stage_10() {
    largest(Edition::One, 120, 37);
    largest(Edition::Two, 7_800_000, 71);
}

fn largest(edition: Edition, step: i32, field: usize) {
    let number = edition.number();
    let kinds: Vec<u8> = (0..32).map(|i| i % 3).collect();
    let numbers: Vec<i32> = (0..32 * 17).map(|i| (i - 272) * step).collect();
    let needed = 8 + 32 * field;
    let mut file = vec![0; needed];
    assert_eq!(
        write_bundle_into(usize::from(number), 16, &kinds, &numbers, &mut file),
        Ok(needed)
    );

    let mut read = (vec![9; 32], vec![9; 32 * 17]);
    let counts = Counts {
        constraints: 32,
        constants: 16,
        edition,
    };
    assert_eq!(
        read_bundle_into(&file, &mut read.0, &mut read.1),
        Ok(counts)
    );
    assert_eq!(read, (kinds.clone(), numbers.clone()));

    let mut seventeen = file.clone();
    seventeen[7] = 17;
    assert_eq!(
        read_bundle_into(&seventeen, &mut read.0, &mut read.1),
        refused(7, 1, 4)
    );
    assert_eq!(
        write_bundle_into(usize::from(number), 17, &kinds, &numbers, &mut file),
        refused(7, 4, 0)
    );

    let mut more = file.clone();
    more.extend_from_slice(&file[8..8 + field]);
    assert_eq!(
        read_bundle_into(&more, &mut read.0, &mut read.1),
        refused(8, 1, needed)
    );
    assert_eq!(read, (kinds, numbers));
}

/// A four-byte number is not written in two, and the lowest in neither edition.
#[test]
fn numbers_that_an_edition_cannot_hold() {
    let mut out = [9; 30];
    for (edition, number, expected) in [
        (1, -32_768, Ok(15)),
        (1, -32_769, refused(13, 4, 1)),
        (1, 32_768, refused(13, 4, 1)),
        (2, -32_769, Ok(19)),
        (2, i32::MAX, Ok(19)),
        (2, -i32::MAX, Ok(19)),
        (2, i32::MIN, refused(13, 4, 1)),
        (0, 0, refused(5, 4, 0)),
        (3, 0, refused(5, 4, 0)),
    ] {
        let result = write_bundle_into(edition, 1, &[0], &[0, number], &mut out);
        assert_eq!(result, expected, "{edition} {number}");
    }
}

/// The bundles of stage 1, shown; and its formula, "2 divides y", tested.
#[test]
fn stage_1() {
    let a = include_bytes!("../../../examples/stage-1/a");
    let b = include_bytes!("../../../examples/stage-1/b");
    assert_eq!(show(a, b, 0), Ok(a[8..].to_vec()));
    assert_eq!(show(a, b, 1), Ok(b[8..].to_vec()));
    assert_eq!(show(a, b, 2), refused(10, 1, 0));

    let formula =
        b"\x01\0\x01\x01\x02\0\x01\x03\x35\0\x14\0\0\0\x02\0\0\0\0\0\0\0\x01\0\0\0\0\0\0\0\0";
    assert_eq!(test_formula(formula, &[1, 4, -7]), Ok(true));
    assert_eq!(test_formula(formula, &[1, -3, 0]), Ok(false));
    assert_eq!(test_formula(formula, &[1, 1_000_001, 0]), refused(23, 4, 1));
    assert_eq!(test_formula(&formula[..30], &[1, 4, 0]), refused(2, 3, 8));
}
