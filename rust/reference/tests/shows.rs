//! Showing a constraint.

mod common;
use common::*;

fn bundles() -> (Vec<u8>, Vec<u8>) {
    let a = file(1, &[note(), le(&[1, 2]), eq(&[3, 4])]);
    let b = file(1, &[eq(&[5, 6]), note(), le(&[7, 8])]);
    (a, b)
}

#[test]
fn shows_a_then_b() {
    let (a, b) = bundles();
    assert_eq!(show_part(&a, &b, 0), (ACCEPTED, Some((1, 15, 22))));
    assert_eq!(show_part(&a, &b, 1), (ACCEPTED, Some((1, 22, 29))));
    assert_eq!(show_part(&a, &b, 2), (ACCEPTED, Some((2, 8, 15))));
    assert_eq!(show_part(&a, &b, 3), (ACCEPTED, Some((2, 22, 29))));
    for line in [4, 5, 128, 255, 256, usize::MAX] {
        assert_eq!(show_part(&a, &b, line), (refused(10, 1, 0), None));
    }
}

#[test]
fn the_part_is_the_whole_field() {
    let (a, b) = bundles();
    assert_eq!(reference::show(&a, &b, 1), eq(&[3, 4]));
    assert_eq!(reference::show(&a, &b, 3), le(&[7, 8]));
}

#[test]
fn shows_with_an_empty_bundle_and_with_full_ones() {
    let empty = file(16, &[]);
    let full = file(16, &vec![le(&[9; 17]); 32]);
    let other = full.clone();
    let expected = |name, index| (ACCEPTED, Some((name, 8 + index * 37, 45 + index * 37)));
    for line in 0..32 {
        assert_eq!(show_part(&empty, &full, line), expected(2, line));
        assert_eq!(show_part(&full, &empty, line), expected(1, line));
        assert_eq!(show_part(&full, &other, line), expected(1, line));
        assert_eq!(show_part(&full, &other, 32 + line), expected(2, line));
    }
    let none = (refused(10, 1, 0), None);
    assert_eq!(show_part(&empty, &full, 32), none);
    assert_eq!(show_part(&full, &empty, 32), none);
    assert_eq!(show_part(&full, &other, 64), none);
    assert_eq!(show_part(&empty, &empty, 0), none);
}

#[test]
fn refuses_as_check_does() {
    let (a, b) = bundles();
    let long = vec![0x7F; 8_193];
    let faults: Vec<(Vec<u8>, u8, usize)> = vec![
        (long, 1, 0),
        (vec![], 2, 0),
        (edition(1), 2, 4),
        (file(1, &[vec![0x90, 0]]), 2, 8),
        (file(1, &[field(0x06, &[])]), 3, 8),
        (file(1, &[ne(&[1])]), 6, 8),
        (file(1, &[edition(1)]), 4, 8),
        (edition(3), 5, 0),
        (file(1, &[le(&[1, 2, 3])]), 6, 8),
        (file(0, &[]), 7, 4),
        (file(1, &vec![le(&[1, 2]); 33]), 8, 8 + 32 * 7),
    ];
    for (bytes, number, place) in faults {
        for line in [0, 1_000] {
            let expected = (refused(number, 1, place), None);
            assert_eq!(show_part(&bytes, &b, line), expected);
            let expected = (refused(number, 2, place), None);
            assert_eq!(show_part(&a, &bytes, line), expected);
        }
    }
    let other = file(2, &[]);
    assert_eq!(show_part(&a, &other, 0), (refused(9, 2, 4), None));
    assert_eq!(show_part(&other, &b, 0), (refused(9, 2, 4), None));
}

#[test]
fn a_too_long_b_comes_before_a_fault_in_a() {
    let long = vec![0; 8_193];
    assert_eq!(show_part(&[], &long, 0), (refused(1, 2, 0), None));
    assert_eq!(show_part(&long, &long, 0), (refused(1, 1, 0), None));
    assert_eq!(show_part(&[], &[], 0), (refused(2, 1, 0), None));
}
