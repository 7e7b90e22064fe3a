//! Testing one formula at a list of vectors.

mod common;
use common::*;
use reference::test_list;

/// The bytes, or the answer's number, file and place; a refusal leaves the output.
fn listed(
    formula: &[u8],
    k: usize,
    values: &[i32],
    room: usize,
) -> Result<Vec<u8>, (u8, u8, usize)> {
    let mut out = vec![7; room];
    let r = test_list(formula, k, values, &mut out);
    if r.answer.number == 0 {
        assert!(out[r.written..].iter().all(|&byte| byte == 7));
        out.truncate(r.written);
        return Ok(out);
    }
    assert_eq!((out, r.written), (vec![7; room], 0));
    Err((r.answer.number, r.answer.file, r.answer.place))
}

#[test]
fn one_byte_a_vector() {
    let even = file(3, &[divides(2, &[0, 1, 0, 0])]);
    let values = [1, 4, -7, 1, -3, 0, 0, 1_000_000, -1_000_000];
    assert_eq!(listed(&even, 3, &values, 3), Ok(vec![1, 0, 1]));
    assert_eq!(listed(&even, 3, &values, 9), Ok(vec![1, 0, 1]));
    assert_eq!(listed(&even, 3, &[], 0), Ok(vec![]));
}

/// (2^31 - 1)x + y, where y is x or not far from it: 2^31 times x, and as much more as y is.
#[test]
fn every_power_of_two() {
    for e in 1..=30 {
        let g = 1 << e;
        let bytes = file(2, &[divides(g, &[i32::MAX, 1, 0])]);
        for more in [0, 1, g / 2, -1] {
            let values: Vec<i32> = (-50..50)
                .map(|i| 9_999 * i)
                .flat_map(|x| [x, (x + more).clamp(-1_000_000, 1_000_000)])
                .collect();
            let expected = values.chunks_exact(2).map(|v| {
                let sum = i128::from(i32::MAX) * i128::from(v[0]) + i128::from(v[1]);
                u8::from(sum % i128::from(g) == 0)
            });
            assert_eq!(listed(&bytes, 2, &values, 100), Ok(expected.collect()));
        }
    }
}

#[test]
fn refusals_in_their_order() {
    let even = file(3, &[divides(2, &[0, 1, 0, 0])]);
    // 7: K, or a list that is not whole vectors, before all else.
    for k in [0, 17, 18, 272, usize::MAX] {
        assert_eq!(listed(&[9], k, &[1_000_001; 272], 0), Err((7, 4, 0)));
        assert_eq!(listed(&[9], k, &[], 0), Err((7, 4, 0)));
    }
    assert_eq!(listed(&[9], 3, &[1_000_001; 4], 0), Err((7, 4, 0)));
    // 23: the index in the whole list.
    assert_eq!(
        listed(&[9], 3, &[0, 0, 0, 0, -1_000_001, 1_000_001], 0),
        Err((23, 4, 4))
    );
    // 1 and the formula, also for an empty list; last 21.
    assert_eq!(listed(&vec![0x7F; 65_537], 3, &[0; 6], 0), Err((1, 3, 0)));
    assert_eq!(listed(&[9], 3, &[0; 6], 0), Err((2, 3, 0)));
    assert_eq!(listed(&[9], 3, &[], 0), Err((2, 3, 0)));
    assert_eq!(listed(&even, 2, &[0; 6], 0), Err((9, 3, 4)));
    assert_eq!(listed(&even, 2, &[], 0), Err((9, 3, 4)));
    assert_eq!(listed(&even, 3, &[0; 6], 1), Err((21, 4, 2)));
}
