//! All short proofs of two bundles.

mod common;
use common::*;
use reference::{check, next_proof, search_next_proof, Answer, ShortProofs, WriteResult};

/// How many short proofs of one, two and three rows there are.
fn counts(a: &[u8], b: &[u8]) -> [usize; 3] {
    let proofs = ShortProofs::of(a, b).unwrap();
    let mut counts = [0; 3];
    for table in proofs.tables() {
        counts[rows(table) - 1] += 1;
    }
    counts
}

/// The rows of a table without notes.
fn rows(table: &[u8]) -> usize {
    let (mut place, mut rows) = (8, 0);
    while place < table.len() {
        place += 3 + usize::from(table[place + 2]);
        rows += 1;
    }
    rows
}

/// The bundles of some worked stages.
fn stage(number: usize) -> [Vec<u8>; 2] {
    let pair = |k, a: &[Vec<u8>], b: &[Vec<u8>]| [file(k, a), file(k, b)];
    match number {
        1 => pair(3, &[eq(&[-2, 1, 0, 0])], &[eq(&[0, -1, 2, 1])]),
        3 => pair(1, &[le(&[1, 0])], &[le(&[-1, 1])]),
        4 => pair(1, &[le(&[1, 0])], &[le(&[-1, 0])]),
        5 => pair(1, &[le(&[2, -1])], &[le(&[-2, 1])]),
        _ => pair(1, &[le(&[0, 1])], &[]),
    }
}

#[test]
fn as_many_as_there_are() {
    for (number, expected) in [
        (1, [0, 4, 340]),
        (3, [0, 4, 304]),
        (4, [0, 0, 0]),
        (5, [0, 0, 0]),
        (6, [1, 12, 360]),
    ] {
        let [a, b] = stage(number);
        assert_eq!(counts(&a, &b), expected, "stage {number}");
    }
    let [a, b] = stage(6);
    assert_eq!(counts(&b, &a), [1, 12, 360]);
    let [a, b] = [file(1, &[eq(&[1, 0])]), file(1, &[eq(&[1, -1])])];
    assert_eq!(counts(&a, &b), [0, 12, 984]);
    // No constraints, no rows.
    assert_eq!(counts(&b[..8], &b[..8]), [0, 0, 0]);
}

/// Four times 1 = 0, each line of which can be closed by number and by each
/// stride; and a pair with more, as fewer sums of its lines are 0.
#[test]
fn long_lists() {
    let one = eq(&[0, 1]);
    let a = file(1, &[one.clone(), one.clone()]);
    assert_eq!(counts(&a, &a).iter().sum::<usize>(), 170_104);
    let all = file(1, &vec![one; 4]);
    assert_eq!(counts(&all, &all[..8]).iter().sum::<usize>(), 170_104);
    let more = file(1, &[25, 29, 25, -19].map(|d| eq(&[0, d])));
    assert_eq!(counts(&more, &more[..8]).iter().sum::<usize>(), 172_176);
}

/// The first tables of stage 1, byte by byte.
#[test]
fn the_first_of_stage_1() {
    let [a, b] = stage(1);
    let proofs = ShortProofs::of(&a, &b).unwrap();
    let first: Vec<_> = proofs.tables().iter().take(5).cloned().collect();
    let two = |row: &str| hex(&format!("01000101 02000103 {row} 150003 02 0002"));
    let three = "01000101 02000103 110004 00 00 0001 110004 00 01 0001 150003 03 0002";
    assert_eq!(
        first,
        [
            two("110004 00 01 0001"),
            two("110004 00 01 FFFF"),
            two("110004 01 00 0001"),
            two("110004 01 00 FFFF"),
            hex(three),
        ]
    );
}

/// Whether a check accepts every one, each has its place by rows and then by
/// bytes, and nothing else is there that is wanted: rows that nothing uses, any
/// line closed, every multiplier and stride.
#[test]
fn in_order_and_accepted() {
    for number in [1, 3, 6] {
        let [a, b] = stage(number);
        let proofs = ShortProofs::of(&a, &b).unwrap();
        let tables = proofs.tables();
        for table in tables {
            assert_eq!(check(&a, &b, table, &mut [0; 83]).answer, ACCEPTED);
        }
        for pair in tables.windows(2) {
            let key = |table: &Vec<u8>| (rows(table), table.clone());
            assert!(key(&pair[0]) < key(&pair[1]));
        }
    }
    let [a, b] = stage(6);
    let proofs = ShortProofs::of(&a, &b).unwrap();
    let there = |rows: &[Vec<u8>]| proofs.tables().contains(&file(1, rows));
    assert!(there(&[close(0)]));
    assert!(there(&[scale(0, 2), close(0)]));
    assert!(there(&[scale(0, 1), combine(0, 1, 2, 1), close(0)]));
    assert!(there(&[scale(0, 1), combine(0, 1, 2, 1), close(1)]));
    assert!(!there(&[scale(0, 3), close(0)]));
    assert!(!there(&[scale(0, 1), close(0), close(0)]));
    assert!(!there(&[scale(0, 1), note(), close(0)]));
    assert!(!there(&[scale(0, 1), claim(&[0, 1], &[0, 1]), close(0)]));
    assert!(!there(&[scale(0, 1), scale(0, 1), scale(0, 1), close(0)]));
}

type Next = fn(&[u8], &[u8], &[u8], &mut [u8]) -> WriteResult;

/// The next table in an output of the given length, which must be unchanged on
/// refusal and behind the bytes written.
fn next_into(next: Next, [a, b]: [&[u8]; 2], table: &[u8], length: usize) -> (Answer, Vec<u8>) {
    let mut out = vec![0xA5; length];
    let result = next(a, b, table, &mut out);
    assert!(out[result.written..].iter().all(|&byte| byte == 0xA5));
    assert_eq!(result.answer == ACCEPTED, result.written > 0);
    out.truncate(result.written);
    (result.answer, out)
}

const BOTH: [Next; 2] = [next_proof, search_next_proof];

/// From the header to the end, one after the other, by the search; just enough
/// room, and a byte less.
#[test]
fn one_after_the_other() {
    let five = le(&[2, -5]);
    let pairs = [
        stage(1),
        stage(3),
        stage(5),
        stage(6),
        [file(1, &[eq(&[0, 3]), ne(&[0, 1])]), file(1, &[five])],
        // Numbers that a row takes out of range, in tA alone too.
        [
            two::file(1, &[two::eq(&[1_100_000_000, 1])]),
            two::file(1, &[two::eq(&[-1_100_000_000, 1]), two::le(&[0, 1])]),
        ],
        // An edition each, and three lines of every kind.
        [
            file(2, &[eq(&[0, 3, 2]), le(&[0, 0, 1])]),
            two::file(2, &[two::ne(&[0, 0, 1])]),
        ],
    ];
    for [a, b] in &pairs {
        let proofs = ShortProofs::of(a, b).unwrap();
        let mut table = a[..8].to_vec();
        table[3] = 1;
        for next in proofs.tables() {
            let calls = [next.len() - 1, next.len(), next.len() + 5]
                .map(|length| next_into(search_next_proof, [a, b], &table, length));
            assert_eq!(calls[0], (refused(21, 4, next.len()), vec![]));
            assert_eq!(calls[1], (ACCEPTED, next.clone()));
            assert_eq!(calls[2], calls[1]);
            table.clone_from(next);
        }
        for next in BOTH {
            let last = next_into(next, [a, b], &table, 0);
            assert_eq!(last, (refused(33, 4, 0), vec![]));
        }
    }
}

/// Tables of stage 6 that are none, whatever a check would say of them.
#[test]
fn tables_that_are_none() {
    let [a, b] = stage(6);
    let good = file(1, &[scale(0, 2), close(0)]);
    let mut tables = vec![
        vec![],
        good[..7].to_vec(),
        good[..9].to_vec(),
        good[..good.len() - 1].to_vec(),
        [good.clone(), close(0)].concat(),
        [good.clone(), note()].concat(),
        [good[..8].to_vec(), note()].concat(),
        file(2, &[scale(0, 2), close(0)]),
        file(2, &[]),
        file_of(2, 1, &[]),
        two::file(1, &[two::close(0)]),
        file(1, &[scale(0, 3), close(0)]),
        file(1, &[scale(0, 2)]),
        file(1, &[scale(0, 0), close(0)]),
        file(1, &[scale(0, 258), close(0)]),
        file(1, &[close(1)]),
        file(1, &[stride(0, 2)]),
        file(1, &[strengthen(0), close(0), close(0)]),
        file(1, &[scale(0, 1), scale(0, 1), scale(0, 1), close(0)]),
        file(1, &[scale(0, 1), claim(&[0, 1], &[0, 1]), close(0)]),
        fill(&good, 65_537),
    ];
    tables.push(fill(&good, 200));
    for table in tables {
        for next in BOTH {
            for length in [0, 100] {
                let call = next_into(next, [&a, &b], &table, length);
                assert_eq!(call, (refused(32, 4, 0), vec![]), "{table:02X?}");
            }
        }
    }
}

/// A, B, a fifth constraint, the table, the end, the output: in this order.
#[test]
fn refusals_in_their_order() {
    let one = le(&[0, 1]);
    let bundle = |count| file(1, &vec![one.clone(); count]);
    let long = fill(&bundle(1), 8_193);
    let other = file(2, &[]);
    for (a, b, table, expected) in [
        (long.clone(), long.clone(), vec![9], refused(1, 1, 0)),
        (vec![9], long, vec![9], refused(1, 2, 0)),
        (vec![9], vec![9], vec![9], refused(2, 1, 0)),
        (bundle(33), vec![9], vec![9], refused(8, 1, 8 + 32 * 7)),
        (bundle(32), vec![9], vec![9], refused(2, 2, 0)),
        (bundle(5), other, vec![9], refused(9, 2, 4)),
        (bundle(5), bundle(0), vec![9], refused(8, 4, 0)),
        (bundle(4), bundle(1), vec![9], refused(8, 4, 0)),
        (bundle(32), bundle(32), vec![9], refused(8, 4, 0)),
        (bundle(2), bundle(2), vec![9], refused(32, 4, 0)),
        (bundle(0), bundle(0), vec![9], refused(32, 4, 0)),
        (bundle(0), bundle(0), bundle(0), refused(33, 4, 0)),
        (bundle(1), bundle(0), bundle(0), refused(21, 4, 12)),
    ] {
        for next in BOTH {
            let call = next_into(next, [&a, &b], &table, 0);
            assert_eq!(call, (expected, vec![]));
        }
    }
}

/// Notes and editions of A and B change nothing: the tables are of edition 1.
#[test]
fn bundles_of_edition_2() {
    let [a, b] = stage(3);
    let expected = ShortProofs::of(&a, &b).unwrap();
    let a = [note(), two::file(1, &[two::le(&[1, 0])]), note()].concat();
    let proofs = ShortProofs::of(&a, &b).unwrap();
    assert_eq!(proofs.tables(), expected.tables());
    let first = next_into(search_next_proof, [&a, &b], &file(1, &[]), 100);
    assert_eq!(first, (ACCEPTED, expected.tables()[0].clone()));
}
