//! The worked stages of the paper that are checks, through the verified operation.

use dulgaverk::{check, check_into, Refusal};

type Bytes = Vec<u8>;

fn field(tag: u8, contents: &[u8]) -> Bytes {
    let length = (contents.len() as u16).to_be_bytes();
    [&[tag, length[0], length[1]], contents].concat()
}

fn file(k: u8, fields: &[Bytes]) -> Bytes {
    [&[1, 0, 1, 1, 2, 0, 1, k], fields.concat().as_slice()].concat()
}

fn shorts(numbers: &[i16]) -> Bytes {
    numbers.iter().flat_map(|n| n.to_be_bytes()).collect()
}

fn longs(numbers: &[i32]) -> Bytes {
    numbers.iter().flat_map(|n| n.to_be_bytes()).collect()
}

fn at_most(numbers: &[i16]) -> Bytes {
    field(0x03, &shorts(numbers))
}

fn equals(numbers: &[i16]) -> Bytes {
    field(0x04, &shorts(numbers))
}

fn refused<T>(number: u8, file: u8, place: usize) -> Result<T, Refusal> {
    Err(Refusal::outside(number, file, place))
}

/// A refusal of a row of the proof, with the step and the branch around it.
fn refused_row<T>(
    number: u8,
    place: usize,
    row: u16,
    around: Option<(u16, u16)>,
) -> Result<T, Refusal> {
    Err(Refusal {
        row: Some(row),
        step: around.map(|(step, _)| step),
        branch: around.map(|(_, branch)| branch),
        ..Refusal::outside(number, 3, place)
    })
}

/// A, B and the proof of stage 1, with a field put in after the proof's 0x02.
fn stage_1(put_in: &[u8], g: u8) -> [Bytes; 3] {
    let rows = [
        put_in.to_vec(),
        field(0x11, &[1, 0, 0, 1]),
        field(0x15, &[2, 0, g]),
    ];
    [
        file(3, &[equals(&[-2, 1, 0, 0])]),
        file(3, &[equals(&[0, -1, 2, 1])]),
        file(3, &rows),
    ]
}

/// "2 divides y".
fn formula_1() -> Bytes {
    file(3, &[field(0x35, &longs(&[2, 0, 1, 0, 0]))])
}

fn of([a, b, proof]: [Bytes; 3]) -> Result<Bytes, Refusal> {
    check(&a, &b, &proof)
}

#[test]
fn stages_1_and_2() {
    assert_eq!(of(stage_1(&[], 2)), Ok(formula_1()));
    assert_eq!(of(stage_1(&[], 3)), refused_row(15, 15, 1, None));
}

#[test]
fn stages_3_and_4() {
    let rows = file(1, &[field(0x10, &[0, 1, 0, 1, 0, 1]), field(0x14, &[2])]);
    let a = file(1, &[at_most(&[1, 0])]);
    let b = file(1, &[at_most(&[-1, 1])]);
    let expected = file(1, &[field(0x33, &longs(&[1, 0]))]);
    assert_eq!(check(&a, &b, &rows), Ok(expected));
    let b = file(1, &[at_most(&[-1, 0])]);
    assert_eq!(check(&a, &b, &rows), refused_row(15, 17, 1, None));
}

#[test]
fn stage_5() {
    let outer = [field(0x10, &[2, 1, 0, 1, 0, 1]), field(0x14, &[3])].concat();
    let rows = [
        field(0x13, &[0]),
        outer.clone(),
        field(0x15, &[2, 0, 2]),
        outer,
    ];
    let expected = file(
        1,
        &[
            field(0x31, &[]),
            field(0x33, &longs(&[2, 0])),
            field(0x32, &[]),
            field(0x35, &longs(&[2, 0, 1])),
            field(0x33, &longs(&[2, -1])),
        ],
    );
    let (a, b) = (file(1, &[at_most(&[2, -1])]), file(1, &[at_most(&[-2, 1])]));
    let proof = file(1, &rows);
    assert_eq!(check(&a, &b, &proof), Ok(expected));

    // A stride of 3 in the middle branch.
    let mut other = proof.clone();
    other[30] = 3;
    let expected = refused_row(15, 25, 3, Some((0, 1)));
    assert_eq!(check(&a, &b, &other), expected);
    // The file ends after the middle branch.
    let expected = Refusal {
        step: Some(0),
        branch: Some(2),
        ..Refusal::outside(20, 3, 31)
    };
    assert_eq!(check(&a, &b, &proof[..31]), Err(expected));
    // A known field after the root.
    let more = [proof, field(0x13, &[0])].concat();
    assert_eq!(check(&a, &b, &more), refused(19, 3, 44));
}

#[test]
fn stages_6_and_7() {
    let (one, none) = (file(1, &[at_most(&[0, 1])]), file(1, &[]));
    let rows = file(1, &[field(0x14, &[0])]);
    let expected = |d: i32| file(1, &[field(0x33, &longs(&[0, d]))]);
    assert_eq!(check(&one, &none, &rows), Ok(expected(1)));
    assert_eq!(check(&none, &one, &rows), Ok(expected(0)));
    assert_eq!(check(&none, &none, &none), refused(20, 3, 8));
}

#[test]
fn stage_8() {
    assert_eq!(of(stage_1(&field(0x80, b"note"), 2)), Ok(formula_1()));
    assert_eq!(of(stage_1(&field(0x06, b"note"), 2)), refused(3, 3, 8));
    let [mut a, b, proof] = stage_1(&[], 2);
    a[3] = 3;
    assert_eq!(check(&a, &b, &proof), refused(5, 1, 0));
    // Edition 2 over numbers of two bytes.
    a[3] = 2;
    assert_eq!(check(&a, &b, &proof), refused(6, 1, 8));
}

/// The header and the given fields, in edition 2.
fn second(k: u8, fields: &[Bytes]) -> Bytes {
    let mut bytes = file(k, fields);
    bytes[3] = 2;
    bytes
}

/// Stage 1 in every mix of editions: the same formula, in edition 1.
#[test]
fn stage_1_in_every_mix_of_editions() {
    let first = stage_1(&[], 2);
    let rows = [field(0x11, &[0, 1, 0, 0, 0, 1]), field(0x15, &[0, 2, 0, 2])];
    let other = [
        second(3, &[field(0x04, &longs(&[-2, 1, 0, 0]))]),
        second(3, &[field(0x04, &longs(&[0, -1, 2, 1]))]),
        second(3, &rows),
    ];
    for mix in 0..8 {
        let files = [0, 1, 2].map(|index| {
            if mix >> index & 1 == 1 {
                other[index].clone()
            } else {
                first[index].clone()
            }
        });
        assert_eq!(of(files), Ok(formula_1()));
    }
}

/// A register at least 40,000 in A and at most 30,000 in B, in edition 2; the same cut to two bytes; and the same bytes
/// under edition 1.
#[test]
fn a_stage_of_four_byte_numbers() {
    let bundle = |numbers: &[i32]| second(1, &[field(0x03, &longs(numbers))]);
    let (mut a, b) = (bundle(&[-1, 40_000]), bundle(&[1, -30_000]));
    let rows = [field(0x10, &[0, 0, 0, 1, 0, 1, 0, 1]), field(0x14, &[0, 2])];
    let proof = second(1, &rows);
    let expected = file(1, &[field(0x33, &longs(&[-1, 40_000]))]);
    assert_eq!(check(&a, &b, &proof), Ok(expected));
    let cut = file(1, &[at_most(&[-1, 40_000_i32 as i16])]);
    assert_eq!(check(&cut, &b, &proof), refused_row(15, 19, 1, None));
    a[3] = 1;
    assert_eq!(check(&a, &b, &proof), refused(6, 1, 8));
}

/// 1,000 lines on a branch of edition 2, and one more.
#[test]
fn lines_of_edition_2() {
    let a = file(1, &[equals(&[0, 1])]);
    let b = file(1, &[]);
    let scale = field(0x12, &[0, 0, 0, 1]);
    let mut rows = vec![scale.clone(); 999];
    rows.push(field(0x14, &[0x03, 0xE7]));
    let expected = file(1, &[field(0x34, &longs(&[0, 1]))]);
    assert_eq!(check(&a, &b, &second(1, &rows)), Ok(expected));
    rows[999] = scale;
    let place = 8 + 999 * 7;
    let expected = refused_row(16, place, 999, None);
    assert_eq!(check(&a, &b, &second(1, &rows)), expected);
}

/// -2,147,483,648 in a bundle, and the lengths of bundles.
#[test]
fn bundles_of_edition_2() {
    let b = file(1, &[]);
    let lowest = second(1, &[field(0x03, &longs(&[0, i32::MIN]))]);
    assert_eq!(check(&lowest, &b, &b), refused(13, 1, 8));
    assert_eq!(check(&b, &lowest, &b), refused(13, 2, 8));
    let noted = |start: Bytes, length: usize| {
        let contents = vec![7; length - start.len() - 3];
        [start, field(0x80, &contents)].concat()
    };
    for (edition, most) in [(1, 4_096), (2, 8_192)] {
        let mut start = b.clone();
        start[3] = edition;
        let full = noted(start.clone(), most);
        assert_eq!(check(&full, &full, &b), refused(20, 3, 8));
        let over = noted(start, most + 1);
        assert_eq!(check(&over, &b, &b), refused(1, 1, 0));
        assert_eq!(check(&b, &over, &b), refused(1, 2, 0));
    }
}

/// -32,768 times 65,535 stands, with its claim; twice that does not.
#[test]
fn stage_9() {
    let a = file(1, &[at_most(&[-32_768, 0])]);
    let most = [-2_147_450_880, 0, -2_147_450_880, 0];
    let mut rows = vec![field(0x12, &[0, 0xFF, 0xFF]), field(0x20, &longs(&most))];
    let length = file(1, &rows).len();
    assert_eq!(
        check(&a, &file(1, &[]), &file(1, &rows)),
        refused(20, 3, length)
    );
    rows.push(field(0x12, &[1, 0, 2]));
    assert_eq!(
        check(&a, &file(1, &[]), &file(1, &rows)),
        refused_row(13, length, 1, None)
    );
}

/// K 16 with 32 constraints in A and in B; K 17; a 33rd constraint in B.
#[test]
fn stage_10() {
    let mut one = vec![0; 17];
    one[16] = 1;
    let full = file(16, &vec![at_most(&one); 32]);
    let expected = |d: i32| {
        let mut form = vec![0; 17];
        form[16] = d;
        file(16, &[field(0x33, &longs(&form))])
    };
    for (line, d) in [(0, 1), (31, 1), (32, 0), (63, 0)] {
        let proof = file(16, &[field(0x14, &[line])]);
        assert_eq!(check(&full, &full, &proof), Ok(expected(d)));
    }
    let proof = file(16, &[field(0x14, &[64])]);
    assert_eq!(check(&full, &full, &proof), refused_row(10, 8, 0, None));
    let more = [full.clone(), at_most(&one)].concat();
    assert_eq!(check(&full, &more, &proof), refused(8, 2, full.len()));
    let mut other = full.clone();
    other[7] = 17;
    assert_eq!(check(&full, &other, &proof), refused(7, 2, 4));
    other[7] = 15;
    assert_eq!(check(&full, &other, &proof), refused(9, 2, 4));
}

/// The output too short by one, just long enough, and longer.
#[test]
fn outputs() {
    let [a, b, proof] = stage_1(&[], 2);
    let expected = formula_1();
    let mut out = vec![9; 40];
    assert_eq!(
        check_into(&a, &b, &proof, &mut out[..30]),
        refused(21, 4, 31)
    );
    assert_eq!(out, [9; 40]);
    assert_eq!(check_into(&a, &b, &proof, &mut out[..31]), Ok(31));
    assert_eq!((&out[..31], &out[31..]), (&expected[..], &[9; 9][..]));
    let mut out = vec![9; 40];
    assert_eq!(check_into(&a, &b, &proof, &mut out), Ok(31));
    assert_eq!((&out[..31], &out[31..]), (&expected[..], &[9; 9][..]));
}
