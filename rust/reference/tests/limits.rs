//! Both sides of each limit of a proof.

mod common;
use common::*;

/// A has "x ≤ 0" and "1 = 0" as lines 0 and 1, B is empty.
fn bundles() -> (Vec<u8>, Vec<u8>) {
    (file(1, &[le(&[1, 0]), eq(&[0, 1])]), file(1, &[]))
}

/// Rows that add so many lines.
fn scales(count: usize) -> Vec<Vec<u8>> {
    vec![scale(0, 1); count]
}

#[test]
fn a_129th_line_by_each_row() {
    let (a, b) = bundles();
    let mut rows = scales(126);
    let full = file(1, &rows);
    assert_eq!(answer(&a, &b, &full), refused(20, 3, full.len()));
    for row in [
        combine(0, 0, 1, 1),
        reduce(0, 1, 1),
        scale(0, 1),
        strengthen(0),
    ] {
        let over = [full.clone(), row].concat();
        assert_eq!(answer(&a, &b, &over), refused(16, 3, full.len()));
    }
    // Line 127 is there, line 128 is not.
    assert_eq!(
        answer(&a, &b, &[full.clone(), scale(128, 1)].concat()),
        refused(10, 3, full.len())
    );
    assert_eq!(
        answer(&a, &b, &[full.clone(), close(127)].concat()),
        refused(15, 3, full.len())
    );
    // 11 and 12 come before 16.
    for (row, number) in [
        (combine(0, 1, 1, 1), 11),
        (reduce(1, 0, 1), 11),
        (strengthen(1), 11),
        (combine(0, 0, 1, 0), 12),
        (reduce(0, 1, 0), 12),
        (scale(0, 0), 12),
    ] {
        let over = [full.clone(), row].concat();
        assert_eq!(answer(&a, &b, &over), refused(number, 3, full.len()));
    }
    rows.push(close(1));
    assert_eq!(answer(&a, &b, &file(1, &rows)), ACCEPTED);
}

#[test]
fn full_bundles_leave_64_lines() {
    let bundle = file(
        16,
        &vec![eq(&[0, 0, 0, 0, 0, 0, 0, 0, 0, 0, 0, 0, 0, 0, 0, 0, 1]); 32],
    );
    let rows = scales(64);
    let full = file(16, &[rows.concat(), close(63)]);
    assert_eq!(answer(&bundle, &bundle, &full), ACCEPTED);
    let over = file(16, &[rows.concat(), scale(0, 1)]);
    assert_eq!(answer(&bundle, &bundle, &over), refused(16, 3, 8 + 64 * 6));
}

#[test]
fn a_strengthen_may_make_the_128th_line_in_all_three_branches() {
    let (a, b) = bundles();
    let mut rows = scales(125);
    rows.push(strengthen(0));
    let start = rows.clone();
    rows.extend([close(1), close(1), close(1)]);
    assert_eq!(answer(&a, &b, &file(1, &rows)), ACCEPTED);
    for closes in 0..3 {
        let mut rows = start.clone();
        rows.extend(vec![close(1); closes]);
        let place = file(1, &rows).len();
        rows.push(scale(0, 1));
        assert_eq!(answer(&a, &b, &file(1, &rows)), refused(16, 3, place));
    }
}

#[test]
fn lines_fall_back_when_a_branch_is_closed() {
    let (a, b) = bundles();
    // 2 lines, 1 new one a branch, then 125 more in each branch.
    let mut rows = vec![strengthen(0)];
    for _ in 0..3 {
        rows.extend(scales(125));
        rows.push(close(1));
    }
    assert_eq!(answer(&a, &b, &file(1, &rows)), ACCEPTED);
    // One more in the third branch.
    rows.insert(rows.len() - 1, scale(0, 1));
    let place = file(1, &rows[..rows.len() - 2]).len();
    assert_eq!(answer(&a, &b, &file(1, &rows)), refused(16, 3, place));
    // A line of the first branch is not there in the second and third.
    for closes in 1..3 {
        let mut rows = vec![strengthen(0), scale(0, 1), scale(0, 1)];
        rows.extend(vec![close(1); closes]);
        let place = file(1, &rows).len();
        rows.push(scale(3, 1));
        assert_eq!(answer(&a, &b, &file(1, &rows)), refused(10, 3, place));
    }
    // After an inner strengthen is closed, the outer branch's own line stays.
    let inner = [strengthen(0), strengthen(0), close(1), close(1), close(1)];
    for (line, expected) in [(2, 20), (3, 10)] {
        let mut rows = inner.to_vec();
        let place = file(1, &rows).len();
        rows.push(scale(line, 1));
        let proof = file(1, &rows);
        let place = if expected == 20 { proof.len() } else { place };
        assert_eq!(answer(&a, &b, &proof), refused(expected, 3, place));
    }
}

/// A closed table of strengthens and closes only, with so many strengthens.
fn bushy(strengthens: usize) -> Vec<Vec<u8>> {
    // At most 30 deep; each strengthen not used up goes to the next branch.
    fn grow(left: &mut usize, depth: usize, rows: &mut Vec<Vec<u8>>) {
        if *left == 0 || depth == 30 {
            rows.push(close(1));
            return;
        }
        *left -= 1;
        rows.push(strengthen(0));
        for _ in 0..3 {
            grow(left, depth + 1, rows);
        }
    }
    let mut left = strengthens;
    let mut rows = Vec::new();
    grow(&mut left, 0, &mut rows);
    assert_eq!(rows.len(), 3 * strengthens + 1);
    rows
}

#[test]
fn a_1025th_row() {
    let (a, b) = bundles();
    // 341 strengthens and 683 closes.
    let mut rows = bushy(341);
    assert_eq!(rows.len(), 1_024);
    assert_eq!(answer(&a, &b, &file(1, &rows)), ACCEPTED);
    rows.insert(0, scale(0, 1));
    let place = file(1, &rows[..1_024]).len();
    assert_eq!(answer(&a, &b, &file(1, &rows)), refused(18, 3, place));
    // 18 comes before what the row itself says, and after its length.
    for (row, number) in [
        (close(200), 18),
        (stride(0, 0), 18),
        (scale(0, 0), 18),
        (field(0x14, &[]), 6),
        (claim(&[1, 0], &[1, 0]), 4),
    ] {
        rows[1_024] = row;
        assert_eq!(answer(&a, &b, &file(1, &rows)), refused(number, 3, place));
    }
}

#[test]
fn claims_and_notes_are_no_rows() {
    let (a, b) = bundles();
    let mut rows = bushy(341);
    rows.pop();
    // 1,023 rows and an open branch; one of 0x10 to 0x12 and its claim may follow.
    rows.extend([scale(0, 1), note(), claim(&[1, 0], &[1, 0]), note()]);
    let proof = file(1, &rows);
    assert_eq!(answer(&a, &b, &proof), refused(20, 3, proof.len()));
    rows.push(close(1));
    assert_eq!(answer(&a, &b, &file(1, &rows)), refused(18, 3, proof.len()));
    // A claim after each of many rows.
    let mut rows = vec![strengthen(0)];
    for _ in 0..3 {
        for _ in 0..120 {
            rows.extend([scale(0, 1), claim(&[1, 0], &[1, 0]), note()]);
        }
        rows.push(close(1));
    }
    assert_eq!(answer(&a, &b, &file(1, &rows)), ACCEPTED);
}

#[test]
fn after_1024_rows_a_field_after_the_root_gives_19() {
    let (a, b) = bundles();
    let rows = bushy(341);
    let closed = file(1, &rows);
    let more = [closed.clone(), close(1)].concat();
    assert_eq!(answer(&a, &b, &more), refused(19, 3, closed.len()));
}

#[test]
fn a_33rd_open_strengthen() {
    let (a, b) = bundles();
    // Nested in the first, second and third branch.
    for closes in 0..3 {
        let mut rows = Vec::new();
        for _ in 0..32 {
            rows.push(strengthen(0));
            rows.extend(vec![close(1); closes]);
        }
        let place = file(1, &rows).len();
        let mut over = rows.clone();
        over.push(strengthen(0));
        assert_eq!(answer(&a, &b, &file(1, &over)), refused(17, 3, place));
        // 10 and 11 come before 17.
        for (line, number) in [(100, 10), (1, 11)] {
            over[rows.len()] = strengthen(line);
            assert_eq!(answer(&a, &b, &file(1, &over)), refused(number, 3, place));
        }
        // What is left open: the last branch and those that follow.
        rows.extend(vec![close(1); 1 + 32 * (2 - closes)]);
        let written = formula(&a, &b, &file(1, &rows));
        // The formula has 64 levels at most, so it can be tested.
        assert_eq!(test(&written, &[0]), Ok(false));
    }
}

#[test]
fn a_closed_strengthen_is_open_no_more() {
    let (a, b) = bundles();
    // 31 open, then one after the other in the last one's branches.
    let mut rows = vec![strengthen(0); 31];
    for _ in 0..3 {
        rows.extend([strengthen(0), close(1), close(1), close(1)]);
    }
    rows.extend(vec![close(1); 2 * 30]);
    assert_eq!(answer(&a, &b, &file(1, &rows)), ACCEPTED);
    // In its third branch a strengthen is still open.
    let mut rows = vec![strengthen(0); 32];
    rows.extend([close(1), close(1)]);
    let place = file(1, &rows).len();
    rows.push(strengthen(0));
    assert_eq!(answer(&a, &b, &file(1, &rows)), refused(17, 3, place));
    // Once that is closed there is room again.
    rows.insert(34, close(1));
    let proof = file(1, &rows);
    assert_eq!(answer(&a, &b, &proof), refused(20, 3, proof.len()));
}

#[test]
fn a_strengthen_gives_17_then_16_then_13() {
    // Line 0 has d = 32,767 and is scaled up to 2^31 - 1 by the rows below.
    let a = file(1, &[le(&[0, 32_767]), le(&[0, 1]), eq(&[0, 1])]);
    let b = file(1, &[]);
    // 32,767 * 65,535 = 2,147,385,345; 98,302 are missing.
    let highest = [
        combine(0, 1, 65_535, 32_767),
        claim(&[0, 2_147_418_112], &[0, 2_147_418_112]),
        combine(3, 1, 1, 65_535),
        claim(&[0, 2_147_483_647], &[0, 2_147_483_647]),
    ]
    .concat();
    let start = [file(1, &[]), highest].concat();
    let over = [start.clone(), strengthen(4)].concat();
    assert_eq!(answer(&a, &b, &over), refused(13, 3, start.len()));

    let full = [start.clone(), vec![scale(0, 1); 123].concat()].concat();
    let over = [full.clone(), strengthen(4)].concat();
    assert_eq!(answer(&a, &b, &over), refused(16, 3, full.len()));

    let deep = [start.clone(), vec![strengthen(1); 32].concat()].concat();
    let over = [deep.clone(), strengthen(4)].concat();
    assert_eq!(answer(&a, &b, &over), refused(17, 3, deep.len()));

    let both = [deep.clone(), vec![scale(0, 1); 128 - 37].concat()].concat();
    let over = [both.clone(), strengthen(4)].concat();
    assert_eq!(answer(&a, &b, &over), refused(17, 3, both.len()));
    let over = [both.clone(), scale(4, 2)].concat();
    assert_eq!(answer(&a, &b, &over), refused(16, 3, both.len()));
    // A strengthen of an equality gives 11 before all three.
    let over = [both.clone(), strengthen(2)].concat();
    assert_eq!(answer(&a, &b, &over), refused(11, 3, both.len()));
}

/// A's lines 0 "32,767x ≤ 0" and 1 "x ≤ 0", or both with a minus sign.
fn range_bundles(low: bool) -> (Vec<u8>, Vec<u8>) {
    let sign = if low { -1 } else { 1 };
    let a = file(2, &[le(&[sign * 32_767, 0, 0]), le(&[sign, 0, 0])]);
    let b = file(2, &[le(&[0, 1, 0])]);
    (a, b)
}

#[test]
fn the_range_of_a_coefficient_on_both_sides() {
    for low in [false, true] {
        let (a, b) = range_bundles(low);
        let sign = if low { -1 } else { 1 };
        let limit = sign * 2_147_483_647;
        let rows = vec![
            combine(0, 1, 65_535, 32_767),
            combine(3, 1, 1, 65_534),
            claim(&[limit - sign, 0, 0], &[limit - sign, 0, 0]),
            combine(4, 1, 1, 1),
            claim(&[limit, 0, 0], &[limit, 0, 0]),
        ];
        let stands = file(2, &rows);
        assert_eq!(answer(&a, &b, &stands), refused(20, 3, stands.len()));
        for row in [combine(4, 1, 1, 2), combine(5, 1, 1, 1), scale(5, 2)] {
            // Two below is -2,147,483,648, which is outside too.
            let over = [stands.clone(), row].concat();
            assert_eq!(answer(&a, &b, &over), refused(13, 3, stands.len()));
        }
        let far = [stands.clone(), combine(5, 5, 65_535, 65_535)].concat();
        assert_eq!(answer(&a, &b, &far), refused(13, 3, stands.len()));
        let far = [stands.clone(), scale(5, 65_535)].concat();
        assert_eq!(answer(&a, &b, &far), refused(13, 3, stands.len()));
    }
}

#[test]
fn the_range_of_a_partial_interpolant_alone() {
    // t stays small as B takes away what A brings, tA does not.
    let a = file(1, &[eq(&[32_767, 0]), eq(&[1, 0])]);
    let b = file(1, &[eq(&[-32_767, 0]), eq(&[-1, 0])]);
    let grow = |times: usize| vec![[reduce(0, 0, 32_767), reduce(4, 2, 32_767)].concat(); times];
    // Line 4 is 32,767 * 32,768 with the same tA, line 5 has t back to 32,767.
    let proof = file(
        1,
        &[
            grow(1).concat(),
            claim(&[32_767, 0], &[1_073_709_056, 0]),
            // Again from line 5: t the same, tA twice that and a little less.
            reduce(5, 0, 32_767),
            reduce(6, 2, 32_767),
            claim(&[32_767, 0], &[2_147_385_345, 0]),
            reduce(7, 1, 32_767),
            reduce(8, 3, 32_767),
            claim(&[32_767, 0], &[2_147_418_112, 0]),
            reduce(9, 1, 32_767),
            reduce(10, 3, 32_767),
            claim(&[32_767, 0], &[2_147_450_879, 0]),
            reduce(11, 1, 32_767),
            reduce(12, 3, 32_767),
            claim(&[32_767, 0], &[2_147_483_646, 0]),
            reduce(13, 1, 1),
            claim(&[32_768, 0], &[2_147_483_647, 0]),
            reduce(14, 3, 1),
            claim(&[32_767, 0], &[2_147_483_647, 0]),
        ],
    );
    assert_eq!(answer(&a, &b, &proof), refused(20, 3, proof.len()));
    let over = [proof.clone(), reduce(15, 1, 1)].concat();
    assert_eq!(answer(&a, &b, &over), refused(13, 3, proof.len()));
}

#[test]
fn the_range_at_a_strengthen() {
    // d of t, then d of tA alone, at 2^31 - 1 and one below.
    let a = file(1, &[le(&[0, 32_767]), le(&[0, 1]), eq(&[0, 1])]);
    let b = file(1, &[le(&[0, -32_768]), le(&[0, 1])]);
    let base = [
        combine(0, 1, 65_535, 32_767),
        combine(5, 1, 1, 65_534),
        claim(&[0, 2_147_483_646], &[0, 2_147_483_646]),
    ]
    .concat();
    let below = file(1, &[base.clone(), strengthen(6), scale(7, 1)]);
    let claimed = claim(&[0, 2_147_483_647], &[0, 2_147_483_647]);
    let stands = [below.clone(), claimed].concat();
    assert_eq!(answer(&a, &b, &stands), refused(20, 3, stands.len()));
    let at = file(1, &[base.clone(), combine(6, 1, 1, 1)]);
    let over = [at.clone(), strengthen(7)].concat();
    assert_eq!(answer(&a, &b, &over), refused(13, 3, at.len()));
    // B's line takes t down again, tA stays at its highest.
    let mixed = file(
        1,
        &[
            base.clone(),
            combine(6, 1, 1, 1),
            combine(7, 3, 1, 1),
            claim(&[0, 2_147_450_879], &[0, 2_147_483_647]),
        ],
    );
    let over = [mixed.clone(), strengthen(8)].concat();
    assert_eq!(answer(&a, &b, &over), refused(13, 3, mixed.len()));
    // B's line takes t up: here t is at its highest, tA is not.
    let mixed = file(
        1,
        &[
            base,
            combine(6, 4, 1, 1),
            claim(&[0, 2_147_483_647], &[0, 2_147_483_646]),
        ],
    );
    let over = [mixed.clone(), strengthen(7)].concat();
    assert_eq!(answer(&a, &b, &over), refused(13, 3, mixed.len()));
}

#[test]
fn the_longest_formula() {
    // 683 leaves of 75 bytes at K = 16.
    let mut numbers = [0; 17];
    numbers[16] = 1;
    let a = file(16, &[le(&numbers), eq(&numbers)]);
    let b = file(16, &[]);
    let rows: Vec<Vec<u8>> = bushy(341)
        .into_iter()
        .map(|row| {
            if row[0] == 0x14 {
                stride(1, 65_535)
            } else {
                row
            }
        })
        .collect();
    let proof = file(16, &rows);
    let needed = 8 + 341 * 6 + 683 * 75;
    let (answer, bytes) = check_into(&a, &b, &proof, needed);
    assert_eq!((answer, bytes.len()), (ACCEPTED, needed));
    let answer = check_into(&a, &b, &proof, needed - 1).0;
    assert_eq!(answer, refused(21, 4, needed));
    assert_eq!(test(&bytes, &[0; 16]), Ok(false));
}
