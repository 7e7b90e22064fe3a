//! Where in the tree a refusal stands: its row, and the step and branch that are
//! open there.

mod common;
use common::*;
use reference::{Answer, NONE};

const N: u16 = NONE;

/// Lines: 0 "x ≤ 0" and 1 "2x+1 = 0" of A, 2 "-x+1 ≤ 0" and 3 "3x+4 = 0" of B.
/// Line 0 may be strengthened, line 1 closes any branch.
fn bundles() -> (Vec<u8>, Vec<u8>) {
    let a = file(1, &[le(&[1, 0]), eq(&[2, 1])]);
    let b = file(1, &[le(&[-1, 1]), eq(&[3, 4])]);
    (a, b)
}

fn over(proof: &[u8]) -> Answer {
    let (a, b) = bundles();
    whole_answer(&a, &b, proof)
}

fn end() -> Vec<u8> {
    stride(1, 2)
}

/// A strengthen for each number, in the branch of the one before that the
/// number says: [1, 2] is the third branch of a step in the second of another.
fn inside(path: &[usize]) -> Vec<Vec<u8>> {
    let mut fields = Vec::new();
    for &branch in path {
        fields.push(strengthen(0));
        fields.extend(vec![end(); branch]);
    }
    fields
}

/// The row number of the last step of a path, and its branch.
fn innermost(path: &[usize]) -> [u16; 2] {
    match path.split_last() {
        Some((&branch, before)) => [rows_of(before), branch as u16],
        None => [N, N],
    }
}

/// How many rows `inside` has.
fn rows_of(path: &[usize]) -> u16 {
    path.iter().map(|&branch| 1 + branch as u16).sum()
}

/// The fields after the header, the last at fault. With notes in front of
/// every field the place moves, and nothing else.
fn last(number: u8, fields: &[Vec<u8>], tree: [u16; 3]) {
    let before = &fields[..fields.len() - 1];
    let expected = refused_at(number, file(1, before).len(), tree);
    assert_eq!(over(&file(1, fields)), expected);
    let noted = |fields: &[Vec<u8>]| -> Vec<Vec<u8>> {
        fields
            .iter()
            .flat_map(|part| [note(), note(), part.clone()])
            .collect()
    };
    let place = file(1, &[noted(before), vec![note(), note()]].concat()).len();
    let expected = refused_at(number, place, tree);
    assert_eq!(over(&file(1, &noted(fields))), expected);
}

/// The fields of a path, then these, the last of them at fault.
fn last_inside(number: u8, path: &[usize], more: &[Vec<u8>], tree: [u16; 3]) {
    last(number, &[inside(path), more.to_vec()].concat(), tree);
}

/// The root, each branch of one step, of one inside another, and deeper.
fn paths() -> Vec<Vec<usize>> {
    let mut paths = vec![vec![]];
    for first in 0..3 {
        paths.push(vec![first]);
        for second in 0..3 {
            paths.push(vec![first, second]);
            for third in 0..3 {
                paths.push(vec![first, second, third]);
            }
        }
    }
    paths.push(vec![2, 0, 1, 2, 1, 0, 0, 2]);
    paths.push(vec![1; 20]);
    paths
}

#[test]
fn stage_5_with_its_rows_changed() {
    let a = file(1, &[le(&[2, -1])]);
    let b = file(1, &[le(&[-2, 1])]);
    let outer = || [combine(2, 1, 1, 1), close(3)].concat();
    let proof = file(1, &[strengthen(0), outer(), stride(2, 2), outer()]);
    assert_eq!(whole_answer(&a, &b, &proof), ACCEPTED);
    // A stride of 3 in the middle branch.
    let other = file(1, &[strengthen(0), outer(), stride(2, 3), outer()]);
    let expected = refused_at(15, 25, [3, 0, 1]);
    assert_eq!(whole_answer(&a, &b, &other), expected);
    // The file ends after the middle branch.
    let cut = &proof[..31];
    let expected = refused_at(20, 31, [N, 0, 2]);
    assert_eq!(whole_answer(&a, &b, cut), expected);
    // A known field after the root.
    let more = [proof, scale(0, 1)].concat();
    assert_eq!(whole_answer(&a, &b, &more), refused_at(19, 44, [N, N, N]));
}

#[test]
fn lengths_and_bundles_have_no_place_in_the_tree() {
    let (a, b) = bundles();
    let proof = file(1, &inside(&[1]));
    let (long, longest) = (vec![0x80; 8_193], vec![0x80; 65_537]);
    assert_eq!(whole_answer(&long, &b, &proof), refused(1, 1, 0));
    assert_eq!(whole_answer(&a, &long, &proof), refused(1, 2, 0));
    assert_eq!(whole_answer(&a, &b, &longest), refused(1, 3, 0));
    for (number, place, bundle) in [
        (2, 0, vec![]),
        (2, 8, [file(1, &[]), vec![0x80, 0]].concat()),
        (3, 8, file(1, &[field(0x13, &[0])])),
        (4, 8, file(1, &[constants(1)])),
        (5, 0, edition(3)),
        (6, 8, file(1, &[le(&[1])])),
        (7, 4, file(17, &[])),
        (8, 232, file(1, &vec![le(&[1, 0]); 33])),
    ] {
        let expected = |file| refused(number, file, place);
        assert_eq!(whole_answer(&bundle, &b, &proof), expected(1));
        assert_eq!(whole_answer(&a, &bundle, &proof), expected(2));
    }
    assert_eq!(whole_answer(&a, &file(2, &[]), &proof), refused(9, 2, 4));
}

#[test]
fn the_proofs_header_has_no_place_in_the_tree() {
    for (number, place, proof) in [
        (2, 0, vec![]),
        (2, 4, edition(1)),
        (2, 4, [edition(1), vec![0x02, 0]].concat()),
        (2, 4, [edition(1), vec![0x80, 0]].concat()),
        (3, 0, field(0x03, &[])),
        (4, 0, strengthen(0)),
        (4, 4, [edition(1), strengthen(0)].concat()),
        (6, 0, field(0x01, &[])),
        (5, 0, edition(3)),
        (7, 4, file(17, &inside(&[1]))),
        (9, 4, file(2, &inside(&[1]))),
    ] {
        assert_eq!(over(&proof), refused(number, 3, place));
    }
}

#[test]
fn what_is_tested_before_the_count_of_rows_has_no_row() {
    for path in paths() {
        let [step, branch] = innermost(&path);
        let tree = [N, step, branch];
        let claimed = claim(&[1, 0], &[1, 0]);
        // Bytes that are no whole field, of a row, of a claim and of a note.
        last_inside(2, &path, &[vec![0x14]], tree);
        last_inside(2, &path, &[vec![0x13, 0, 1]], tree);
        last_inside(2, &path, &[scale(0, 1), vec![0x20, 0, 16, 0]], tree);
        last_inside(2, &path, &[vec![0x80, 0]], tree);
        last_inside(2, &path, &[vec![0xFF, 0, 2, 7]], tree);
        for tag in [0x00, 0x03, 0x05, 0x18, 0x31, 0x7F] {
            last_inside(3, &path, &[field(tag, &[0])], tree);
        }
        // A header field; a claim that is misplaced, of the right length or not.
        last_inside(4, &path, &[edition(1)], tree);
        last_inside(4, &path, &[scale(0, 1), constants(1)], tree);
        last_inside(4, &path, &[claimed.clone()], tree);
        last_inside(4, &path, &[field(0x20, &[])], tree);
        let twice = [scale(0, 1), claimed.clone(), claimed.clone()];
        last_inside(4, &path, &twice, tree);
        // The length of a row and of a claim.
        for tag in 0x10..=0x17 {
            last_inside(6, &path, &[field(tag, &[])], tree);
        }
        let short = field(0x20, &claimed[3..18]);
        last_inside(6, &path, &[scale(0, 1), short], tree);
    }
}

#[test]
fn a_row_at_fault_has_its_number_and_the_branch_around_it() {
    for path in paths() {
        let [step, branch] = innermost(&path);
        let row = rows_of(&path);
        let own = |number: u8, field: Vec<u8>| {
            last_inside(number, &path, &[field], [row, step, branch]);
        };
        own(10, combine(0, 255, 1, 1));
        own(10, reduce(255, 1, 1));
        own(10, scale(255, 1));
        own(10, strengthen(255));
        own(10, close(255));
        own(10, stride(255, 2));
        own(11, combine(0, 1, 1, 1));
        own(11, reduce(0, 2, 1));
        own(11, strengthen(1));
        own(11, stride(2, 2));
        own(12, combine(0, 2, 0, 1));
        own(12, reduce(0, 1, 0));
        own(12, scale(0, 0));
        own(12, stride(1, 1));
        own(15, close(0));
        own(15, stride(1, 3));
        // Rows before it count, claims and notes do not.
        let claimed = [scale(3, 65_535), claim(&[196_605, 262_140], &[0, 0])];
        let [made, stated] = claimed;
        let line = 4 + path.len() as u8;
        for wrong in [scale(line, 65_535), reduce(0, line, 32_767)] {
            let more = [made.clone(), stated.clone(), wrong];
            last_inside(13, &path, &more, [row + 1, step, branch]);
        }
    }
}

#[test]
fn a_129th_line_has_the_row_that_makes_it() {
    for path in paths() {
        let [step, branch] = innermost(&path);
        // Four lines of the bundles, one for each step, the rest scaled.
        let made = 124 - path.len();
        let row = rows_of(&path) + made as u16;
        let full = vec![scale(0, 1); made];
        for over in [scale(0, 1), combine(0, 2, 1, 1), reduce(0, 1, 1)] {
            let more = [full.clone(), vec![over]].concat();
            last_inside(16, &path, &more, [row, step, branch]);
        }
        // It stands in the branch around it.
        let more = [full, vec![strengthen(0)]].concat();
        last_inside(16, &path, &more, [row, step, branch]);
    }
}

#[test]
fn a_strengthen_out_of_range_stands_in_the_branch_around_it() {
    // Line 2 closes any branch, and makes a d at the end of the range.
    let a = file(1, &[le(&[1, 0]), le(&[0, 32_767]), le(&[0, 1])]);
    let b = file(1, &[]);
    let most = |made: u8| {
        [
            combine(1, 2, 65_535, 32_767),
            combine(made, 2, 1, 65_535),
            claim(&[0, i32::MAX], &[0, i32::MAX]),
        ]
    };
    let before = [vec![strengthen(0), close(2)], most(4).to_vec()].concat();
    let proof = file(1, &[before.clone(), vec![strengthen(5)]].concat());
    let place = file(1, &before).len();
    let expected = refused_at(13, place, [4, 0, 1]);
    assert_eq!(whole_answer(&a, &b, &proof), expected);
    // On the root.
    let proof = file(1, &[most(3).to_vec(), vec![strengthen(4)]].concat());
    let place = file(1, &most(3)).len();
    let expected = refused_at(13, place, [2, N, N]);
    assert_eq!(whole_answer(&a, &b, &proof), expected);
}

#[test]
fn a_claim_belongs_to_the_row_before_it() {
    let wrong = claim(&[2, 1], &[2, 0]);
    for path in paths() {
        let [step, branch] = innermost(&path);
        let row = rows_of(&path);
        let more = [scale(0, 2), wrong.clone()];
        last_inside(14, &path, &more, [row, step, branch]);
        let more = [
            scale(0, 2),
            claim(&[2, 0], &[2, 0]),
            scale(0, 2),
            wrong.clone(),
        ];
        last_inside(14, &path, &more, [row + 1, step, branch]);
    }
    // In the third branch, rows in all three.
    let fields = [
        strengthen(0),
        scale(0, 2),
        claim(&[2, 0], &[2, 0]),
        end(),
        scale(0, 2),
        claim(&[2, 0], &[2, 0]),
        end(),
        scale(0, 2),
        wrong,
    ];
    last(14, &fields, [5, 0, 2]);
}

#[test]
fn a_field_finds_open_what_comes_after_a_close() {
    let fault = || close(0);
    // The next branch of the same step.
    last(15, &[strengthen(0), fault()], [1, 0, 0]);
    last(15, &[strengthen(0), end(), fault()], [2, 0, 1]);
    last(15, &[strengthen(0), end(), end(), fault()], [3, 0, 2]);
    // After the last branch of an inner step, the outer step's next.
    let inner = || [vec![strengthen(0)], vec![end(); 3]].concat();
    let fields = [vec![strengthen(0)], inner(), vec![fault()]].concat();
    last(15, &fields, [5, 0, 1]);
    let fields = [vec![strengthen(0)], inner(), inner(), vec![fault()]].concat();
    last(15, &fields, [9, 0, 2]);
    // The same with a fault that is no row's.
    let fields = [vec![strengthen(0)], inner(), vec![field(0x7F, &[])]].concat();
    last(3, &fields, [N, 0, 1]);
    // Two inner steps end at once: one in the third branch of the other.
    let both = [inside(&[2]), inner()].concat();
    let fields = [vec![strengthen(0)], both.clone(), vec![fault()]].concat();
    last(15, &fields, [8, 0, 1]);
    // And in the third branch of the outer one the root is closed.
    let closed = [inside(&[2]), inside(&[2]), inner()].concat();
    assert_eq!(over(&file(1, &closed)), ACCEPTED);
    let fields = [closed, vec![fault()]].concat();
    last(19, &fields, [N, N, N]);
}

#[test]
fn after_the_root_is_closed_nothing_is_open() {
    for closed in [
        vec![end()],
        vec![strengthen(0), end(), end(), end()],
        [inside(&[2, 2]), vec![end()]].concat(),
    ] {
        assert_eq!(over(&file(1, &closed)), ACCEPTED);
        for (number, field) in [
            (2, vec![0x14, 0]),
            (2, vec![0x90, 0, 1]),
            (3, field(0x7F, &[])),
            (19, edition(1)),
            (19, constants(1)),
            (19, strengthen(0)),
            (19, close(255)),
            (19, claim(&[1, 0], &[1, 0])),
        ] {
            let fields = [closed.clone(), vec![field]].concat();
            last(number, &fields, [N, N, N]);
        }
    }
}

/// A closed tree of so many strengthens, the next always in the first branch
/// until 30 are open.
fn bushy(strengthens: usize) -> Vec<Vec<u8>> {
    let mut left = strengthens;
    let mut rows = Vec::new();
    let mut branches = vec![0];
    while let Some(depth) = branches.pop() {
        if left > 0 && depth < 30 {
            left -= 1;
            rows.push(strengthen(0));
            branches.extend([depth + 1; 3]);
        } else {
            rows.push(end());
        }
    }
    rows
}

#[test]
fn a_1025th_row_is_row_1024() {
    // 341 strengthens and 683 closes are 1,024 rows, and a row stands before
    // them: the last close is one too many, in the first step's third branch.
    let mut fields = vec![scale(0, 1)];
    fields.extend(bushy(341));
    assert_eq!(fields.len(), 1_025);
    last(18, &fields, [1_024, 1, 2]);
    // Any row there, whatever its parameters; its tag, place and length come first.
    for row in [strengthen(255), combine(255, 0, 0, 0), scale(0, 0)] {
        fields[1_024] = row;
        last(18, &fields, [1_024, 1, 2]);
    }
    fields[1_024] = field(0x14, &[]);
    last(6, &fields, [N, 1, 2]);
    // Three more rows in front: the last four closes end the second and third
    // branches of the second step and of the first, and one of them is there.
    let mut fields = vec![scale(0, 1); 4];
    fields.extend(bushy(341));
    fields.truncate(1_025);
    last(18, &fields, [1_024, 5, 1]);
}

#[test]
fn a_33rd_open_strengthen_stands_in_the_32nd() {
    for branch in 0..3 {
        let path = vec![branch; 32];
        let tree = [rows_of(&path), rows_of(&path[1..]), branch as u16];
        last_inside(17, &path, &[strengthen(0)], tree);
        // 10 and 11 come before it, and stand in the same place.
        last_inside(10, &path, &[strengthen(255)], tree);
        last_inside(11, &path, &[strengthen(1)], tree);
    }
    // The 32nd is closed: there is room for one more in the next branch of the 31st.
    let mut fields = inside(&[0; 32]);
    fields.extend([end(), end(), end(), strengthen(0), strengthen(0)]);
    last(17, &fields, [36, 35, 0]);
}

#[test]
fn branches_that_are_open_at_the_end() {
    for path in [paths(), vec![vec![0; 32], vec![2; 32]]].concat() {
        let [step, branch] = innermost(&path);
        let fields = inside(&path);
        for more in [vec![], vec![note()], vec![scale(0, 1), note()]] {
            let proof = file(1, &[fields.clone(), more].concat());
            let expected = refused_at(20, proof.len(), [N, step, branch]);
            assert_eq!(over(&proof), expected);
        }
    }
    // After an inner step is closed, the outer one's next branch is open.
    let fields = [vec![strengthen(0)], inside(&[2]), vec![end()]].concat();
    let proof = file(1, &fields);
    let expected = refused_at(20, proof.len(), [N, 0, 1]);
    assert_eq!(over(&proof), expected);
}

#[test]
fn an_output_too_short_and_an_accepted_proof_have_no_place_in_the_tree() {
    let (a, b) = bundles();
    for fields in [
        vec![end()],
        vec![strengthen(0), end(), end(), end()],
        [inside(&[1, 2]), vec![end(); 2]].concat(),
    ] {
        let proof = file(1, &fields);
        let (accepted, bytes) = check_whole(&a, &b, &proof, 65_536);
        assert_eq!(accepted, ACCEPTED);
        let short = check_whole(&a, &b, &proof, bytes.len() - 1).0;
        assert_eq!(short, refused(21, 4, bytes.len()));
    }
}

#[test]
fn operations_that_check_no_proof_have_no_place_in_the_tree() {
    let (a, b) = bundles();
    assert_eq!(read(&a).answer, ACCEPTED);
    assert_eq!(read(&a[..a.len() - 1]).answer, refused(2, 1, 15));
    assert_eq!(read_into(&a, 0, 0).answer, refused(21, 4, 2));
    assert_eq!(write_into(1, &[0], &[1, 0], 15).0, ACCEPTED);
    assert_eq!(write_into(1, &[0], &[1, 0], 14).0, refused(21, 4, 15));
    assert_eq!(show_part(&a, &b, 3).0, ACCEPTED);
    assert_eq!(show_part(&a, &b, 4).0, refused(10, 1, 0));
    let formula = file(1, &[or(), at_most(&[1, 0]), divides(1, &[1, 0])]);
    assert_eq!(test(&formula, &[0]), Err(refused(12, 3, 22)));
    let deep = file(1, &vec![or(); 601]);
    assert_eq!(test(&deep, &[0]), Err(refused(17, 3, 8 + 600 * 3)));
    let whole = file(1, &[at_most(&[1, 0])]);
    assert_eq!(reference::test_formula(&whole, &[0]).answer, ACCEPTED);
}
