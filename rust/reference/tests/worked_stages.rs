//! The worked stages of the paper, with every variant.

mod common;
use common::*;
use reference::{Answer, NONE};

const STAGE_1_A: &str = "01000101 02000103 040008 FFFE000100000000";
const STAGE_1_B: &str = "01000101 02000103 040008 0000FFFF00020001";
const STAGE_1_PROOF: &str = "01000101 02000103 110004 01000001 150003 020002";
const STAGE_1_FORMULA: &str = "01000101020001033500140000000200000000000000010000000000000000";

fn stage_1() -> (Vec<u8>, Vec<u8>, Vec<u8>) {
    (hex(STAGE_1_A), hex(STAGE_1_B), hex(STAGE_1_PROOF))
}

#[test]
fn stage_1_reduce_and_close_by_stride() {
    let (a, b, proof) = stage_1();
    let written = formula(&a, &b, &proof);
    assert_eq!(written.len(), 31);
    assert_eq!(written, hex(STAGE_1_FORMULA));
    assert_eq!(written, file(3, &[divides(2, &[0, 1, 0, 0])]));
    // The new line is 2z-2x+1 = 0 with y-2x.
    let claimed = file(
        3,
        &[
            reduce(1, 0, 1),
            claim(&[-2, 0, 2, 1], &[-2, 1, 0, 0]),
            stride(2, 2),
        ],
    );
    assert_eq!(formula(&a, &b, &claimed), hex(STAGE_1_FORMULA));
}

#[test]
fn stage_1_the_builders_give_the_papers_bytes() {
    let (a, b, proof) = stage_1();
    assert_eq!(a, file(3, &[eq(&[-2, 1, 0, 0])]));
    assert_eq!(b, file(3, &[eq(&[0, -1, 2, 1])]));
    assert_eq!(proof, file(3, &[reduce(1, 0, 1), stride(2, 2)]));
}

#[test]
fn stage_2_stride_3_does_not_close() {
    let (a, b, _) = stage_1();
    let proof = file(3, &[reduce(1, 0, 1), stride(2, 3)]);
    let expected = refused_at(15, 15, [1, NONE, NONE]);
    assert_eq!(whole_answer(&a, &b, &proof), expected);
}

#[test]
fn stage_3_combine_and_close_by_number() {
    let a = file(1, &[le(&[1, 0])]);
    let b = file(1, &[le(&[-1, 1])]);
    let proof = file(1, &[combine(0, 1, 1, 1), close(2)]);
    assert_eq!(formula(&a, &b, &proof), file(1, &[at_most(&[1, 0])]));
}

#[test]
fn stage_4_zero_is_not_above_zero() {
    let a = file(1, &[le(&[1, 0])]);
    let b = file(1, &[le(&[-1, 0])]);
    let proof = file(1, &[combine(0, 1, 1, 1), close(2)]);
    let expected = refused_at(15, 17, [1, NONE, NONE]);
    assert_eq!(whole_answer(&a, &b, &proof), expected);
}

#[test]
fn stage_5_strengthen() {
    let a = file(1, &[le(&[2, -1])]);
    let b = file(1, &[le(&[-2, 1])]);
    let proof = file(
        1,
        &[
            strengthen(0),
            combine(2, 1, 1, 1),
            close(3),
            stride(2, 2),
            combine(2, 1, 1, 1),
            close(3),
        ],
    );
    let expected = file(
        1,
        &[
            or(),
            at_most(&[2, 0]),
            and(),
            // 2x-1 in reduced form: x is no longer named.
            divides(2, &[0, 1]),
            at_most(&[2, -1]),
        ],
    );
    assert_eq!(formula(&a, &b, &proof), expected);
}

#[test]
fn stage_6_one_bundle_alone() {
    let one = file(1, &[le(&[0, 1])]);
    let empty = file(1, &[]);
    let proof = file(1, &[close(0)]);
    assert_eq!(formula(&one, &empty, &proof), file(1, &[at_most(&[0, 1])]));
    assert_eq!(formula(&empty, &one, &proof), file(1, &[at_most(&[0, 0])]));
}

#[test]
fn stage_6_with_more_constants_and_as_an_equality() {
    for k in 1..=16 {
        let mut numbers = vec![0; k + 1];
        numbers[k] = -1;
        let mut form = vec![0; k + 1];
        form[k] = -1;
        let one = file(k as u8, &[eq(&numbers)]);
        let empty = file(k as u8, &[]);
        let proof = file(k as u8, &[close(0)]);
        let expected = file(k as u8, &[equals(&form)]);
        assert_eq!(formula(&one, &empty, &proof), expected);
        let zero = file(k as u8, &[equals(&vec![0; k + 1])]);
        assert_eq!(formula(&empty, &one, &proof), zero);
    }
}

#[test]
fn stage_7_headers_only() {
    let headers = file(1, &[]);
    assert_eq!(headers.len(), 8);
    let whole = whole_answer(&headers, &headers, &headers);
    assert_eq!(whole, refused(20, 3, 8));
}

#[test]
fn stage_8_a_note_changes_nothing() {
    let files = stage_1();
    let files = [files.0, files.1, files.2];
    for index in 0..3 {
        let mut noted = files.clone();
        noted[index].splice(8..8, field(0x80, &[1, 2, 3]));
        assert_eq!(
            formula(&noted[0], &noted[1], &noted[2]),
            hex(STAGE_1_FORMULA)
        );
    }
}

#[test]
fn stage_8_an_unknown_tag_is_refused() {
    let files = stage_1();
    let files = [files.0, files.1, files.2];
    for index in 0..3 {
        let mut noted = files.clone();
        noted[index].splice(8..8, field(0x06, &[1, 2, 3]));
        let expected = refused(3, index as u8 + 1, 8);
        assert_eq!(whole_answer(&noted[0], &noted[1], &noted[2]), expected);
    }
}

#[test]
fn stage_8_edition_3_is_refused_and_edition_2_asks_for_its_own_layout() {
    let files = stage_1();
    let files = [files.0, files.1, files.2];
    for index in 0..3 {
        let mut other = files.clone();
        other[index][3] = 3;
        let expected = refused(5, index as u8 + 1, 0);
        assert_eq!(whole_answer(&other[0], &other[1], &other[2]), expected);
        // Edition 2 over numbers of two bytes, or line numbers of one: the
        // first constraint or row has the wrong length.
        other[index][3] = 2;
        let expected = refused(6, index as u8 + 1, 8);
        assert_eq!(whole_answer(&other[0], &other[1], &other[2]), expected);
    }
}

/// Stage 1 in edition 2.
fn stage_1_in_edition_2() -> [Vec<u8>; 3] {
    [
        two::file(3, &[two::eq(&[-2, 1, 0, 0])]),
        two::file(3, &[two::eq(&[0, -1, 2, 1])]),
        two::file(3, &[two::reduce(1, 0, 1), two::stride(2, 2)]),
    ]
}

#[test]
fn stage_1_in_every_mix_of_editions() {
    let first = stage_1();
    let first = [first.0, first.1, first.2];
    let second = stage_1_in_edition_2();
    for mix in 0..8 {
        let of = |index: usize| {
            let files = if mix >> index & 1 == 1 {
                &second
            } else {
                &first
            };
            files[index].clone()
        };
        let written = formula(&of(0), &of(1), &of(2));
        // Formulas stay in edition 1.
        assert_eq!(written, hex(STAGE_1_FORMULA));
    }
    let [a, _, proof] = second;
    let bytes = "01000102 02000103 040010 FFFFFFFE 00000001 00000000 00000000";
    assert_eq!(a, hex(bytes));
    let bytes = "01000102 02000103 110006 0001 0000 0001 150004 0002 0002";
    assert_eq!(proof, hex(bytes));
}

/// A stage that needs four bytes: A says that a register is at least one number,
/// B that it is at most another.
fn levels(least: i32, most: i32) -> [Vec<u8>; 3] {
    [
        two::file(1, &[two::le(&[-1, least])]),
        two::file(1, &[two::le(&[1, -most])]),
        two::file(1, &[two::combine(0, 1, 1, 1), two::close(2)]),
    ]
}

/// The lower two bytes of each number, in edition 1.
fn cut(bundle: &[u8]) -> Vec<u8> {
    let result = read(bundle);
    let numbers: Vec<i16> = result.numbers.iter().map(|&n| n as i16).collect();
    file(1, &[le(&numbers)])
}

#[test]
fn a_stage_of_four_byte_numbers_and_the_same_stage_cut_to_two() {
    // At least 40,000 and at most 30,000.
    let [a, b, proof] = levels(40_000, 30_000);
    let expected = file(1, &[at_most(&[-1, 40_000])]);
    assert_eq!(formula(&a, &b, &proof), expected);
    // In two bytes 40,000 is -25,536, and nothing contradicts it.
    let old_proof = file(1, &[combine(0, 1, 1, 1), close(2)]);
    let answer = whole_answer(&cut(&a), &cut(&b), &old_proof);
    assert_eq!(answer, refused_at(15, 17, [1, NONE, NONE]));
    let answer = whole_answer(&cut(&a), &b, &proof);
    assert_eq!(answer, refused_at(15, 19, [1, NONE, NONE]));
    // The same bytes under edition 1 are of the wrong length.
    let [mut a, mut b, _] = levels(40_000, 30_000);
    assert_eq!(whole_answer(&a, &b, &old_proof), ACCEPTED);
    b[3] = 1;
    assert_eq!(whole_answer(&a, &b, &old_proof), refused(6, 2, 8));
    a[3] = 1;
    assert_eq!(whole_answer(&a, &b, &old_proof), refused(6, 1, 8));
}

#[test]
fn what_only_the_cut_numbers_contradict_is_refused() {
    // At least 30,000 and at most 40,000: nothing is wrong with that.
    let [a, b, proof] = levels(30_000, 40_000);
    let answer = whole_answer(&a, &b, &proof);
    assert_eq!(answer, refused_at(15, 19, [1, NONE, NONE]));
    // Cut to two bytes it would be accepted.
    assert_eq!(whole_answer(&cut(&a), &cut(&b), &proof), ACCEPTED);
}

#[test]
fn stage_9_the_range_of_numbers() {
    let a = file(1, &[le(&[-32_768, 0])]);
    let b = file(1, &[]);
    let claimed = claim(&[-2_147_450_880, 0], &[-2_147_450_880, 0]);
    let stands = file(1, &[scale(0, 65_535), claimed.clone()]);
    assert_eq!(whole_answer(&a, &b, &stands), refused(20, 3, stands.len()));
    let again = file(1, &[scale(0, 65_535), claimed.clone(), scale(1, 2)]);
    let expected = refused_at(13, stands.len(), [1, NONE, NONE]);
    assert_eq!(whole_answer(&a, &b, &again), expected);
    // The same in edition 2, where the rows have a byte more.
    let a = two::file(1, &[two::le(&[-32_768, 0])]);
    let stands = two::file(1, &[two::scale(0, 65_535), claimed]);
    assert_eq!(whole_answer(&a, &b, &stands), refused(20, 3, stands.len()));
    let again = [stands.clone(), two::scale(1, 2)].concat();
    let expected = refused_at(13, stands.len(), [1, NONE, NONE]);
    assert_eq!(whole_answer(&a, &b, &again), expected);
}

#[test]
fn stage_10_sizes() {
    let constraint = le(&[0; 17]);
    let sixteen = file(16, &[constraint.clone()]);
    let result = read(&sixteen);
    assert_eq!((result.answer, result.count, result.k), (ACCEPTED, 1, 16));
    let seventeen = file(17, &[le(&[0; 18])]);
    assert_eq!(read(&seventeen).answer, refused(7, 1, 4));

    let full = file(16, &vec![constraint.clone(); 32]);
    let result = read(&full);
    assert_eq!((result.answer, result.count, result.k), (ACCEPTED, 32, 16));
    let over = file(16, &vec![constraint; 33]);
    assert_eq!(read(&over).answer, refused(8, 1, full.len()));

    let full = two::file(16, &vec![two::le(&[0; 17]); 32]);
    let result = read(&full);
    assert_eq!((result.answer, result.count, result.k), (ACCEPTED, 32, 16));
    let over = [full.clone(), two::le(&[0; 17])].concat();
    assert_eq!(read(&over).answer, refused(8, 1, full.len()));
    let seventeen = two::file(17, &[two::le(&[0; 18])]);
    assert_eq!(read(&seventeen).answer, refused(7, 1, 4));
}

/// The folders under examples/ whose fault is a row's: its number, and the innermost open step with the number of its branch.
const ROWS: [(&str, [u16; 3]); 7] = [
    ("stage-2", [1, NONE, NONE]),
    ("stage-4", [1, NONE, NONE]),
    ("stage-9-again", [1, NONE, NONE]),
    ("stage-four-bytes-cut", [1, NONE, NONE]),
    ("stage-lines-over", [998, NONE, NONE]),
    ("stage-lines-turned", [126, NONE, NONE]),
    ("stage-two-deep", [6, 3, 1]),
];

/// The folders under examples/ with a proof: what the check program is to print of each.
#[test]
fn the_examples_expect_these_answers() {
    let folder = concat!(env!("CARGO_MANIFEST_DIR"), "/../../examples");
    let mut stages = 0;
    for entry in std::fs::read_dir(folder).unwrap() {
        let stage = entry.unwrap().path();
        if !stage.join("p").is_file() {
            continue;
        }
        let read = |name: &str| std::fs::read(stage.join(name)).unwrap();
        let (answer, bytes) = check_whole(&read("a"), &read("b"), &read("p"), 65_536);
        let row = ROWS.iter().find(|(name, _)| stage.ends_with(name));
        let row = row.map_or([NONE; 3], |&(_, row)| row);
        assert_eq!([answer.row, answer.step, answer.branch], row);
        let printed = if answer == ACCEPTED {
            let digits: String = bytes.iter().map(|byte| format!("{byte:02X}")).collect();
            format!("accepted {}\n{digits}\n", bytes.len())
        } else {
            let Answer {
                number,
                file,
                place,
                ..
            } = answer;
            format!("refused {number} file {file} at {place}\n")
        };
        let expected = String::from_utf8(read("expected")).unwrap();
        assert_eq!(printed, expected, "{}", stage.display());
        stages += 1;
    }
    assert_eq!(stages, 40);
}

/// The folders under examples/ with register values: what the guard program is to print of each.
#[test]
fn the_guards_expect_these_answers() {
    let folder = concat!(env!("CARGO_MANIFEST_DIR"), "/../../examples");
    let mut guards = 0;
    for entry in std::fs::read_dir(folder).unwrap() {
        let guard = entry.unwrap().path();
        if !guard.join("v").is_file() {
            continue;
        }
        let read = |name: &str| std::fs::read(guard.join(name)).unwrap();
        let values = read("v");
        // The program's own refusal, for values that are not whole.
        let printed = if values.len() % 4 != 0 {
            "refused 7 file 4 at 0\n".to_string()
        } else {
            let four = |bytes: &[u8]| i32::from_be_bytes(bytes.try_into().unwrap());
            let values: Vec<i32> = values.chunks(4).map(four).collect();
            match test(&read("f"), &values) {
                Ok(holds) => format!("{holds}\n"),
                Err(answer) => format!(
                    "refused {} file {} at {}\n",
                    answer.number, answer.file, answer.place
                ),
            }
        };
        let expected = String::from_utf8(read("expected")).unwrap();
        assert_eq!(printed, expected, "{}", guard.display());
        guards += 1;
    }
    assert_eq!(guards, 5);
}

/// A refusal as a program prints it.
fn told(answer: Answer) -> String {
    let Answer {
        number,
        file,
        place,
        ..
    } = answer;
    format!("refused {number} file {file} at {place}\n")
}

/// The folders under examples/ whose names start so.
fn folders(start: &str) -> Vec<std::path::PathBuf> {
    let folder = concat!(env!("CARGO_MANIFEST_DIR"), "/../../examples");
    let paths = std::fs::read_dir(folder).unwrap();
    let paths = paths.map(|entry| entry.unwrap().path());
    let starts = |path: &std::path::PathBuf| {
        let name = path.file_name().unwrap().to_str().unwrap();
        name.starts_with(start)
    };
    paths.filter(starts).collect()
}

/// The folders under examples/ whose formula is printed: what the example program is to print of each.
#[test]
fn the_printed_guards_expect_these_answers() {
    let folders = folders("print-");
    for folder in &folders {
        let read = |name: &str| std::fs::read(folder.join(name)).unwrap();
        let formula = read("f");
        let mut printed = String::new();
        for print in [reference::print, reference::print_words] {
            let mut out = vec![0; 6 * formula.len()];
            let result = print(&formula, &mut out);
            if result.answer != ACCEPTED {
                printed = told(result.answer);
                break;
            }
            out.truncate(result.written);
            printed += &format!("{}\n", String::from_utf8(out).unwrap());
        }
        let expected = String::from_utf8(read("expected")).unwrap();
        assert_eq!(printed, expected, "{}", folder.display());
    }
    assert_eq!(folders.len(), 3);
}

/// The folders under examples/ whose short proofs are listed: what the example program is to print of each.
#[test]
fn the_lists_of_short_proofs_expect_these_tables() {
    let folders = folders("short-");
    for folder in &folders {
        let read = |name: &str| std::fs::read(folder.join(name)).unwrap();
        let proofs = reference::ShortProofs::of(&read("a"), &read("b")).unwrap();
        let mut printed = String::new();
        for table in proofs.tables() {
            let digits: String = table.iter().map(|byte| format!("{byte:02X}")).collect();
            printed += &format!("{digits}\n");
        }
        printed += &format!("{} short proofs\n", proofs.tables().len());
        let expected = String::from_utf8(read("expected")).unwrap();
        assert_eq!(printed, expected, "{}", folder.display());
    }
    assert_eq!(folders.len(), 2);
}
