//! Printing a formula, as a term of SMT-LIB and in words.

mod common;
use common::*;
use reference::{print, print_words, Answer, WriteResult};

type Print = fn(&[u8], &mut [u8]) -> WriteResult;

/// Prints into an output of the given length, which must be unchanged on
/// refusal and behind the text.
fn print_into(print: Print, formula: &[u8], length: usize) -> (Answer, String) {
    let mut out = vec![0xA5; length];
    let result = print(formula, &mut out);
    assert!(out[result.written..].iter().all(|&byte| byte == 0xA5));
    assert_eq!(result.answer == ACCEPTED, result.written > 0);
    out.truncate(result.written);
    (result.answer, String::from_utf8(out).unwrap())
}

/// Prints a formula that must be accepted, also with just enough room, and with
/// none or a byte less. Six bytes for each of the file's are enough.
fn printed(print: Print, formula: &[u8]) -> String {
    let (answer, text) = print_into(print, formula, 6 * formula.len());
    assert_eq!(answer, ACCEPTED);
    let needed = text.len();
    assert_eq!(print_into(print, formula, needed), (ACCEPTED, text.clone()));
    for length in [0, needed - 1] {
        let short = print_into(print, formula, length);
        assert_eq!(short, (refused(21, 4, needed), String::new()));
    }
    text
}

/// Both texts of a formula over K constants.
fn texts(k: u8, parts: &[Vec<u8>]) -> [String; 2] {
    let formula = file(k, parts);
    [print, print_words].map(|print: Print| printed(print, &formula))
}

#[test]
fn comparisons_and_strides() {
    for (part, smt, words) in [
        (
            at_most(&[2, -3, -1]),
            "(<= (+ (* 2 r0) (* (- 3) r1) (- 1)) 0)",
            "2*r0 - 3*r1 - 1 <= 0",
        ),
        (equals(&[0, 2, 0]), "(= (+ (* 2 r1) 0) 0)", "2*r1 = 0"),
        (
            divides(5, &[0, 4, 3]),
            "(= (mod (+ (* 4 r1) 3) 5) 0)",
            "5 divides 4*r1 + 3",
        ),
        // 1 and -1 stand there as every other number does, and a sum may start with a minus.
        (
            at_most(&[1, -1, 1]),
            "(<= (+ (* 1 r0) (* (- 1) r1) 1) 0)",
            "1*r0 - 1*r1 + 1 <= 0",
        ),
        (
            equals(&[-3, 1, 0]),
            "(= (+ (* (- 3) r0) (* 1 r1) 0) 0)",
            "-3*r0 + 1*r1 = 0",
        ),
        (at_most(&[0, 0, 0]), "(<= 0 0)", "0 <= 0"),
        (equals(&[0, 0, -7]), "(= (- 7) 0)", "-7 = 0"),
        (divides(2, &[0, 0, 1]), "(= (mod 1 2) 0)", "2 divides 1"),
    ] {
        assert_eq!(texts(2, &[part]), [smt, words]);
    }
}

/// The lowest and the highest numbers, and constants of two digits.
#[test]
fn far_numbers() {
    let mut numbers = [0; 17];
    numbers[9] = i32::MIN;
    numbers[10] = i32::MAX;
    numbers[15] = 1_000_000_000;
    numbers[16] = i32::MIN;
    let part = divides(i32::MAX, &numbers);
    let smt = "(= (mod (+ (* (- 2147483648) r9) (* 2147483647 r10) (* 1000000000 r15) (- 2147483648)) 2147483647) 0)";
    assert_eq!(texts(16, &[part])[0], smt);
    numbers[9] = 10;
    let part = at_most(&numbers);
    let words = "10*r9 + 2147483647*r10 + 1000000000*r15 - 2147483648 <= 0";
    assert_eq!(texts(16, &[part])[1], words);
}

#[test]
fn and_and_or() {
    // The formula of stage 5.
    let stage = [
        or(),
        at_most(&[2, 0]),
        and(),
        divides(2, &[0, 1]),
        at_most(&[2, -1]),
    ];
    assert_eq!(
        texts(1, &stage),
        [
            "(or (<= (+ (* 2 r0) 0) 0) (and (= (mod 1 2) 0) (<= (+ (* 2 r0) (- 1)) 0)))",
            "2*r0 <= 0 or (2 divides 1 and 2*r0 - 1 <= 0)",
        ]
    );
    // One in each part, and of the same sort: parentheses all the same.
    let p = |d| equals(&[0, d]);
    let both = [or(), or(), p(1), p(2), and(), p(3), and(), p(4), p(5)];
    assert_eq!(
        texts(1, &both),
        [
            "(or (or (= 1 0) (= 2 0)) (and (= 3 0) (and (= 4 0) (= 5 0))))",
            "(1 = 0 or 2 = 0) or (3 = 0 and (4 = 0 and 5 = 0))",
        ]
    );
}

/// 600 levels in the first part and in the second; notes leave no trace.
#[test]
fn the_deepest_formula() {
    let part = || equals(&[0, 0]);
    let first = [vec![and(); 600], vec![part(); 601]].concat();
    let second = [vec![[and(), note(), part()].concat(); 600], vec![part()]].concat();
    let [smt, words] = texts(1, &first);
    assert_eq!(
        smt,
        "(and ".repeat(600) + "(= 0 0)" + &" (= 0 0))".repeat(600)
    );
    assert_eq!(
        words,
        "(".repeat(599) + "0 = 0 and 0 = 0" + &") and 0 = 0".repeat(599)
    );
    let [smt, words] = texts(1, &second);
    assert_eq!(
        smt,
        "(and (= 0 0) ".repeat(600) + "(= 0 0)" + &")".repeat(600)
    );
    let inside = "0 = 0 and ".to_string() + &"(0 = 0 and ".repeat(599);
    assert_eq!(words, inside + "0 = 0" + &")".repeat(599));
}

/// Of every K, and for the longest numbers, six bytes for each of the file's are
/// enough.
#[test]
fn six_bytes_for_one() {
    for k in 1..=16 {
        let numbers = vec![i32::MIN; usize::from(k) + 1];
        for part in [
            at_most(&numbers),
            equals(&numbers),
            divides(i32::MAX, &numbers),
        ] {
            let mut parts = vec![[and(), part.clone()].concat(); 500];
            parts.push(part);
            texts(k, &parts);
        }
    }
}

/// What is refused, as in a test, but for any K; the output last.
#[test]
fn refusals_in_their_order() {
    let leaf = at_most(&[1, 0]);
    let whole = file(1, &[leaf.clone()]);
    let answers = |formula: &[u8], expected: Answer| {
        for print in [print, print_words] {
            for length in [0, 100, 70_000] {
                let print: Print = print;
                assert_eq!(print_into(print, formula, length).0, expected);
            }
        }
    };
    answers(&fill(&whole, 65_537), refused(1, 3, 0));
    answers(&[9; 70_000], refused(1, 3, 0));
    answers(&[], refused(2, 3, 0));
    answers(&whole[..8], refused(2, 3, 8));
    answers(&whole[..12], refused(2, 3, 8));
    answers(&file(1, &[or(), leaf.clone()]), refused(2, 3, 22));
    answers(&file(1, &[field(0x03, &[])]), refused(3, 3, 8));
    answers(&file(1, &[leaf.clone(), leaf.clone()]), refused(19, 3, 19));
    answers(&file(1, &[edition(1)]), refused(4, 3, 8));
    answers(&leaf, refused(4, 3, 0));
    answers(&file(2, &[leaf.clone()]), refused(6, 3, 8));
    answers(&file_of(2, 1, &[leaf.clone()]), refused(5, 3, 0));
    answers(&file(0, &[leaf.clone()]), refused(7, 3, 4));
    answers(&file(17, &[leaf]), refused(7, 3, 4));
    for g in [i32::MIN, -2, 0, 1] {
        answers(&file(1, &[divides(g, &[0, 0])]), refused(12, 3, 8));
    }
    let deep = vec![or(); 601];
    answers(&file(1, &deep), refused(17, 3, 8 + 600 * 3));
    // The longest file that is printed.
    let [smt, words] = [print, print_words].map(|print| {
        let print: Print = print;
        print_into(print, &fill(&whole, 65_536), 70_000)
    });
    assert_eq!(smt, (ACCEPTED, "(<= (+ (* 1 r0) 0) 0)".to_string()));
    assert_eq!(words.0, ACCEPTED);
}
