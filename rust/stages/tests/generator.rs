//! The generator does what it says: sound tables are accepted, aimed cases
//! meet their number, the printed list covers every refusal.

use reference::NOT_GIVEN;
use stages::case::parse_bytes;
use stages::rng::Rng;
use stages::table::{closed_table, Size, Table};
use stages::{
    directed, edge, heavy_list, limit, list, stream, Case, Class, Operation, Output, CLASSES,
    HEAVY, OPERATIONS,
};
use std::collections::BTreeSet;

fn accepted(table: &Table) -> Vec<u8> {
    let mut out = vec![0; 65_536];
    let result = reference::check(&table.a, &table.b, &table.proof, &mut out);
    assert_eq!(result.answer.number, 0, "{:?}", result.answer);
    out.truncate(result.written);
    out
}

#[test]
fn closed_tables_are_accepted() {
    for (size, count) in [
        (Size::SMALL, 20_000),
        (Size::MEDIUM, 5_000),
        (Size::LARGE, 1_000),
    ] {
        let mut rng = Rng::new(11);
        for _ in 0..count {
            accepted(&closed_table(&mut rng, &size));
        }
    }
}

#[test]
fn closed_tables_are_of_many_shapes() {
    let mut rng = Rng::new(12);
    let mut rows = [0_usize; 256];
    let (mut notes, mut deep, mut lone, mut constants) = (0, 0, 0, BTreeSet::new());
    for _ in 0..2_000 {
        let table = closed_table(&mut rng, &Size::MEDIUM);
        constants.insert(table.k);
        let mut open = 0_usize;
        for part in stages::damage::fields(&table.proof) {
            let tag = table.proof[part.start];
            rows[usize::from(tag)] += 1;
            open += usize::from(matches!(tag, 0x13 | 0x16 | 0x17));
            notes += usize::from(tag >= 0x80);
        }
        deep += usize::from(open >= 3);
        lone += usize::from(table.a.len() == 8 || table.b.len() == 8);
    }
    for tag in [0x10, 0x11, 0x12, 0x13, 0x14, 0x15, 0x16, 0x17, 0x20] {
        assert!(rows[tag] > 500, "tag {tag:02X}: {}", rows[tag]);
    }
    assert!(notes > 500 && deep > 200 && lone > 50);
    assert_eq!(constants, (1..=16).collect());
}

#[test]
fn aimed_cases_meet_their_number() {
    for seed in 0..20 {
        let mut rng = Rng::new(seed);
        for operation in OPERATIONS {
            let mut aimed = directed::directed(&mut rng, operation);
            aimed.extend(limit::light(&mut rng, operation));
            if seed == 0 {
                aimed.extend(limit::heavy(&mut rng, operation));
            }
            for (number, case) in aimed {
                let answer = case.outcome().answer;
                assert_eq!(answer.number, number, "{answer:?} {}", case.print());
            }
        }
    }
}

#[test]
fn edge_cases_meet_their_number_on_both_sides() {
    for operation in OPERATIONS {
        let mut rng = Rng::new(31);
        let mut met = BTreeSet::new();
        for _ in 0..2_000 {
            let (number, case) = edge::edge(&mut rng, operation);
            let answer = case.outcome().answer;
            assert_eq!(answer.number, number, "{answer:?} {}", case.print());
            met.insert(number);
        }
        let all: &[u8] = match operation {
            Operation::Check => &[0, 1, 8, 12, 13, 15, 16, 17, 18, 20],
            Operation::Read => &[0, 1, 8, 13],
            Operation::Write => &[0, 8, 13, 21],
            Operation::Show => &[0, 10],
            Operation::Test | Operation::List => &[0, 1, 17, 23],
            Operation::TurnBundle => &[0, 1, 8, 13],
            Operation::TurnProof => &[0, 1, 10],
            Operation::Print | Operation::PrintWords => &[0, 1, 17],
            Operation::NextProof => &[0, 8, 33],
        };
        assert_eq!(met, all.iter().copied().collect(), "{operation:?}");
    }
}

/// The refusals that each operation can give, with their file; 0 is accepted.
fn all_answers(operation: Operation) -> Vec<(u8, u8)> {
    let bundle = [1, 2, 3, 4, 5, 6, 7, 8, 13];
    let of = |file: u8, numbers: &[u8]| -> Vec<(u8, u8)> {
        numbers.iter().map(|&number| (number, file)).collect()
    };
    let accepted = vec![(0, 0)];
    let parts = match operation {
        Operation::Read => vec![accepted, of(1, &bundle), of(4, &[21])],
        Operation::Write => vec![accepted, of(4, &[5, 7, 8, 24, 13, 21])],
        Operation::Show => vec![
            accepted,
            of(1, &bundle),
            of(2, &bundle),
            of(2, &[9]),
            of(1, &[10]),
        ],
        Operation::Test => vec![
            accepted,
            of(4, &[7, 23]),
            of(3, &[1, 2, 3, 4, 5, 6, 7, 9, 12, 17, 19]),
        ],
        Operation::List => vec![
            accepted,
            of(4, &[7, 23, 21]),
            of(3, &[1, 2, 3, 4, 5, 6, 7, 9, 12, 17, 19]),
        ],
        Operation::Check => vec![
            accepted,
            of(1, &bundle),
            of(2, &bundle),
            of(2, &[9]),
            of(
                3,
                &[
                    1, 2, 3, 4, 5, 6, 7, 9, 10, 11, 12, 13, 14, 15, 16, 17, 18, 19, 20,
                ],
            ),
            // 1 for a formula that is too long.
            of(4, &[1, 21]),
        ],
        Operation::TurnBundle => vec![accepted, of(1, &bundle), of(4, &[5, 21])],
        // 1 for a result that is too long, which a bundle's never is.
        Operation::TurnProof => vec![
            accepted,
            of(3, &[1, 2, 3, 4, 5, 6, 7, 10]),
            of(4, &[1, 5, 21]),
        ],
        Operation::Print | Operation::PrintWords => vec![
            accepted,
            of(3, &[1, 2, 3, 4, 5, 6, 7, 12, 17, 19]),
            of(4, &[21]),
        ],
        Operation::NextProof => vec![
            accepted,
            of(1, &bundle),
            of(2, &bundle),
            of(2, &[9]),
            of(4, &[8, 32, 33, 21]),
        ],
    };
    parts.concat()
}

#[test]
fn the_list_covers_every_refusal() {
    for seed in 0..10 {
        let cases = list(seed, 300, false);
        assert_eq!(cases.len(), 300);
        for operation in OPERATIONS {
            let met: BTreeSet<(u8, u8)> = cases
                .iter()
                .filter(|(_, case)| case.operation() == operation)
                .map(|(_, case)| case.outcome().answer)
                .map(|answer| (answer.number, answer.file))
                .collect();
            let mut all: BTreeSet<(u8, u8)> = all_answers(operation).into_iter().collect();
            // A formula that is too long has many parts to be evaluated, and so
            // has a turned proof.
            if matches!(operation, Operation::Check | Operation::TurnProof) {
                assert!(all.remove(&(1, 4)));
            }
            assert_eq!(met, all, "{operation:?} with seed {seed}");
        }
        let heavy = heavy_list(seed, 60);
        let too_long = |(_, case): &(Class, Case)| {
            let answer = case.outcome().answer;
            (answer.number, answer.file) == (1, 4)
        };
        assert!(heavy.iter().any(too_long));
    }
}

#[test]
fn no_stream_meets_an_answer_that_cannot_be() {
    for operation in OPERATIONS {
        let all: BTreeSet<(u8, u8)> = all_answers(operation).into_iter().collect();
        for class in CLASSES {
            let count = if class == Class::Limit { 300 } else { 3_000 };
            for case in stream(operation, class, Size::SMALL, 5).take(count) {
                assert_eq!(case.operation(), operation);
                let answer = case.outcome().answer;
                assert!(all.contains(&(answer.number, answer.file)), "{answer:?}");
            }
        }
    }
}

/// 22 is kept free: no case is made for it, and none meets it.
#[test]
fn the_number_that_is_no_longer_given_never_comes() {
    for operation in OPERATIONS {
        let all = all_answers(operation);
        assert!(all.iter().all(|&(number, _)| number != NOT_GIVEN));
        let mut rng = Rng::new(41);
        let mut aimed = directed::directed(&mut rng, operation);
        aimed.extend(limit::light(&mut rng, operation));
        aimed.extend(limit::heavy(&mut rng, operation));
        assert!(aimed.iter().all(|&(number, _)| number != NOT_GIVEN));
        for class in CLASSES {
            // Limits and edges have long files.
            let share = match class {
                Class::Limit | Class::Edge => 1,
                _ => 8,
            };
            let sizes = [Size::SMALL, Size::MEDIUM, Size::LARGE];
            for (size, count) in sizes.into_iter().zip([400, 100, 25]) {
                for case in stream(operation, class, size, 42).take(share * count) {
                    assert_ne!(case.outcome().answer.number, NOT_GIVEN);
                }
            }
        }
    }
    let cases = list(43, 1_000, false).into_iter().chain(heavy_list(43, 60));
    for (_, case) in cases {
        assert_ne!(case.outcome().answer.number, NOT_GIVEN);
    }
}

#[test]
fn the_lists_keep_to_their_sizes() {
    for (_, case) in list(3, 600, true) {
        assert!(case.largest_file() <= HEAVY);
    }
    for (_, case) in list(3, 600, false) {
        let number = case.outcome().answer.number;
        assert!(case.largest_file() <= HEAVY || number == 1 || number == 18);
    }
    let heavy = heavy_list(3, 60);
    assert_eq!(heavy.len(), 60);
    assert!(heavy.iter().any(|(_, case)| case.longest_file() > 65_000));
}

#[test]
fn the_same_seed_gives_the_same_list_and_another_seed_another() {
    assert_eq!(list(7, 400, false), list(7, 400, false));
    assert_ne!(list(7, 400, false), list(8, 400, false));
}

/// Reads a printed line back.
fn parse(line: &str) -> (Case, Vec<String>) {
    let words: Vec<&str> = line.split(' ').collect();
    let bytes = |index: usize| parse_bytes(words[index]).unwrap();
    let number = |index: usize| words[index].parse::<usize>().unwrap();
    fn numbers<T: std::str::FromStr>(word: &str) -> Vec<T> {
        if word == "-" {
            return Vec::new();
        }
        let parse = |part: &str| part.parse().ok().unwrap();
        word.split(',').map(parse).collect()
    }
    let (case, used) = match words[0] {
        "check" => (
            Case::Check {
                a: bytes(1),
                b: bytes(2),
                proof: bytes(3),
                out: number(4),
            },
            5,
        ),
        "read" => (
            Case::Read {
                file: bytes(1),
                kinds: number(2),
                numbers: number(3),
            },
            4,
        ),
        "write" => (
            Case::Write {
                edition: number(1),
                k: number(2),
                kinds: numbers(words[3]),
                numbers: numbers(words[4]),
                out: number(5),
            },
            6,
        ),
        "show" => (
            Case::Show {
                a: bytes(1),
                b: bytes(2),
                line: number(3),
            },
            4,
        ),
        "test" => (
            Case::Test {
                formula: bytes(1),
                values: numbers(words[2]),
            },
            3,
        ),
        "turn-bundle" => (
            Case::TurnBundle {
                file: bytes(1),
                edition: number(2),
                out: number(3),
            },
            4,
        ),
        "turn-proof" => (
            Case::TurnProof {
                file: bytes(1),
                edition: number(2),
                out: number(3),
            },
            4,
        ),
        "list" => (
            Case::List {
                formula: bytes(1),
                k: number(2),
                values: numbers(words[3]),
                out: number(4),
            },
            5,
        ),
        "print" => (
            Case::Print {
                formula: bytes(1),
                out: number(2),
            },
            3,
        ),
        "print-words" => (
            Case::PrintWords {
                formula: bytes(1),
                out: number(2),
            },
            3,
        ),
        "next-proof" => (
            Case::NextProof {
                a: bytes(1),
                b: bytes(2),
                table: bytes(3),
                out: number(4),
            },
            5,
        ),
        other => panic!("{other}"),
    };
    let rest = words[used..].iter().map(|word| word.to_string()).collect();
    (case, rest)
}

#[test]
fn printed_lines_say_what_the_case_is_and_its_answer() {
    let listed = list(9, 600, false).into_iter().chain(heavy_list(9, 60));
    let mut cases: Vec<Case> = listed.map(|(_, case)| case).collect();
    for operation in OPERATIONS {
        for class in [Class::Sound, Class::Damaged] {
            cases.extend(stream(operation, class, Size::SMALL, 9).take(100));
        }
    }
    for case in cases {
        let (read, words) = parse(&case.print());
        assert_eq!(read, case);
        let outcome = case.outcome();
        let answer = outcome.answer;
        let head = [
            answer.number.to_string(),
            answer.file.to_string(),
            answer.place.to_string(),
            answer.row.to_string(),
            answer.step.to_string(),
            answer.branch.to_string(),
        ];
        assert_eq!(words[..6], head);
        let words = &words[6..];
        match outcome.result {
            Output::Bytes(bytes) => {
                assert_eq!(words.len(), 1);
                assert_eq!(parse_bytes(&words[0]), Some(bytes));
            }
            Output::Bundle {
                k, edition, kinds, ..
            } => {
                assert_eq!(words.len(), 5);
                assert_eq!(words[0], kinds.len().to_string());
                assert_eq!(words[1], k.to_string());
                assert_eq!(words[2], edition.to_string());
            }
            Output::Part(file, start, end) => {
                assert_eq!(words.len(), 1);
                assert_eq!(words[0], format!("{file}:{start}:{end}"));
            }
            Output::Verdict(holds) => assert_eq!(*words, [holds.to_string()]),
            Output::Nothing if case.operation() == Operation::Read => {
                assert_eq!(*words, ["0", "0", "0", "-", "-"]);
            }
            Output::Nothing => assert_eq!(*words, ["-"]),
        }
    }
}
