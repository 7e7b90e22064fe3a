//! Files to turn: what the generator says of them.

use stages::damage::{edition_of, fields};
use stages::rng::Rng;
use stages::table::Size;
use stages::tree::widest;
use stages::turning::{large, many_lines};
use stages::{stream, Case, Class, Operation, Output};

const TURNS: [Operation; 2] = [Operation::TurnBundle, Operation::TurnProof];

fn parts(case: &Case) -> (&[u8], usize, usize) {
    match case {
        Case::TurnBundle { file, edition, out } | Case::TurnProof { file, edition, out } => {
            (file, *edition, *out)
        }
        _ => panic!("a turn"),
    }
}

/// A right file is turned, up and down, if the output has room; notes and claims stand in many.
#[test]
fn right_files_are_turned() {
    for operation in TURNS {
        let (mut up, mut down, mut short) = (0, 0, 0);
        let (mut notes, mut claims, mut behind) = (0, 0, 0);
        for size in [Size::SMALL, Size::MEDIUM, Size::LARGE] {
            for case in stream(operation, Class::Sound, size, 91).take(2_000) {
                let (file, to, out) = parts(&case);
                assert_eq!(to, usize::from(edition_of(file).other().number()));
                let outcome = case.outcome();
                match outcome.result {
                    Output::Bytes(bytes) => {
                        assert_eq!(usize::from(edition_of(&bytes).number()), to);
                        assert!(bytes.len() <= out);
                    }
                    _ => {
                        assert_eq!((outcome.answer.number, outcome.answer.file), (21, 4));
                        assert!(out < outcome.answer.place);
                        short += 1;
                    }
                }
                (up, down) = if to == 2 {
                    (up + 1, down)
                } else {
                    (up, down + 1)
                };
                let tags: Vec<u8> = fields(file).iter().map(|part| file[part.start]).collect();
                notes += usize::from(tags.iter().any(|&tag| tag >= 0x80));
                claims += usize::from(tags.contains(&0x20));
                let end = tags.iter().position(|&tag| matches!(tag, 0x14 | 0x15));
                let open = |&tag: &u8| matches!(tag, 0x13 | 0x16 | 0x17);
                let closed = end.is_some_and(|end| {
                    !tags[..end].iter().any(open) && tags[end + 1..].iter().any(|&tag| tag < 0x80)
                });
                behind += usize::from(closed);
            }
        }
        assert!(up > 2_000 && down > 2_000 && short > 500 && notes > 2_000);
        let proofs = operation == Operation::TurnProof;
        assert_eq!(proofs, claims > 1_000, "{claims}");
        assert_eq!(proofs, behind > 500, "{behind}");
    }
}

/// Numbers and line numbers that are too large to be turned down come often, and so do others.
#[test]
fn large_numbers_are_refused_or_not() {
    for (operation, number) in TURNS.into_iter().zip([13, 10]) {
        let mut rng = Rng::new(92);
        let mut met = [0; 25];
        for _ in 0..3_000 {
            let case = large(&mut rng, operation, &Size::SMALL);
            met[usize::from(case.outcome().answer.number)] += 1;
        }
        assert!(met[0] > 300 && met[number] > 300, "{met:?}");
        assert_eq!(met[0] + met[21] + met[number], 3_000, "{met:?}");
    }
}

/// Checks that are accepted, over proofs that can be turned down; then some have too many lines on a branch, and only they.
#[test]
fn many_lines_can_be_turned_down() {
    let mut rng = Rng::new(93);
    let (mut most, mut over) = (0, 0);
    for _ in 0..400 {
        let Case::Check { a, b, proof, .. } = many_lines(&mut rng) else {
            panic!("a check");
        };
        let mut out = vec![0; 65_536];
        assert_eq!(reference::check(&a, &b, &proof, &mut out).answer.number, 0);
        let mut turned = vec![0; 65_536];
        let result = reference::turn_proof(&proof, 1, &mut turned);
        assert_eq!(result.answer.number, 0);
        let answer = reference::check(&a, &b, &turned[..result.written], &mut out).answer;
        let lines = widest(&proof, 3);
        assert_eq!(answer.number, if lines > 128 { 16 } else { 0 }, "{lines}");
        most += usize::from(lines == 128);
        over += usize::from(lines == 129);
    }
    assert!(most > 10 && over > 10, "{most}, {over}");
}
