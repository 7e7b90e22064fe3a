//! Random stages taken apart and written again: bundles as they were read, proofs row by row, formulas as trees.

use dulgaverk::{check, read_bundle, Edition, Form, Formula, Part, ProofWriter, Refusal};
use stages::build::{and, comparison, divides, field, file, or};
use stages::damage::fields;
use stages::table::Size;
use stages::{stream, Case, Class, Operation};

const SEED: u64 = 37;

/// Checks of all sizes that are in order, and some that are not.
fn stages() -> impl Iterator<Item = [Vec<u8>; 3]> {
    let sound = |size, count| stream(Operation::Check, Class::Sound, size, SEED).take(count);
    sound(Size::SMALL, 1_500)
        .chain(sound(Size::MEDIUM, 400))
        .chain(sound(Size::LARGE, 60))
        .chain(stream(Operation::Check, Class::Edge, Size::SMALL, SEED).take(300))
        .map(|case| match case {
            Case::Check { a, b, proof, .. } => [a, b, proof],
            _ => unreachable!("a check"),
        })
}

/// A file's fields without its notes.
fn known(file: &[u8]) -> Vec<&[u8]> {
    let all = fields(file).into_iter().map(|range| &file[range]);
    all.filter(|field| field[0] < 0x80).collect()
}

fn numbers(contents: &[u8]) -> Vec<i32> {
    let number = |bytes: &[u8]| i32::from_be_bytes(bytes.try_into().expect("four bytes"));
    contents.chunks(4).map(number).collect()
}

/// One field of a proof, written by the method of its tag.
fn write_row(proof: &mut ProofWriter, width: usize, field: &[u8]) -> Result<(), Refusal> {
    let contents = &field[3..];
    let number = |bytes: &[u8]| bytes.iter().fold(0, |n, &byte| n << 8 | usize::from(byte));
    let line = |index: usize| number(&contents[index * width..(index + 1) * width]);
    // The last two bytes but 2 * back.
    let short = |back: usize| {
        let end = contents.len() - 2 * back;
        u16::from_be_bytes([contents[end - 2], contents[end - 1]])
    };
    match field[0] {
        0x10 => proof.combine(line(0), line(1), short(1), short(0)),
        0x11 => proof.reduce(line(0), line(1), short(0).cast_signed()),
        0x12 => proof.scale(line(0), short(0)),
        0x13 => proof.strengthen(line(0)),
        0x14 => proof.close(line(0)),
        0x15 => proof.close_stride(line(0), short(0)),
        0x16 => proof.round(line(0), short(1), short(0)),
        0x17 => proof.split(line(0)),
        0x20 => {
            let (t, partial) = contents.split_at(contents.len() / 2);
            proof.claim(&numbers(t), &numbers(partial))
        }
        tag => panic!("{tag:#04X}"),
    }
    .map(|_| ())
}

fn form_numbers(form: &Form) -> Vec<i32> {
    [&form.coefficients[..], &[form.d]].concat()
}

fn part_fields(part: &Part) -> Vec<Vec<u8>> {
    let two = |first, left: &Part, right: &Part| {
        [vec![first], part_fields(left), part_fields(right)].concat()
    };
    match part {
        Part::Or(left, right) => two(or(), left, right),
        Part::And(left, right) => two(and(), left, right),
        Part::AtMost(form) => vec![comparison(false, &form_numbers(form))],
        Part::Equal(form) => vec![comparison(true, &form_numbers(form))],
        Part::Divides(g, form) => vec![divides(*g, &form_numbers(form))],
    }
}

/// The file of a tree.
fn formula_file(formula: &Formula) -> Vec<u8> {
    let k = u8::try_from(formula.constants()).expect("at most 16");
    file(k, &part_fields(formula.root()))
}

#[test]
fn accepted_stages() {
    let (mut accepted, mut tags) = (0, [0; 256]);
    for [a, b, proof] in stages() {
        let Ok(guard) = check(&a, &b, &proof) else {
            continue;
        };
        for bundle in [&a, &b] {
            let written = read_bundle(bundle).expect("read").write();
            assert_eq!(written, Ok(known(bundle).concat()));
        }
        let rows = known(&proof);
        let edition = Edition::numbered(rows[0][3]).expect("an edition");
        let k = usize::from(rows[1][3]);
        let mut written = ProofWriter::new(edition, k).expect("1 to 16");
        for field in &rows[2..] {
            tags[usize::from(field[0])] += 1;
            write_row(&mut written, edition.number().into(), field).expect("a row");
        }
        assert_eq!(written.bytes(), rows.concat());
        let formula = Formula::read(&guard).expect("a formula");
        assert_eq!(formula_file(&formula), guard);
        assert_eq!(Ok(formula.to_string()), dulgaverk::print_words(&guard));
        accepted += 1;
    }
    assert!(accepted >= 1_900, "{accepted}");
    for tag in (0x10..=0x17).chain([0x20]) {
        assert!(tags[tag] >= 50, "{tag:#04X}: {}", tags[tag]);
    }
}

/// Formulas of all classes: a tree just where the library prints, which then writes the file again, and else its refusal.
#[test]
fn formulas() {
    let (mut read, mut refused) = (0, 0);
    for class in stages::CLASSES {
        for case in stream(Operation::PrintWords, class, Size::MEDIUM, SEED).take(300) {
            let Case::PrintWords { formula, .. } = case else {
                unreachable!("a formula")
            };
            match (Formula::read(&formula), dulgaverk::print_words(&formula)) {
                (Ok(tree), Ok(words)) => {
                    assert_eq!(formula_file(&tree), known(&formula).concat());
                    assert_eq!(tree.to_string(), words);
                    read += 1;
                }
                (Err(found), Err(expected)) => {
                    assert_eq!(found, expected);
                    refused += 1;
                }
                (found, expected) => panic!("{found:?}, {expected:?}"),
            }
        }
    }
    assert!(read > 300 && refused > 300, "{read}, {refused}");
}

/// Line numbers at the edges of each edition; what is refused leaves the proof as it was.
#[test]
fn line_numbers() {
    for (edition, most) in [(Edition::One, 255), (Edition::Two, 65_535)] {
        let mut proof = ProofWriter::new(edition, 1).expect("a writer");
        for line in [0, most] {
            proof.split(line).expect("a row");
        }
        let before = proof.clone();
        let refusal = Refusal::outside(10, 3, before.bytes().len());
        for line in [most + 1, usize::MAX] {
            assert_eq!(proof.scale(line, 1).err(), Some(refusal));
            assert_eq!(proof.combine(0, line, 1, 1).err(), Some(refusal));
            assert_eq!(proof.reduce(line, 0, 1).err(), Some(refusal));
        }
        assert_eq!(proof, before);
    }
    for constants in [0, 17, 256, 257, usize::MAX] {
        let refusal = ProofWriter::new(Edition::One, constants).err();
        assert_eq!(refusal, Some(Refusal::outside(7, 3, 4)));
    }
    let mut proof = ProofWriter::new(Edition::One, 2).expect("a writer");
    proof.note(0xFF, &[7; 65_535]).expect("a note");
    assert_eq!(proof.bytes()[8..], field(0xFF, &[7; 65_535]));
}
