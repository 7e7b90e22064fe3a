//! make(text(F)) is F, for every stage that is laid out; and the lines that are shown are those that the check makes.

mod common;
use common::{examples, some};

use stages::table::Size;
use stages::Class;
use std::fs;
use tool::fields::{self, tag, Field, Sort};
use tool::files::Stage;
use tool::tree::{self, What};
use tool::{names, parse, text};

fn stage([a, b, p]: &[Vec<u8>; 3]) -> Stage {
    Stage::of(a.clone(), b.clone(), p.clone())
}

/// Whether it is laid out; if so, it comes back from its text byte for byte.
fn comes_back(files: &[Vec<u8>; 3]) -> bool {
    let Stage { a, b, p, .. } = stage(files);
    let names = names::plain(a.constants);
    let Ok(text) = text::write(&names, &a, &b, &p) else {
        return false;
    };
    let stated = parse::parse("text", &text).unwrap_or_else(|why| panic!("{why}\n{text}"));
    assert_eq!(stated.registers, names);
    for (index, sort) in [Sort::Bundle, Sort::Bundle, Sort::Proof].iter().enumerate() {
        let made = fields::write(*sort, &stated.files[index]);
        assert_eq!(made, files[index], "{text}");
    }
    true
}

#[test]
fn accepted_stages_come_back() {
    for (size, seed, count) in [
        (Size::SMALL, 1, 3_000),
        (Size::MEDIUM, 2, 1_000),
        (Size::LARGE, 3, 100),
        (Size::LONG, 4, 10),
    ] {
        for files in some(Class::Sound, size, seed, count) {
            assert!(comes_back(&files));
        }
    }
}

/// Refused stages come back too where they are laid out, which the check cannot deny by the number it gives.
#[test]
fn refused_stages_come_back() {
    let mut back = 0;
    for class in [
        Class::Damaged,
        Class::Directed,
        Class::Limit,
        Class::Edge,
        Class::Noise,
    ] {
        for files in some(class, Size::SMALL, 5, 1_500) {
            let laid_out = comes_back(&files);
            let number = stage(&files).verdict.map_or_else(|r| r.number, |_| 0);
            let broken = [2, 3, 4, 5, 6, 7, 9, 19].contains(&number);
            assert!(!(laid_out && broken), "{class:?} refused {number}");
            back += usize::from(laid_out && number != 0);
        }
    }
    assert!(back > 1_500, "{back}");
}

#[test]
fn examples_come_back() {
    let mut broken = Vec::new();
    for folder in examples() {
        let files = ["a", "b", "p"].map(|name| fs::read(folder.join(name)).expect("a file"));
        if !comes_back(&files) {
            broken.push(folder.file_name().expect("a name").to_os_string());
        }
    }
    let expected = [
        "stage-10-constants",
        "stage-8-edition",
        "stage-8-edition-2",
        "stage-8-tag",
        "stage-four-bytes-edition",
    ];
    assert_eq!(broken, expected);
}

/// The papers' stages, and those that show how proofs are written, have their text beside them.
#[test]
fn texts_make_their_stages() {
    let mut made = 0;
    for set in ["papers", "proofs"] {
        let root = concat!(env!("CARGO_MANIFEST_DIR"), "/../../examples/");
        for entry in fs::read_dir(format!("{root}{set}")).expect("a folder") {
            let folder = entry.expect("an entry").path();
            if !folder.join("a").is_file() {
                continue;
            }
            let text = fs::read_to_string(folder.join("stage.txt")).expect("a text");
            let stated = parse::parse("stage.txt", &text).unwrap_or_else(|why| panic!("{why}"));
            let names = fs::read_to_string(folder.join("names")).expect("names");
            assert_eq!(stated.registers.join(" "), names.trim_end());
            for (index, (name, sort)) in
                [("a", Sort::Bundle), ("b", Sort::Bundle), ("p", Sort::Proof)]
                    .into_iter()
                    .enumerate()
            {
                let bytes = fs::read(folder.join(name)).expect("a file");
                let same = fields::write(sort, &stated.files[index]) == bytes;
                assert!(same, "{}/{name}", folder.display());
            }
            made += 1;
        }
    }
    assert_eq!(made, 67);
}

/// Each line shown, put behind its row as a claim, is accepted by the verified check, which gives the same guard.
#[test]
fn lines_are_those_of_the_check() {
    let (mut tried, mut claims) = (0, 0);
    for (size, seed, count) in [(Size::SMALL, 6, 2_000), (Size::MEDIUM, 7, 300)] {
        for files in some(Class::Sound, size, seed, count) {
            let Stage {
                a, b, p, verdict, ..
            } = stage(&files);
            let tree = tree::tree(&a, &b, &p, usize::MAX);
            assert!(tree.closed && tree.misplaced.is_none());
            let mut fields = p.parts().0.to_vec();
            for node in &tree.nodes {
                match node.what {
                    What::Field(field) if field.makes_line() => {
                        let line = node.line.clone().expect("a line");
                        let claim = [line.t, line.ta].concat();
                        fields.extend([field.clone(), Field::new(tag::CLAIM, &claim)]);
                        claims += 1;
                    }
                    What::Field(field) if field.tag != tag::CLAIM => fields.push(field.clone()),
                    _ => {}
                }
            }
            let claimed = fields::write(Sort::Proof, &fields);
            if verdict.is_ok() && claimed.len() <= 65_536 {
                assert_eq!(dulgaverk::check(&a.bytes, &b.bytes, &claimed), verdict);
                tried += 1;
            }
        }
    }
    assert!(tried > 2_000 && claims > 5_000, "{tried}, {claims}");
}
