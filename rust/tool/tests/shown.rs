//! What is shown: guards in the library's words, faults marked once, the tables of docs/FORMAT.md, pages that are well
//! nested, and texts however damaged.

mod common;
use common::{root, run, some, Folder};

use stages::rng::Rng;
use stages::table::Size;
use stages::{Class, CLASSES};
use std::fs;
use tool::fields::tag;
use tool::files::Stage;
use tool::line::Line;
use tool::{look, names, parse, report, text, words};

/// Constraints in words are read back as they are.
#[test]
fn constraints_are_read_back() {
    let mut rng = Rng::new(8);
    let names: Vec<String> = ["level", "_2", "Füllstand"].map(String::from).into();
    for _ in 0..5_000 {
        let form: Vec<i64> = (0..4)
            .map(|_| match rng.below(4) {
                0 => 0,
                1 => rng.below(3) as i64 - 1,
                _ => rng.word() as i32 as i64,
            })
            .collect();
        for tag in tag::INEQUALITY..=tag::DISEQUALITY {
            let said = words::constraint(tag, &form, &names);
            let mut line = Line::new(&said).expect("tokens");
            assert_eq!(line.constraint(&names), Ok((tag, form.clone())), "{said}");
        }
    }
}

/// A constraint between two sums holds where its sign says so, of whole numbers.
#[test]
fn signs_mean_what_they_say() {
    type Holds = fn(i64, i64) -> bool;
    let signs: [(&str, Holds); 9] = [
        ("<=", |l, r| l <= r),
        (">=", |l, r| l >= r),
        ("<", |l, r| l < r),
        (">", |l, r| l > r),
        ("=", |l, r| l == r),
        ("!=", |l, r| l != r),
        ("≤", |l, r| l <= r),
        ("≥", |l, r| l >= r),
        ("≠", |l, r| l != r),
    ];
    let mut rng = Rng::new(13);
    let names: Vec<String> = ["x", "y"].map(String::from).into();
    let value = |form: &[i64], x: i64, y: i64| form[0] * x + form[1] * y + form[2];
    for (sign, holds) in signs {
        for _ in 0..500 {
            let mut small = || rng.below(7) as i64 - 3;
            let (l, r) = ([small(), small(), small()], [small(), small(), small()]);
            let said = format!(
                "{} {sign} {}",
                words::form(&l, &names),
                words::form(&r, &names)
            );
            let mut line = Line::new(&said).expect("tokens");
            let (tag, form) = line.constraint(&names).expect("a constraint");
            let (x, y) = (small(), small());
            let met = match (tag, value(&form, x, y)) {
                (tag::INEQUALITY, t) => t <= 0,
                (tag::EQUALITY, t) => t == 0,
                (_, t) => t != 0,
            };
            assert_eq!(met, holds(value(&l, x, y), value(&r, x, y)), "{said}");
        }
    }
    for sum in [
        "2x - 1",
        "2*x − 1",
        "2 x - 3 + 2",
        "x + x - 1",
        "-1 + 2x + 0y",
    ] {
        let mut line = Line::new(sum).expect("tokens");
        assert_eq!(line.sum(&names), Ok(vec![2, 0, -1]), "{sum}");
    }
}

/// A guard's words are the library's: with the marks taken away and the names put back they are its print, and a part is
/// marked where it has no register, with what the verified test says of it.
#[test]
fn guards_are_in_the_library_s_words() {
    let mut marked = 0;
    for [a, b, p] in some(Class::Sound, Size::SMALL, 9, 1_500) {
        let guard = dulgaverk::check(&a, &b, &p).expect("accepted");
        let plain: Vec<String> = (0..16).map(|index| format!("r{index}")).collect();
        let said = words::guard(&guard, &plain).expect("words");
        let one_line: Vec<&str> = said.split_whitespace().collect();
        let print = dulgaverk::print_words(&guard).expect("words");
        let unmarked = one_line
            .join(" ")
            .replace(" [true]", "")
            .replace(" [false]", "");
        assert_eq!(unmarked, print);
        for part in one_line
            .join(" ")
            .split(" or ")
            .flat_map(|part| part.split(" and "))
        {
            let is_marked = part.contains('[');
            let bare = part.split(" [").next().expect("a part");
            assert_eq!(is_marked, !bare.contains('r'), "{part}");
            marked += usize::from(is_marked);
        }
        let named: Vec<String> = (0..16).map(|index| format!("Pegel_{index}")).collect();
        let put = names::put(&print, &named);
        assert_eq!(put.replace("Pegel_", "r"), print);
    }
    assert!(marked > 500, "{marked}");
    let leaf = |field: &[u8]| [b"\x01\0\x01\x01\x02\0\x01\x01", field].concat();
    for d in -3_i32..=3 {
        let d = d.to_be_bytes();
        let at_most = leaf(&[&[0x33, 0, 8, 0, 0, 0, 0], &d[..]].concat());
        let equal = leaf(&[&[0x34, 0, 8, 0, 0, 0, 0], &d[..]].concat());
        let divides = leaf(&[&[0x35, 0, 12, 0, 0, 0, 2, 0, 0, 0, 0], &d[..]].concat());
        for formula in [at_most, equal, divides] {
            let truth = dulgaverk::test_formula(&formula, &[7]).expect("a formula");
            let said = words::guard(&formula, &[]).expect("words");
            assert!(said.ends_with(&format!(" [{truth}]")), "{said}");
        }
    }
}

/// Every stage of every class is shown, with one mark for a refusal and none else, and pages are well nested.
#[test]
fn faults_are_marked_once() {
    let mut refused = 0;
    for class in CLASSES {
        for [a, b, p] in some(class, Size::SMALL, 10, 400) {
            let stage = Stage::of(a, b, p);
            let names = names::plain(stage.a.constants.max(stage.b.constants));
            let mut out = Vec::new();
            assert!(look::show(&stage, &names, &mut out).is_ok());
            let marks = usize::from(stage.verdict.is_err());
            let shown = String::from_utf8(out).expect("text");
            assert_eq!(shown.matches("  *** ").count(), marks, "{shown}");
            let page = report::page("a \"stage\" <1>", &stage, &names);
            assert_eq!(page.matches("id=\"fault\"").count(), marks);
            is_nested(&page);
            refused += marks;
        }
    }
    assert!(refused > 1_000, "{refused}");
}

fn is_nested(page: &str) {
    let mut open = Vec::new();
    for tag in page
        .split('<')
        .skip(2)
        .map(|rest| rest.split(['>', ' ']).next().expect("a tag"))
    {
        match tag.strip_prefix('/') {
            Some(name) => assert_eq!(open.pop(), Some(name)),
            None if tag == "meta" => {}
            None => open.push(tag),
        }
    }
    assert!(open.is_empty(), "{open:?}");
    assert!(!page.contains("<script") && !page.contains("http"));
}

/// Damaged texts are read, or told with line, expected and found.
#[test]
fn damaged_texts() {
    let mut rng = Rng::new(11);
    let mut wrong = 0;
    for [a, b, p] in some(Class::Sound, Size::SMALL, 12, 1_000) {
        let stage = Stage::of(a, b, p);
        let names = names::plain(stage.a.constants);
        let text = text::write(&names, &stage.a, &stage.b, &stage.p).expect("laid out");
        for _ in 0..10 {
            let mut bytes = text.clone().into_bytes();
            let place = rng.below(bytes.len());
            bytes[place] = b"\n #=<:;*-+19xAnZ~"[rng.below(17)];
            let damaged = String::from_utf8(bytes).expect("text");
            if let Err(why) = parse::parse("t", &damaged) {
                assert!(
                    why.starts_with("t:")
                        && why.contains(": expected ")
                        && why.contains(", found "),
                    "{why}"
                );
                wrong += 1;
            }
        }
    }
    assert!(wrong > 1_000, "{wrong}");
}

/// A file of a table: its lines as place and bytes, and all its bytes.
type Table = (Vec<String>, Vec<u8>);

/// The files of a table, one after the other: each begins with its edition.
fn tables(text: &str) -> Option<Vec<Table>> {
    let mut lines = text.lines().filter(|line| !line.is_empty());
    let words = lines
        .next()
        .filter(|line| line.starts_with("place bytes"))?
        .find("meaning")?;
    let (mut files, mut start): (Vec<Table>, usize) = (Vec::new(), 0);
    for line in lines {
        let columns: String = line.chars().take(words).collect();
        let parts: Vec<&str> = columns.split_whitespace().collect();
        let place: usize = parts[0].parse().ok()?;
        if line.contains("header: edition") {
            files.push((Vec::new(), Vec::new()));
            start = place;
        }
        let (rows, bytes) = files.last_mut()?;
        rows.push(format!("{} {}", place - start, parts[1..].join(" ")));
        let digits = parts[1..].concat();
        for index in (0..digits.len()).step_by(2) {
            bytes.push(u8::from_str_radix(&digits[index..index + 2], 16).ok()?);
        }
    }
    Some(files)
}

/// Every line of the format's tables has its place and its bytes in what look prints of the same file.
#[test]
fn tables_of_the_format() {
    let page = fs::read_to_string(root().join("docs/FORMAT.md")).expect("docs/FORMAT.md");
    let folder = Folder::new("format");
    let texts = page.split("```text").skip(1);
    let texts = texts.map(|text| text.split("```").next().expect("an end"));
    let files: Vec<Table> = texts.filter_map(tables).flatten().collect();
    for (rows, bytes) in &files {
        let (out, _, status) = run(&["look", &folder.file("f", bytes)]);
        assert_eq!(status, 0, "{out}");
        // The column of rows is look's own.
        let has = |line: &str, row: &str| {
            let mut parts: Vec<&str> = line.split_whitespace().collect();
            let whole = parts.join(" ");
            parts.drain(1.min(parts.len())..2.min(parts.len()));
            whole.starts_with(row) || parts.join(" ").starts_with(row)
        };
        for row in rows {
            assert!(out.lines().any(|line| has(line, row)), "{row}\n{out}");
        }
    }
    assert!(files.len() >= 30, "{}", files.len());
}
