//! The guard program: what it prints for files that are right, wrong, missing, long or no files at all, and that for
//! random formulas and values of every K it prints what the independent checker answers.

mod common;
use common::Folder;

use stages::build::{and, comparison, divides, file, or};
use stages::other;
use stages::rng::Rng;
use stages::table::Size;
use stages::{stream, Case, Operation, CLASSES};

/// "2 divides y" over x, y, z.
const FORMULA: &[u8] =
    b"\x01\0\x01\x01\x02\0\x01\x03\x35\0\x14\0\0\0\x02\0\0\0\0\0\0\0\x01\0\0\0\0\0\0\0\0";

fn values(list: &[i32]) -> Vec<u8> {
    list.iter().flat_map(|v| v.to_be_bytes()).collect()
}

fn folder(name: &str) -> Folder {
    Folder::new("guard", name)
}

#[test]
fn true_and_false() {
    let run = |name: &str, list: &[i32]| folder(name).with("f", FORMULA).with("v", &values(list));
    run("true", &[1, 4, -7]).prints("true\n");
    run("false", &[1, -3, 0]).prints("false\n");
}

/// Formulas are of edition 1, and nothing else.
#[test]
fn other_editions() {
    for edition in [0, 2, 3, 255] {
        let mut formula = FORMULA.to_vec();
        formula[3] = edition;
        folder(&format!("edition {edition}"))
            .with("f", &formula)
            .with("v", &values(&[1, 4, -7]))
            .prints("refused 5 file 3 at 0\n");
    }
}

#[test]
fn values_out_of_range_or_number() {
    let run = |name: &str, v: &[u8]| folder(name).with("f", FORMULA).with("v", v);
    run("range", &values(&[0, 0, -1_000_001])).prints("refused 23 file 4 at 2\n");
    run("two", &values(&[0, 0])).prints("refused 9 file 3 at 4\n");
    run("sixteen", &values(&[0; 16])).prints("refused 9 file 3 at 4\n");
    run("seventeen", &values(&[0; 17])).prints("refused 7 file 4 at 0\n");
    run("thousand", &values(&[0; 1000])).prints("refused 7 file 4 at 0\n");
    run("odd", &values(&[0, 0, 0])[..11]).prints("refused 7 file 4 at 0\n");
    run("one more", &[values(&[0; 17]), vec![0]].concat()).prints("refused 7 file 4 at 0\n");
}

/// A file that cannot be opened, or read through, counts as empty.
#[test]
fn missing_files() {
    folder("no v")
        .with("f", FORMULA)
        .prints("refused 7 file 4 at 0\n");
    folder("no f")
        .with("v", &values(&[1, 2, 3]))
        .prints("refused 2 file 3 at 0\n");
    folder("directory")
        .with("v", &values(&[1, 2, 3]))
        .with_folder("f")
        .prints("refused 2 file 3 at 0\n");
}

/// A file above its limit is refused with 1, and never cut to one that fits.
#[test]
fn long_files() {
    let note = |length: usize| {
        let mut file = FORMULA.to_vec();
        while file.len() < length {
            let size = (length - file.len() - 3).min(60_000);
            file.push(0x80);
            file.extend_from_slice(&(size as u16).to_be_bytes());
            file.resize(file.len() + size, 0);
        }
        file
    };
    let run = |name: &str, length: usize| {
        folder(name)
            .with("f", &note(length))
            .with("v", &values(&[0, 2, 0]))
    };
    run("longest", 65_536).prints("true\n");
    run("too long", 65_537).prints("refused 1 file 3 at 0\n");
    run("far too long", 200_000).prints("refused 1 file 3 at 0\n");
}

/// What the independent checker says of the two files, as it is to be printed.
fn answer(f: &[u8], v: &[u8]) -> String {
    if !v.len().is_multiple_of(4) {
        return "refused 7 file 4 at 0\n".to_string();
    }
    let list: Vec<i32> = v
        .chunks(4)
        .map(|bytes| i32::from_be_bytes(bytes.try_into().expect("four bytes")))
        .collect();
    let r = reference::test_formula(f, &list);
    let answer = r.answer;
    if answer.number != 0 {
        return format!(
            "refused {} file {} at {}\n",
            answer.number, answer.file, answer.place
        );
    }
    format!("{}\n", r.holds)
}

fn compare(name: &str, f: &[u8], v: &[u8]) -> String {
    let expected = answer(f, v);
    folder(name).with("f", f).with("v", v).prints(&expected);
    expected
}

/// K register values, and the numbers of a form that is 0 there. No coefficient is 0, so at a vector that differs in one
/// value the form is not 0.
fn registers(rng: &mut Rng, k: usize) -> (Vec<i32>, Vec<i32>) {
    let list: Vec<i32> = (0..k)
        .map(|_| rng.within(-1_000_000, 1_000_000) as i32)
        .collect();
    let mut numbers: Vec<i32> = (0..k)
        .map(|_| rng.within(1, 100) as i32 * *rng.pick(&[1, -1]))
        .collect();
    // At most 1,600,000,000.
    let sum: i32 = list.iter().zip(&numbers).map(|(v, c)| v * c).sum();
    numbers.push(-sum);
    (list, numbers)
}

/// Formulas that are true just where the form is 0, and one that is false just there.
fn formulas(numbers: &[i32]) -> ([Vec<u8>; 2], Vec<u8>) {
    let k = (numbers.len() - 1) as u8;
    let less: Vec<i32> = numbers.iter().map(|n| -n).collect();
    let one_more = |numbers: &[i32]| {
        let mut numbers = numbers.to_vec();
        numbers[usize::from(k)] += 1;
        numbers
    };
    let equal = file(k, &[comparison(true, numbers)]);
    let between = [and(), comparison(false, numbers), comparison(false, &less)];
    let apart = [
        or(),
        comparison(false, &one_more(numbers)),
        comparison(false, &one_more(&less)),
    ];
    ([equal, file(k, &between)], file(k, &apart))
}

/// For every K: a vector at which the formula's truth is another as soon as any one value is another. So it is at what a
/// program would load that reads every value from the first place, or none, or each a place too far, or low byte first.
#[test]
fn every_register_counts() {
    let mut rng = Rng::new(21);
    for k in 1..=16 {
        let (list, numbers) = registers(&mut rng, k);
        let ([equal, between], apart) = formulas(&numbers);
        let mut rotated = list.clone();
        rotated.rotate_left(1);
        let mut others = vec![
            vec![list[0]; k],
            vec![0; k],
            rotated,
            list.iter().map(|v| v.swap_bytes()).collect(),
        ];
        others.retain(|other| *other != list);
        for place in 0..k {
            let mut other = list.clone();
            other[place] -= other[place].signum() * rng.within(1, 1_000) as i32;
            others.push(other);
        }
        for (f, truth) in [(&equal, true), (&between, true), (&apart, false)] {
            let name = format!("counts-{k}-{truth}");
            let right = format!("{truth}\n");
            assert_eq!(compare(&name, f, &values(&list)), right);
            let mut verdicts = 0;
            for other in &others {
                let text = compare(&name, f, &values(other));
                assert_ne!(text, right, "K {k}, {other:?}");
                verdicts += usize::from(text == format!("{}\n", !truth));
            }
            assert!(verdicts >= k, "K {k}");
        }
    }
}

/// For every K, in turn: a stride over every register, true or off by one in one of them, and a formula of any shape. Both
/// verdicts must come.
#[test]
fn random_formulas() {
    let mut rng = Rng::new(22);
    for k in 1..=16 {
        let mut seen = [0, 0];
        for round in 0..24 {
            let (mut list, numbers) = registers(&mut rng, k);
            let f = if round % 2 == 0 {
                let place = rng.below(k);
                list[place] -= list[place].signum() * rng.below(2) as i32;
                let g = rng.within(101, 65_535) as i32;
                file(k as u8, &[divides(g, &numbers)])
            } else {
                list.fill_with(|| other::value(&mut rng));
                other::formula(&mut rng, k, 8)
            };
            match compare(&format!("random-{k}"), &f, &values(&list)).as_str() {
                "true\n" => seen[0] += 1,
                "false\n" => seen[1] += 1,
                text => panic!("K {k}: {text}"),
            }
        }
        assert!(seen.iter().all(|count| *count >= 4), "K {k}: {seen:?}");
    }
}

/// Formulas that are sound, damaged, at a limit or no formulas, at values that are or are not those.
#[test]
fn damaged_formulas() {
    let mut refused = 0;
    for (index, class) in CLASSES.into_iter().enumerate() {
        for size in [Size::SMALL, Size::LARGE] {
            for case in stream(Operation::Test, class, size, 23 + index as u64).take(60) {
                let Case::Test {
                    formula,
                    values: list,
                } = case
                else {
                    panic!("another operation");
                };
                let text = compare("damaged", &formula, &values(&list));
                refused += usize::from(text.starts_with("refused"));
            }
        }
    }
    assert!(refused >= 200, "{refused}");
}

/// The file v of every length up to 80 bytes, and longer, at a formula that is true of the values that it begins with.
#[test]
fn every_length_of_v() {
    let mut rng = Rng::new(24);
    for length in (0..=80).chain([1_000, 1_001, 1_002, 70_000]) {
        let k = (length / 4).clamp(1, 16);
        let (list, numbers) = registers(&mut rng, k);
        let ([f, _], _) = formulas(&numbers);
        let mut v = values(&list);
        v.resize(length, 0);
        let text = compare(&format!("length-{length}"), &f, &v);
        let taken = length % 4 == 0 && (4..=64).contains(&length);
        let expected = if taken {
            "true\n"
        } else {
            "refused 7 file 4 at 0\n"
        };
        assert_eq!(text, expected, "{length} bytes");
    }
}
