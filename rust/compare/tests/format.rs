//! docs/FORMAT.md says what the code does: its refusals and its worked stages.

use dulgaverk::{Edition, Kind, Refusal};
use std::fs;
use std::path::PathBuf;

fn page() -> String {
    let path = PathBuf::from(env!("CARGO_MANIFEST_DIR")).join("../../docs/FORMAT.md");
    fs::read_to_string(path).expect("docs/FORMAT.md")
}

/// The bytes of a listing, each line of which has a place, groups of hexadecimal digits, and words.
fn listing(text: &str) -> Vec<u8> {
    let mut lines = text.lines().filter(|line| !line.is_empty());
    let heading = lines.next().expect("a heading");
    let words = heading.find("meaning").expect("a column of words");
    let mut bytes = Vec::new();
    for line in lines {
        let columns: String = line.chars().take(words).collect();
        let mut groups = columns.split_whitespace();
        let place: usize = groups
            .next()
            .and_then(|word| word.parse().ok())
            .expect("a place");
        assert_eq!(place, bytes.len(), "{line}");
        let digits: String = groups.collect();
        for index in (0..digits.len()).step_by(2) {
            bytes.push(u8::from_str_radix(&digits[index..index + 2], 16).expect("a byte"));
        }
    }
    bytes
}

#[test]
fn every_refusal_is_in_the_table() {
    let page = page();
    for (number, meaning) in dulgaverk::MEANINGS {
        assert!(
            page.contains(&format!("\n| {number} | {meaning} | ")),
            "{number}"
        );
    }
}

/// The listings of the page: A, B, the proof and the formula of each worked stage, then a proof with a fault, then the
/// files of the first stage turned, then a proof and what it is shortened to, then a run and its guards.
fn listings() -> Vec<Vec<u8>> {
    listings_of(&page())
}

/// The listings of a part of the page, under a heading.
fn listings_under(heading: &str) -> Vec<Vec<u8>> {
    let page = page();
    let part = page
        .split("\n## ")
        .find(|part| part.starts_with(heading))
        .expect("the part");
    listings_of(part)
}

fn listings_of(text: &str) -> Vec<Vec<u8>> {
    text.split("```text")
        .skip(1)
        .map(|rest| listing(rest.split("```").next().expect("an end")))
        .collect()
}

#[test]
fn the_worked_stages_are_right() {
    let listings = listings();
    assert_eq!(listings.len(), 31);
    for (stage, lengths) in listings.chunks_exact(4).zip([
        [15, 15, 78, 51],
        [19, 30, 51, 75],
        [30, 30, 86, 171],
        [15, 22, 38, 33],
        [19, 15, 24, 19],
    ]) {
        let [a, b, proof, formula] = stage else {
            panic!("four listings a stage");
        };
        assert_eq!([a, b, proof, formula].map(Vec::len), lengths);
        assert_eq!(dulgaverk::check(a, b, proof).as_ref(), Ok(formula));
    }
}

#[test]
fn what_is_said_of_the_first_stage() {
    let [a, b, proof, formula] = &listings()[..4] else {
        panic!("four listings");
    };
    let read = dulgaverk::read_bundle(a).expect("A is read");
    let kinds = vec![Kind::Inequality];
    assert_eq!((read.kinds, read.numbers), (kinds.clone(), vec![2, -1]));
    let read = dulgaverk::read_bundle(b).expect("B is read");
    assert_eq!((read.kinds, read.numbers), (kinds, vec![-2, 1]));
    assert_eq!(dulgaverk::test_formula(formula, &[0]), Ok(true));
    assert_eq!(dulgaverk::test_formula(formula, &[1]), Ok(false));

    let mut other = proof.clone();
    other[77] = 2;
    let refusal = dulgaverk::check(a, b, &other).expect_err("line 2 closes nothing");
    // The last row of the proof: row 5, on the third branch of row 0.
    let expected = Refusal {
        row: Some(5),
        step: Some(0),
        branch: Some(2),
        ..Refusal::outside(15, 3, 74)
    };
    assert_eq!(refusal, expected);
    assert!(page().contains("15, file 3, place 74, row 5, step 0, branch 2"));
}

#[test]
fn what_is_said_of_the_second_stage() {
    let [a, b, _, formula] = &listings()[4..8] else {
        panic!("four listings");
    };
    let read = dulgaverk::read_bundle(a).expect("A is read");
    let kinds = vec![Kind::Equality];
    assert_eq!((read.kinds, read.numbers), (kinds, vec![-2, 1, 0, 0]));
    let read = dulgaverk::read_bundle(b).expect("B is read");
    assert_eq!(read.kinds, [Kind::Inequality; 2]);
    assert_eq!(read.numbers, [0, 1, -2, -1, 0, -1, 2, 1]);
    assert_eq!(dulgaverk::test_formula(formula, &[1, 4, -7]), Ok(true));
    assert_eq!(dulgaverk::test_formula(formula, &[1, 3, 1]), Ok(false));
}

#[test]
fn what_is_said_of_the_third_stage() {
    let [a, b, proof, formula] = &listings()[8..12] else {
        panic!("four listings");
    };
    assert_eq!(dulgaverk::test_formula(formula, &[1, 4, 0]), Ok(true));
    assert_eq!(dulgaverk::test_formula(formula, &[0, 1, 0]), Ok(false));
    let page = page();
    // k = 4; line 6 in the last row.
    for (at, byte, row, step, branch) in [(33, 4, 2, None, None), (85, 6, 10, Some(2), Some(3))] {
        let mut other = proof.clone();
        other[at] = byte;
        let refusal = dulgaverk::check(a, b, &other).expect_err("a fault");
        let place = if step.is_some() { 82 } else { 26 };
        let expected = Refusal {
            row: Some(row),
            step,
            branch,
            ..Refusal::outside(15, 3, place)
        };
        assert_eq!(refusal, expected);
        assert!(page.contains(&format!("15, file 3, place {place}, row {row}")));
    }
}

#[test]
fn what_is_said_of_the_fourth_stage() {
    let [a, b, proof, formula] = &listings()[12..16] else {
        panic!("four listings");
    };
    let read = dulgaverk::read_bundle(a).expect("A is read");
    let kinds = vec![Kind::Disequality];
    assert_eq!((read.kinds, read.numbers), (kinds, vec![1, -3]));
    for (value, holds) in [(2, true), (3, false), (4, true)] {
        assert_eq!(dulgaverk::test_formula(formula, &[value]), Ok(holds));
    }
    // The bundles exchanged, and the lines with them.
    let mut other = proof.clone();
    (other[11], other[16], other[29]) = (2, 1, 0);
    let exchanged = dulgaverk::check(b, a, &other).expect("a proof");
    for (value, holds) in [(2, false), (3, true), (4, false)] {
        assert_eq!(dulgaverk::test_formula(&exchanged, &[value]), Ok(holds));
    }
    // Line 0 closed by number in place of the split.
    let mut closed = proof.clone();
    closed[8] = 0x14;
    let refusal = dulgaverk::check(a, b, &closed).expect_err("a disequality");
    assert_eq!((refusal.number, refusal.place), (11, 8));
}

#[test]
fn what_is_said_of_the_fifth_stage() {
    let [a, b, proof, formula] = &listings()[16..20] else {
        panic!("four listings");
    };
    let read = dulgaverk::read_bundle(a).expect("A is read");
    assert_eq!(
        (read.edition, read.numbers),
        (Edition::Two, vec![-1, 40_000])
    );
    let read = dulgaverk::read_bundle(b).expect("B is read");
    assert_eq!(
        (read.edition, read.numbers),
        (Edition::One, vec![1, -30_000])
    );
    assert_eq!(dulgaverk::test_formula(formula, &[40_000]), Ok(true));
    assert_eq!(dulgaverk::test_formula(formula, &[30_000]), Ok(false));

    let kinds = [Kind::Inequality];
    let cut = dulgaverk::write_bundle(Edition::One, 1, &kinds, &[-1, -25_536]).expect("a bundle");
    let expected = Refusal {
        row: Some(1),
        ..Refusal::outside(15, 3, 19)
    };
    assert_eq!(dulgaverk::check(&cut, b, proof), Err(expected));
    let mut other = a.clone();
    other[3] = 1;
    let expected = Refusal::outside(6, 1, 8);
    assert_eq!(dulgaverk::check(&other, b, proof), Err(expected));
    let page = page();
    assert!(page.contains("15, file 3, place 19, row 1."));
    assert!(page.contains("with 6, file 1, place 8,"));
}

/// The proof over the first stage's bundles with a fault inside two branches, and what is said of other faults in it.
#[test]
fn the_fault_inside_two_branches() {
    let page = page();
    let listings = listings();
    let (a, b, proof) = (&listings[0], &listings[1], &listings[20]);
    assert_eq!(proof.len(), 96);
    let expected = Refusal {
        row: Some(6),
        step: Some(3),
        branch: Some(1),
        ..Refusal::outside(15, 3, 71)
    };
    assert_eq!(dulgaverk::check(a, b, proof), Err(expected));
    assert!(page.contains("15, file 3, place 71, row 6, step 3, branch 1"));

    let mut right = proof.clone();
    right[76] = 4;
    assert!(dulgaverk::check(a, b, &right).is_ok());
    let with = |place: usize, byte: u8| {
        let mut other = right.clone();
        other[place] = byte;
        other
    };
    for (fault, other) in [
        ("row 0 names line 9", with(11, 9)),
        ("row 3 names line 2, there an equality", with(28, 2)),
        ("row 4 names line 9", with(32, 9)),
        ("the note's length says 200", with(37, 200)),
        ("the claim says -4x + 3", with(62, 3)),
        ("row 7 names line 9", with(80, 9)),
        ("row 8 names line 9", with(86, 9)),
        ("the file ends before row 7", right[..77].to_vec()),
        ("the file ends before row 8", right[..83].to_vec()),
        (
            "row 9 stands there twice",
            [&right[..], &right[92..]].concat(),
        ),
    ] {
        let refusal = dulgaverk::check(a, b, &other).expect_err(fault);
        assert!(page.contains(&table_row(fault, &refusal)), "{refusal:?}");
    }
}

/// The first stage turned up and down, and what is said of other calls.
#[test]
fn the_first_stage_turned() {
    use dulgaverk::{check, turn_bundle, turn_bundle_into, turn_proof};
    let page = page();
    let listings = listings();
    let [a, b, proof, formula] = &listings[..4] else {
        panic!("four listings");
    };
    let [a_2, b_2, proof_2] = &listings[21..24] else {
        panic!("three listings");
    };
    assert_eq!([a_2, b_2, proof_2].map(Vec::len), [19, 19, 71]);
    assert_eq!(turn_bundle(a, Edition::Two).as_ref(), Ok(a_2));
    assert_eq!(turn_bundle(b, Edition::Two).as_ref(), Ok(b_2));
    assert_eq!(turn_proof(proof, Edition::Two).as_ref(), Ok(proof_2));
    assert_eq!(turn_bundle(a_2, Edition::One).as_ref(), Ok(a));
    assert_eq!(turn_bundle(b_2, Edition::One).as_ref(), Ok(b));
    let back = turn_proof(proof_2, Edition::One).expect("turned down");
    assert_eq!((back.len(), back), (63, compare::without_notes(proof)));
    for a in [a, a_2] {
        for b in [b, b_2] {
            for proof in [proof, proof_2] {
                assert_eq!(check(a, b, proof).as_ref(), Ok(formula));
            }
        }
    }
    let folder = PathBuf::from(env!("CARGO_MANIFEST_DIR")).join("../../examples/stage-5-turned");
    for (name, bytes) in [("a", a_2), ("b", b_2), ("p", proof_2)] {
        assert_eq!(&fs::read(folder.join(name)).expect("a file"), bytes);
    }

    let mut large = a_2.clone();
    large.splice(15..19, 32_768_i32.to_be_bytes());
    let unknown = [&large[..], &[0x06, 0, 0]].concat();
    let mut far = proof_2.clone();
    (far[69], far[70]) = (1, 0);
    let claimed = [&proof_2[..], &proof_2[24..43]].concat();
    let longer = [&proof_2[..], &proof_2[66..]].concat();
    let mut cut = proof.clone();
    cut[52] = 200;
    for (words, to, result) in [
        ("this A", 2, turn_bundle(a_2, Edition::Two)),
        (
            "this A",
            3,
            turn_bundle_into(a_2, 3, &mut [0; 99]).map(|_| Vec::new()),
        ),
        (
            "this A, into an output of 14 bytes",
            1,
            turn_bundle_into(a_2, 1, &mut [0; 14]).map(|_| Vec::new()),
        ),
        (
            "this A with 32,768 in place of -1",
            1,
            turn_bundle(&large, Edition::One),
        ),
        (
            "the same with a field of tag 0x06 behind it",
            1,
            turn_bundle(&unknown, Edition::One),
        ),
        (
            "the proof, with line 256 in its last row",
            1,
            turn_proof(&far, Edition::One),
        ),
        (
            "the proof, with its claim once more behind it",
            1,
            turn_proof(&claimed, Edition::One),
        ),
        (
            "the proof, with its last row once more behind it",
            1,
            turn_proof(&longer, Edition::One),
        ),
        (
            "the proof of the first stage, with the note's length 200",
            2,
            turn_proof(&cut, Edition::Two),
        ),
    ] {
        let told = match &result {
            Ok(bytes) => format!("accepted, {} bytes;", bytes.len()),
            Err(refusal) => {
                let (number, file, place) = (refusal.number, refusal.file, refusal.place);
                let expected = Refusal::outside(number, file, place);
                assert_eq!(refusal, &expected);
                format!("{number}, file {file}, place {place}")
            }
        };
        let row = format!("\n| {words} | {to} | {told}");
        assert!(page.contains(&row), "{row}");
    }
    assert_eq!(
        check(a, b, &longer).expect_err("behind the root").number,
        19
    );
}

/// A refusal as the page's table of faults has it.
fn table_row(fault: &str, refusal: &Refusal) -> String {
    let Refusal {
        number,
        file,
        place,
        ..
    } = refusal;
    let [row, step, branch] = [refusal.row, refusal.step, refusal.branch]
        .map(|number| number.map_or("none".to_string(), |number| number.to_string()));
    format!("\n| {fault} | {number}, {file}, {place} | {row} | {step} | {branch} |\n")
}

/// The list at which the page tests "2 divides y", and its three refusals.
#[test]
fn a_list_of_vectors() {
    assert!(page().contains("the six values 1, 4, -7, 1, -3, 0 writes the bytes `01 00`. With a seventh value the answer is 7, file 4, place 0; with 1,000,001 for -3 it is 23, file 4, place 4; with an output of one byte 21, file 4, place 2."));
    let path = PathBuf::from(env!("CARGO_MANIFEST_DIR")).join("../../examples/guard-1/f");
    let formula = fs::read(path).expect("the formula of stage 1");
    let mut out = [7; 3];
    let mut test = |values: &[i32], room: usize| {
        dulgaverk::test_list_into(&formula, 3, values, &mut out[..room])
    };
    let refused = |number, place| Err(Refusal::outside(number, 4, place));
    assert_eq!(test(&[1, 4, -7, 1, -3, 0, 0], 3), refused(7, 0));
    assert_eq!(test(&[1, 4, -7, 1, 1_000_001, 0], 3), refused(23, 4));
    assert_eq!(test(&[1, 4, -7, 1, -3, 0], 1), refused(21, 2));
    assert_eq!(test(&[1, 4, -7, 1, -3, 0], 3), Ok(2));
    assert_eq!(out, [1, 0, 7]);
}

/// The lines of the page that are set apart, each as it stands.
fn shows(page: &str, line: &str) {
    assert!(page.contains(&format!("\n    {line}\n")), "{line}");
}

/// The guards that the page prints, and what it says of an output.
#[test]
fn printed_guards() {
    let page = page();
    let listings = listings();
    for formula in [&listings[3], &listings[15]] {
        shows(&page, &dulgaverk::print(formula).expect("a formula"));
        shows(&page, &dulgaverk::print_words(formula).expect("a formula"));
    }
    let first = &listings[3];
    assert!(page.contains("74 bytes are needed, and in words 44; with an output of 43 bytes the second is refused with 21, file 4, place 44."));
    let mut out = [0; 74];
    assert_eq!(dulgaverk::print_into(first, &mut out), Ok(74));
    assert_eq!(dulgaverk::print_words_into(first, &mut out), Ok(44));
    let refusal = Refusal::outside(21, 4, 44);
    let short = dulgaverk::print_words_into(first, &mut out[..43]);
    assert_eq!(short, Err(refusal));
    // The pieces of the table of sums.
    for (numbers, term, words) in [
        ([2, 0, 0], "(+ (* 2 r0) 0)", "2*r0"),
        ([0, -3, -1], "(+ (* (- 3) r1) (- 1))", "-3*r1 - 1"),
    ] {
        let formula = stages::build::file(2, &[stages::build::comparison(false, &numbers)]);
        let printed = dulgaverk::print(&formula).expect("a formula");
        assert_eq!(printed, format!("(<= {term} 0)"));
        let printed = dulgaverk::print_words(&formula).expect("a formula");
        assert_eq!(printed, format!("{words} <= 0"));
        assert!(page.contains(&format!("`{words}`")), "{words}");
    }
}

/// How many short proofs the page says there are, and the first two that it shows.
#[test]
fn short_proofs() {
    use stages::build::{constraint, file};
    let page = page();
    let le = |numbers: &[i16]| vec![constraint(false, numbers)];
    let eq = |numbers: &[i16]| vec![constraint(true, numbers)];
    for (k, words, a, b) in [
        (
            3,
            "y - 2x = 0 | -y + 2z + 1 = 0",
            eq(&[-2, 1, 0, 0]),
            eq(&[0, -1, 2, 1]),
        ),
        (1, "x ≤ 0 | -x + 1 ≤ 0", le(&[1, 0]), le(&[-1, 1])),
        (1, "x ≤ 0 | -x ≤ 0", le(&[1, 0]), le(&[-1, 0])),
        (1, "2x - 1 ≤ 0 | -2x + 1 ≤ 0", le(&[2, -1]), le(&[-2, 1])),
        (1, "1 ≤ 0 | none", le(&[0, 1]), vec![]),
        (1, "none | 1 ≤ 0", vec![], le(&[0, 1])),
        (1, "x = 0 | x - 1 = 0", eq(&[1, 0]), eq(&[1, -1])),
    ] {
        let (a, b) = (file(k, &a), file(k, &b));
        let mut counts = [0; 3];
        for table in dulgaverk::short_proofs(&a, &b).expect("two bundles") {
            counts[stages::damage::fields(&table).len() - 3] += 1;
        }
        let [one, two, three] = counts;
        let line = format!("\n| {words} | {one} | {two} | {three} |\n");
        assert!(page.contains(&line), "{line}");
    }
    let a = file(3, &[constraint(true, &[-2, 1, 0, 0])]);
    let b = file(3, &[constraint(true, &[0, -1, 2, 1])]);
    let shown = "01000101 02000103 110004 00 01 0001 150003 02 0002";
    shows(&page, shown);
    let bytes = |text: &str| -> Vec<u8> {
        let digits: String = text.split_whitespace().collect();
        (0..digits.len() / 2)
            .map(|i| u8::from_str_radix(&digits[2 * i..2 * i + 2], 16).expect("a byte"))
            .collect()
    };
    let first = dulgaverk::next_proof(&a, &b, &a[..8]);
    assert_eq!(first, Ok(bytes(shown)));
    let second = dulgaverk::next_proof(&a, &b, &bytes(shown));
    assert_eq!(second, Ok(bytes(&shown.replace("01 0001", "01 FFFF"))));
}

/// A line of the page says what a call refuses.
fn says(page: &str, words: &str, refusal: Refusal) {
    let mut told = format!(
        "{}, file {}, place {}",
        refusal.number, refusal.file, refusal.place
    );
    for (name, number) in [
        ("row", refusal.row),
        ("step", refusal.step),
        ("branch", refusal.branch),
    ] {
        if let Some(number) = number {
            told.push_str(&format!(", {name} {number}"));
        }
    }
    let line = format!("| {words} | {told} |");
    assert!(page.contains(&line), "{line}");
}

#[test]
fn what_is_said_of_the_proof_shortened() {
    let [a, b, _, _] = &listings()[..4] else {
        panic!("four listings");
    };
    let [proof, shorter] = &listings_under("A proof shortened")[..] else {
        panic!("two listings");
    };
    let page = page();
    let stage = PathBuf::from(env!("CARGO_MANIFEST_DIR")).join("../../examples/stage-5-unused");
    assert_eq!(fs::read(stage.join("p")).expect("a file"), *proof);
    assert_eq!((proof.len(), shorter.len()), (117, 69));
    assert!(page.contains("The proof, 117 bytes, has rows") && page.contains("table, 69 bytes,"));

    let told = |proof: &[u8], rows: usize, bytes: usize| {
        let (mut report, mut out) = (vec![9; rows], vec![9; bytes]);
        let sizes = dulgaverk::shorten_into(a, b, proof, &mut report, &mut out)?;
        report.truncate(sizes.rows);
        out.truncate(sizes.bytes);
        let digits: Vec<String> = report.iter().map(|byte| format!("{byte:02X}")).collect();
        Ok::<_, Refusal>((digits.join(" "), out))
    };
    let (report, table) = told(proof, 10, 69).expect("accepted");
    assert_eq!(table, *shorter);
    assert!(page.contains(&format!("So the report is `{report}`")));
    let (report, table) = told(shorter, 10, 69).expect("accepted");
    assert_eq!(table, *shorter);
    let line = format!("| the shorter table | accepted, 69 bytes, the report `{report}` |");
    assert!(page.contains(&line));
    let formula = dulgaverk::check(a, b, proof);
    assert_eq!(dulgaverk::check(a, b, shorter), formula);
    assert_eq!(formula.map(|bytes| bytes.len()), Ok(51));

    let refused = |proof: &[u8], rows, bytes| told(proof, rows, bytes).expect_err("refused");
    says(
        &page,
        "this proof, with 9 bytes for the report",
        refused(proof, 9, 69),
    );
    says(
        &page,
        "this proof, with 68 bytes for the table",
        refused(proof, 10, 68),
    );
    let changed = |at: usize, byte: u8| {
        let mut other = proof.clone();
        other[at] = byte;
        refused(&other, 10, 69)
    };
    says(
        &page,
        "this proof with another tA in its first claim",
        changed(35, 0),
    );
    says(
        &page,
        "this proof with line 9 scaled in row 7",
        changed(82, 9),
    );
}

#[test]
fn what_is_said_of_the_run() {
    let [first, second, third, proof, guards] = &listings_under("A run of three stages")[..] else {
        panic!("five listings");
    };
    let page = page();
    let stages = [first, second, third];
    let buffer = stages.map(Vec::as_slice).concat();
    let call = |buffer: &[u8], lengths: &[usize], proof: &[u8], bytes: usize, count: usize| {
        let (mut out, mut sizes) = (vec![9; bytes], vec![9; count]);
        dulgaverk::guards_into(buffer, lengths, proof, &mut out, &mut sizes)?;
        Ok::<_, Refusal>((out, sizes))
    };
    let lengths = [17, 17, 17];
    let (out, sizes) = call(&buffer, &lengths, proof, 92, 4).expect("accepted");
    assert_eq!((&out, sizes), (guards, vec![23; 4]));
    assert!(page.contains("The four guards, 92 bytes, 23 each"));
    for (guard, holds) in out.chunks_exact(23).zip([true, true, true, false]) {
        assert_eq!(dulgaverk::test_formula(guard, &[2, 5]), Ok(holds));
    }

    let refused = |buffer: &[u8], lengths: &[usize], proof: &[u8], bytes, count| {
        call(buffer, lengths, proof, bytes, count).expect_err("refused")
    };
    for (words, lengths) in [
        ("the same, with lengths 17, 17 and 16", [17, 17, 16]),
        ("the same, with lengths 17, 16 and 18", [17, 16, 18]),
    ] {
        says(&page, words, refused(&buffer, &lengths, proof, 92, 4));
    }
    let mut other = buffer.clone();
    other[41] = 3;
    let refusal = refused(&other, &lengths, proof, 92, 4);
    says(&page, "the same with K 3 in T3", refusal);
    let mut claimed = proof.clone();
    claimed.splice(17..17, stages::build::claim(&[0, 1, -5], &[1, 0, -2]));
    let refusal = refused(&buffer, &lengths, &claimed, 92, 4);
    says(&page, "the same with a claim behind the first row", refusal);
    let mut open = proof.clone();
    open[29] = 3;
    let refusal = refused(&buffer, &lengths, &open, 92, 4);
    says(&page, "the same with line 3 in the close", refusal);
    for (bytes, count) in [(91, 4), (92, 3)] {
        let words = "the same, with 91 bytes for the guards, or three sizes";
        says(
            &page,
            words,
            refused(&buffer, &lengths, proof, bytes, count),
        );
    }
    let folder = PathBuf::from(env!("CARGO_MANIFEST_DIR")).join("../../examples/run-unlike");
    let file = |name: &str| fs::read(folder.join(name)).expect("a file");
    let stages = ["t1", "t2", "t3"].map(file);
    let stages: Vec<&[u8]> = stages.iter().map(Vec::as_slice).collect();
    let refusal = dulgaverk::guards(&stages, &file("proof")).expect_err("refused");
    says(&page, "`examples/run-unlike`", refusal);
}
