//! Cases made to meet each refusal of each operation, with the number that
//! each is made for.

use crate::build::*;
use crate::case::{Case, Operation};
use crate::deep::misused;
use crate::editions;
use crate::other;
use crate::printing;
use crate::rng::Rng;
use crate::rounding::{damaged, exact, rounded};
use crate::short;
use crate::stride::{closes, near_miss};
use crate::turn::mix_aimed;
use crate::turning;
use crate::vectors;
use reference::Edition;

/// A case and the number that it is made to be answered with.
pub type Aimed = (u8, Case);

/// Two small bundles over K constants, only one of which occurs. Lines:
/// 0 "x ≤ 0" and 1 "2x+1 = 0" of A, 2 "-x+1 ≤ 0" and 3 "3x+4 = 0" of B.
pub struct Base {
    pub k: u8,
    /// Which constant x is.
    place: usize,
    pub a: Vec<u8>,
    pub b: Vec<u8>,
}

impl Base {
    pub fn new(rng: &mut Rng) -> Base {
        let k = 1 + rng.below(3);
        Base::with(k as u8, rng.below(k))
    }

    pub fn with(k: u8, place: usize) -> Base {
        let mut base = Base {
            k,
            place,
            a: Vec::new(),
            b: Vec::new(),
        };
        base.a = file(k, &[base.inequality(1, 0), base.equality(2, 1)]);
        base.b = file(k, &[base.inequality(-1, 1), base.equality(3, 4)]);
        base
    }

    fn numbers(&self, coefficient: i16, d: i16) -> Vec<i16> {
        let mut numbers = vec![0; usize::from(self.k) + 1];
        numbers[self.place] = coefficient;
        numbers[usize::from(self.k)] = d;
        numbers
    }

    pub fn inequality(&self, coefficient: i16, d: i16) -> Vec<u8> {
        constraint(false, &self.numbers(coefficient, d))
    }

    pub fn equality(&self, coefficient: i16, d: i16) -> Vec<u8> {
        constraint(true, &self.numbers(coefficient, d))
    }

    /// A form of four-byte numbers.
    pub fn form(&self, coefficient: i32, d: i32) -> Vec<i32> {
        let mut numbers = vec![0; usize::from(self.k) + 1];
        numbers[self.place] = coefficient;
        numbers[usize::from(self.k)] = d;
        numbers
    }

    /// A claim of t and tA.
    pub fn claim(&self, t: (i32, i32), partial: (i32, i32)) -> Vec<u8> {
        claim(&self.form(t.0, t.1), &self.form(partial.0, partial.1))
    }

    /// A check of a proof with these fields after its header.
    pub fn check(&self, fields: &[Vec<u8>]) -> Case {
        self.check_file(file(self.k, fields))
    }

    pub fn check_file(&self, proof: Vec<u8>) -> Case {
        check(self.a.clone(), self.b.clone(), proof)
    }

    /// Rows that close the root.
    pub fn closed(&self) -> Vec<Vec<u8>> {
        vec![combine(0, 2, 1, 1), close(4)]
    }
}

pub fn check(a: Vec<u8>, b: Vec<u8>, proof: Vec<u8>) -> Case {
    Case::Check {
        a,
        b,
        proof,
        out: 65_536,
    }
}

/// The cases of one operation, in every mix of editions.
pub fn directed(rng: &mut Rng, operation: Operation) -> Vec<Aimed> {
    let mut cases = match operation {
        Operation::Check => checks(rng),
        Operation::Read => reads(rng),
        Operation::Write => writes(rng),
        Operation::Show => shows(rng),
        Operation::Test => tests(rng),
        Operation::TurnBundle | Operation::TurnProof => turning::directed(rng, operation),
        Operation::List => {
            let tests = tests(rng);
            let mut cases = vectors::from_tests(rng, tests);
            cases.extend(vectors::directed(rng));
            cases
        }
        Operation::Print | Operation::PrintWords => {
            let mut cases = printing::from_tests(operation, tests(rng));
            cases.extend(printing::directed(rng, operation));
            cases
        }
        Operation::NextProof => {
            let mut cases = short::from_shows(shows(rng));
            cases.extend(short::directed(rng));
            cases
        }
    };
    for aimed in &mut cases {
        mix_aimed(rng, aimed);
    }
    cases
}

/// Bundles that are refused, K of the sound one being given.
pub(crate) fn broken_bundles(rng: &mut Rng, base: &Base) -> Vec<(u8, Vec<u8>)> {
    let k = base.k;
    let mut lines = [base.inequality(1, 2), base.equality(3, 4)];
    if rng.chance(1, 2) {
        lines[1][0] = 0x05;
    }
    let sound = file(k, &lines);
    let cut = *rng.pick(&[1, 2]);
    let other_tag = *rng.pick(&[0x00, 0x06, 0x07, 0x10, 0x17, 0x20, 0x31, 0x7F]);
    let wrong_k = *rng.pick(&[0, 17, 255]);
    let mut late = sound.clone();
    fill(&mut late, 4_097 + rng.below(4_096));
    let mut bundles = vec![
        (1, vec![0x7F; 8_193]),
        (1, late),
        (2, sound[..sound.len() - cut].to_vec()),
        (2, [sound.clone(), vec![0x80, 0]].concat()),
        (2, [sound.clone(), vec![0x80, 0, 2, 9]].concat()),
        (2, field(0x01, &[1])),
        (2, Vec::new()),
        (3, [sound.clone(), field(other_tag, &[1])].concat()),
        (4, file(k, &[field(0x02, &[k])])),
        (4, [field(0x01, &[1]), base.inequality(1, 2)].concat()),
        (5, field(0x01, &[*rng.pick(&[0, 3, 4, 255])])),
        (6, [sound.clone(), field(0x03, &[0; 3])].concat()),
        (6, [sound.clone(), field(0x05, &[0; 3])].concat()),
        (6, field(0x01, &[1, 1])),
        (7, file(wrong_k, &[])),
        (8, file(k, &vec![base.inequality(1, -1); 33])),
    ];
    bundles.extend(editions::broken_bundles(rng, k));
    bundles
}

fn checks(rng: &mut Rng) -> Vec<Aimed> {
    let base = Base::new(rng);
    let k = base.k;
    let other_k = if k == 1 { 2 } else { k - 1 };
    let closed = base.closed();
    let proof = file(k, &closed);
    let mut cases = Vec::new();
    for (number, bundle) in broken_bundles(rng, &base) {
        let a = check(bundle.clone(), base.b.clone(), proof.clone());
        let b = check(base.a.clone(), bundle, proof.clone());
        cases.extend([(number, a), (number, b)]);
    }
    cases.push((1, base.check_file(vec![0x7F; 65_537])));
    for edition in Edition::ALL {
        let other = file_of(edition, other_k, &[]);
        cases.push((9, check(base.a.clone(), other.clone(), proof.clone())));
        cases.push((9, check(other, base.b.clone(), proof.clone())));
        cases.push((9, base.check_file(file_of(edition, other_k, &closed))));
    }

    let unknown = *rng.pick(&[0x00, 0x03, 0x04, 0x05, 0x18, 0x21, 0x31, 0x35, 0x7F]);
    let line = 4 + rng.below(252) as u8;
    let mut rows = |number: u8, fields: &[Vec<u8>]| {
        cases.push((number, base.check(fields)));
    };
    // The layout of the proof.
    rows(2, &[vec![0x12, 0, 3, 0]]);
    rows(2, &[vec![0x90]]);
    rows(3, &[field(unknown, &[])]);
    rows(3, &[closed.concat(), field(unknown, &[])]);
    for later in [
        field(0x01, &[1]),
        field(0x02, &[k]),
        scale(0, 1),
        close(4),
        base.claim((0, 1), (1, 0)),
    ] {
        rows(19, &[closed.concat(), note(), later]);
    }
    rows(4, &[field(0x01, &[1])]);
    rows(4, &[scale(0, 1), field(0x02, &[k])]);
    let claimed = base.claim((2, 0), (2, 0));
    rows(4, &[claimed.clone()]);
    rows(4, &[scale(0, 2), claimed.clone(), note(), claimed.clone()]);
    rows(4, &[strengthen(0), base.claim((1, 1), (1, 1))]);
    rows(4, &[scale(0, 2), strengthen(4), claimed.clone()]);
    let rounds = [scale(2, 5), combine(4, 4, 1, 2), combine(0, 5, 15, 1)];
    // Line 6 is 15 ≤ 0 with 15x, which 4 rounds by 1.
    rows(
        4,
        &[
            rounds.concat(),
            rounding(6, 4, 1),
            base.claim((0, 16), (15, 1)),
        ],
    );
    rows(6, &[field(0x10, &[0, 2, 0, 1, 0])]);
    rows(6, &[field(0x11, &[0, 1, 0])]);
    rows(6, &[field(0x12, &[0, 1])]);
    rows(6, &[field(0x13, &[])]);
    rows(6, &[field(0x14, &[0, 0])]);
    rows(6, &[field(0x15, &[1, 0, 2, 0])]);
    rows(6, &[field(0x16, &[2, 0, 3, 1])]);
    rows(
        6,
        &[scale(0, 2), field(0x20, &claimed[3..claimed.len() - 4])],
    );
    // The rows themselves.
    rows(10, &[combine(line, 0, 1, 1)]);
    rows(10, &[combine(1, line, 0, 0)]);
    rows(10, &[reduce(line, 0, 1)]);
    rows(10, &[reduce(0, line, 1)]);
    rows(10, &[scale(line, 0)]);
    rows(10, &[strengthen(line)]);
    rows(10, &[close(line)]);
    rows(10, &[stride(line, 0)]);
    rows(10, &[rounding(line, 0, 0)]);
    rows(10, &[strengthen(0), scale(0, 1), stride(1, 2), scale(5, 1)]);
    rows(11, &[combine(1, 0, 1, 1)]);
    rows(11, &[combine(0, 3, 0, 1)]);
    rows(11, &[reduce(1, 2, 0)]);
    rows(11, &[strengthen(3)]);
    rows(11, &[stride(0, 1)]);
    rows(11, &[rounding(3, 0, 17)]);
    rows(11, &[strengthen(0), stride(1, 2), strengthen(4)]);
    rows(12, &[combine(0, 2, 0, 1)]);
    rows(12, &[combine(0, 2, 1, 0)]);
    rows(12, &[reduce(0, 1, 0)]);
    rows(12, &[scale(3, 0)]);
    rows(12, &[stride(3, 0)]);
    rows(12, &[stride(3, 1)]);
    rows(12, &[rounding(0, 1, 1)]);
    rows(12, &[rounding(0, 2, 0)]);
    rows(12, &[rounding(0, 2, 17)]);
    rows(15, &[close(0)]);
    rows(15, &[combine(0, 2, 2, 1), close(4)]);
    rows(15, &[stride(1, 3)]);
    rows(15, &[reduce(1, 3, 1), stride(4, 5)]);
    rows(15, &[rounding(0, 2, 1)]);
    rows(17, &vec![strengthen(0); 33]);
    rows(16, &[vec![scale(0, 1); 124].concat(), scale(3, 1)]);
    rows(16, &[vec![scale(0, 1); 124].concat(), strengthen(2)]);
    rows(13, &[scale(3, 65_535), scale(4, 65_535)]);
    rows(13, &[scale(0, 65_535), combine(4, 4, 65_535, 1)]);
    rows(13, &[scale(3, 65_535), reduce(4, 4, 32_767)]);
    rows(14, &[scale(0, 2), base.claim((2, 1), (2, 0))]);
    rows(14, &[scale(0, 2), base.claim((2, 0), (1, 0))]);
    rows(14, &[reduce(2, 1, -1), base.claim((-3, 0), (-2, 0))]);
    rows(20, &[]);
    rows(20, &[combine(0, 2, 1, 1)]);
    rows(20, &[strengthen(0), stride(1, 2), stride(1, 2)]);
    cases.push((2, base.check_file(proof[..4].to_vec())));
    cases.push((2, base.check_file(Vec::new())));
    cases.push((
        4,
        base.check_file([field(0x01, &[1]), scale(0, 1)].concat()),
    ));
    cases.push((4, base.check_file(field(0x02, &[k]))));
    cases.push((
        5,
        base.check_file(field(0x01, &[*rng.pick(&[0, 3, 4, 255])])),
    ));
    cases.push((6, base.check_file(field(0x01, &[]))));
    // Rows of each edition under the other.
    for (edition, rows) in [
        (Edition::One, Layout(Edition::Two)),
        (Edition::Two, Layout(Edition::One)),
    ] {
        for row in [
            rows.combine(0, 2, 1, 1),
            rows.reduce(0, 1, 1),
            rows.scale(0, 1),
            rows.strengthen(0),
            rows.close(0),
            rows.stride(1, 2),
            rows.rounding(0, 2, 1),
            rows.split(0),
        ] {
            cases.push((6, base.check_file(file_of(edition, k, &[row]))));
        }
    }
    // Line numbers above one byte: 256 and more is not a line below.
    let second = Layout(Edition::Two);
    let far = 256 * (1 + rng.below(255)) + rng.below(4);
    for row in [
        second.combine(0, far, 0, 0),
        second.combine(far, 0, 0, 0),
        second.reduce(far, 1, 0),
        second.scale(far, 0),
        second.close(far),
        second.split(far),
    ] {
        let proof = file_of(Edition::Two, k, &[row]);
        cases.push((10, base.check_file(proof)));
    }
    cases.push((7, base.check_file(file(*rng.pick(&[0, 17, 200]), &[]))));
    cases.push((9, base.check_file(file(other_k, &[]))));
    let needed = 8 + 3 + 4 * (usize::from(k) + 1);
    for (number, out) in [(21, 0), (21, needed - 1), (0, needed)] {
        cases.push((
            number,
            Case::Check {
                a: base.a.clone(),
                b: base.b.clone(),
                proof: proof.clone(),
                out,
            },
        ));
    }
    // Stride formulas of large and negative numbers, and closes that just fail.
    for _ in 0..6 {
        cases.push((0, closes(rng).case()));
    }
    for _ in 0..2 {
        cases.push((15, near_miss(rng).case()));
    }
    // Roundings, what can be wrong with them, and a formula that is too long.
    for _ in 0..6 {
        cases.push((0, rounded(rng, 4).case()));
    }
    for _ in 0..12 {
        cases.push(damaged(rng, 4));
    }
    cases.push((1, exact(rng, 65_537)));
    cases.extend(splits(rng));
    // The long one: 341 strengthens and 683 closes after one more row.
    let mut rows = vec![scale(0, 1)];
    rows.extend(bushy(341, 1));
    cases.push((18, check(flat_a(), file(1, &[]), file(1, &rows))));
    cases
}

/// Splits and what can be wrong with them, and each older row on a disequality.
fn splits(rng: &mut Rng) -> Vec<Aimed> {
    let mut cases = Vec::new();
    let d = rng.within(-9, 9) as i16;
    // 0 "x + d ≤ 0" and 1 "1 = 0", 2 "x + d ≠ 0" and 3 "-x - d ≤ 0".
    let lines = [
        constraint(false, &[1, d]),
        constraint(true, &[0, 1]),
        disequality(&[1, d]),
        constraint(false, &[-1, -d]),
    ];
    let (of_a, of_b) = lines.split_at(rng.below(5));
    let (a, b) = (file(1, of_a), file(1, of_b));
    let mut rows = |number: u8, fields: &[Vec<u8>]| {
        cases.push((number, check(a.clone(), b.clone(), file(1, fields))));
    };
    let closed = [
        split(2),
        combine(4, 3, 1, 1),
        close(5),
        combine(4, 0, 1, 1),
        close(5),
    ];
    rows(0, &closed);
    rows(0, &[split(2), close(1), split(2), close(1), close(1)]);
    rows(19, &[closed.concat(), split(2)]);
    rows(20, &closed[..3]);
    rows(20, &closed[..1]);
    let d = i32::from(d);
    rows(4, &[split(2), claim(&[1, d + 1], &[1, d + 1])]);
    rows(6, &[field(0x17, &[])]);
    rows(6, &[field(0x17, &[2, 0])]);
    rows(10, &[split(4)]);
    rows(10, &[combine(2, 4, 0, 0)]);
    rows(10, &[reduce(4, 2, 0)]);
    rows(11, &[split(0)]);
    rows(11, &[split(1)]);
    rows(11, &[split(2), split(4)]);
    rows(16, &[vec![scale(0, 1); 124].concat(), split(2)]);
    rows(17, &vec![split(2); 33]);
    for _ in 0..8 {
        rows(11, &[misused(rng, 2)]);
    }
    // Whose it is goes by its place: 0 ≠ 0 in either bundle.
    let (with, without) = (file(1, &[disequality(&[0, 0])]), file(1, &[]));
    let proof = file(1, &[split(0), close(1), close(1)]);
    cases.push((0, check(with.clone(), without.clone(), proof.clone())));
    cases.push((0, check(without.clone(), with.clone(), proof)));
    let close_it = file(1, &[close(0)]);
    cases.push((11, check(with, without, close_it)));
    cases
}

/// A bundle with "x ≤ 0" and "1 = 0", so that line 1 closes any branch.
pub fn flat_a() -> Vec<u8> {
    file(1, &[constraint(false, &[1, 0]), constraint(true, &[0, 1])])
}

/// A closed table of strengthens of line 0 and closes of one line only.
pub fn bushy(strengthens: usize, line: u8) -> Vec<Vec<u8>> {
    let mut left = strengthens;
    let mut rows = Vec::with_capacity(3 * strengthens + 1);
    // The depth of each branch still to come.
    let mut branches = vec![0];
    while let Some(depth) = branches.pop() {
        if left > 0 && depth < 30 {
            left -= 1;
            rows.push(strengthen(0));
            branches.extend([depth + 1; 3]);
        } else {
            rows.push(close(line));
        }
    }
    rows
}

fn reads(rng: &mut Rng) -> Vec<Aimed> {
    let base = Base::new(rng);
    let mut cases: Vec<Aimed> = broken_bundles(rng, &base)
        .into_iter()
        .map(|(number, file)| {
            let case = Case::Read {
                file,
                kinds: 32,
                numbers: 544,
            };
            (number, case)
        })
        .collect();
    let width = usize::from(base.k) + 1;
    for (number, kinds, numbers) in [
        (21, 1, 2 * width),
        (21, 2, 2 * width - 1),
        (21, 0, 0),
        (0, 2, 2 * width),
        (0, 3, 2 * width + 1),
    ] {
        let file = base.a.clone();
        cases.push((
            number,
            Case::Read {
                file,
                kinds,
                numbers,
            },
        ));
    }
    cases
}

fn writes(rng: &mut Rng) -> Vec<Aimed> {
    let mut cases = Vec::new();
    for edition in Edition::ALL {
        cases.extend(writes_in(rng, edition));
    }
    cases
}

fn writes_in(rng: &mut Rng, edition: Edition) -> Vec<Aimed> {
    let k = 1 + rng.below(16) as u8;
    let width = usize::from(k) + 1;
    let mut some = || -> Vec<i32> {
        (0..2 * width)
            .map(|_| other::number(rng, edition))
            .collect()
    };
    let numbers = some();
    let outside: Vec<Vec<i32>> = match edition {
        Edition::One => [-32_769, 32_768, i32::MIN, i32::MAX].to_vec(),
        Edition::Two => [i32::MIN; 2].to_vec(),
    }
    .into_iter()
    .map(|wrong| {
        let mut numbers = some();
        numbers[width - 1] = wrong;
        numbers
    })
    .collect();
    let needed = 8 + 2 * (3 + edition.number_bytes() * width);
    let write = |edition: usize, k: usize, kinds: &[u8], numbers: &[i32], out: usize| Case::Write {
        edition,
        k,
        kinds: kinds.to_vec(),
        numbers: numbers.to_vec(),
        out,
    };
    let case = |k: usize, kinds: &[u8], numbers: &[i32], out: usize| {
        write(usize::from(edition.number()), k, kinds, numbers, out)
    };
    let kind = 3 + rng.below(253) as u8;
    let k = usize::from(k);
    // 257 and 272 have the bytes of 1 and 16.
    let wrong = *rng.pick(&[0, 3, 4, 255, 256, 257, 258, usize::MAX]);
    let beyond = *rng.pick(&[17, 255, 256, 257, 272, 1 << 32, usize::MAX]);
    let mut cases = vec![
        (5, write(wrong, 17, &[3; 33], &[i32::MIN], 0)),
        (5, write(wrong, k, &[0, 1], &numbers, needed)),
        (7, case(0, &[0], &[1], 99)),
        (7, case(17, &[2; 33], &[], 0)),
        (7, case(255, &[], &[], 8)),
        (7, case(beyond, &[], &[], 8)),
        (7, case(256 + k, &[0, 1], &numbers, needed)),
        (8, case(k, &[2; 33], &[], 0)),
        (24, case(k, &[0, kind], &numbers, 0)),
        (24, case(k, &[kind, 1, kind], &numbers, 99)),
        (24, case(k, &[0, 1], &numbers[1..], 0)),
        (24, case(k, &[0, 1, 1], &numbers, 0)),
        (24, case(k, &[], &numbers, 0)),
        (21, case(k, &[0, 1], &numbers, needed - 1)),
        (21, case(k, &[1, 1], &numbers, 0)),
        (21, case(k, &[], &[], 7)),
        (0, case(k, &[1, 0], &numbers, needed)),
        (0, case(k, &[2, 2], &numbers, needed)),
        (24, case(k, &[2, 3], &numbers, needed)),
        (0, case(k, &[], &[], 8)),
    ];
    for numbers in outside {
        cases.push((13, case(k, &[0, 1], &numbers, 0)));
        cases.push((13, case(k, &[2, 2], &numbers, needed)));
        cases.push((24, case(k, &[0, 3], &numbers, needed)));
        cases.push((24, case(k, &[0], &numbers, needed)));
    }
    cases
}

fn shows(rng: &mut Rng) -> Vec<Aimed> {
    let base = Base::new(rng);
    let show = |a: &[u8], b: &[u8], line: usize| Case::Show {
        a: a.to_vec(),
        b: b.to_vec(),
        line,
    };
    let mut cases = Vec::new();
    for (number, bundle) in broken_bundles(rng, &base) {
        let line = rng.below(6);
        cases.push((number, show(&bundle, &base.b, line)));
        cases.push((number, show(&base.a, &bundle, line)));
    }
    let other = file(if base.k == 1 { 2 } else { 1 }, &[]);
    cases.push((9, show(&base.a, &other, 0)));
    cases.push((10, show(&base.a, &base.b, 4)));
    cases.push((10, show(&base.a, &base.b, 5 + rng.below(1_000))));
    cases.push((10, show(&file(3, &[]), &file(3, &[]), 0)));
    for line in 0..4 {
        cases.push((0, show(&base.a, &base.b, line)));
    }
    cases
}

fn tests(rng: &mut Rng) -> Vec<Aimed> {
    let base = Base::new(rng);
    let k = base.k;
    let values = vec![rng.within(-5, 5) as i32; usize::from(k)];
    let leaf = comparison(rng.chance(1, 2), &base.form(1, 2));
    let whole = file(k, &[or(), leaf.clone(), leaf.clone()]);
    let unknown = *rng.pick(&[0x00, 0x03, 0x04, 0x10, 0x14, 0x20, 0x30, 0x36, 0x7F]);
    let other_k = if k == 1 { 2 } else { k - 1 };
    let mut outside = values.clone();
    let place = rng.below(outside.len());
    outside[place] = *rng.pick(&[1_000_001, -1_000_001, i32::MIN, i32::MAX]);
    let mut cases = Vec::new();
    let mut push = |number: u8, formula: Vec<u8>, values: &[i32]| {
        let values = values.to_vec();
        cases.push((number, Case::Test { formula, values }));
    };
    push(7, whole.clone(), &[]);
    push(7, vec![9], &[2_000_000; 17]);
    push(23, vec![9], &outside);
    push(1, vec![0x7F; 65_537], &values);
    let mut file_case = |number: u8, fields: &[Vec<u8>]| push(number, file(k, fields), &values);
    file_case(2, &[]);
    file_case(2, &[note()]);
    file_case(2, &[or()]);
    file_case(2, &[and(), leaf.clone()]);
    file_case(2, &[leaf.clone(), vec![0x80, 0, 1]]);
    file_case(2, &[vec![0x33, 0, 8, 0]]);
    file_case(3, &[field(unknown, &[])]);
    file_case(3, &[leaf.clone(), field(unknown, &[])]);
    for later in [leaf.clone(), and(), field(0x01, &[1]), field(0x02, &[])] {
        file_case(19, &[leaf.clone(), later]);
    }
    file_case(4, &[field(0x01, &[1])]);
    file_case(4, &[or(), field(0x02, &[k])]);
    file_case(6, &[field(0x31, &[0])]);
    file_case(6, &[field(0x33, &[0; 4])]);
    file_case(6, &[field(0x34, &[0; 200])]);
    file_case(6, &[field(0x35, &vec![2; 4 * (usize::from(k) + 1)])]);
    for g in [1, 0, -1, -2, i32::MIN] {
        file_case(12, &[or(), leaf.clone(), divides(g, &base.form(1, 0))]);
    }
    file_case(17, &[vec![or(); 300].concat(), vec![and(); 301].concat()]);
    push(2, field(0x01, &[1]), &values);
    push(2, Vec::new(), &values);
    push(4, leaf.clone(), &values);
    push(4, [field(0x01, &[1]), leaf.clone()].concat(), &values);
    push(5, field(0x01, &[*rng.pick(&[0, 2, 3, 255])]), &values);
    push(5, file_of(Edition::Two, k, &[leaf.clone()]), &values);
    push(7, file(*rng.pick(&[0, 17]), &[leaf.clone()]), &values);
    push(9, file(other_k, &[]), &values);
    push(0, whole, &values);
    cases
}
