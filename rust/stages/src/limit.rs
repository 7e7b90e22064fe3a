//! Both sides of each limit. The light ones have files of at most 2,000
//! bytes, the heavy ones go up to the longest files.

use crate::build::*;
use crate::case::{Case, Operation};
use crate::directed::{bushy, check, flat_a, Aimed, Base};
use crate::editions;
use crate::other;
use crate::rng::Rng;
use crate::rounding::{exact, MOST};
use crate::table::{closed_table, Size, Table};
use crate::turn::mix_aimed;
use crate::turning;
use crate::vectors;
use crate::{printing, short};
use reference::Edition;

/// The cases of one operation with short files, in every mix of editions.
pub fn light(rng: &mut Rng, operation: Operation) -> Vec<Aimed> {
    let mut cases = match operation {
        Operation::Check => light_checks(rng),
        Operation::Read => reads(rng, 1),
        Operation::Write => writes(rng),
        Operation::Show => shows(1),
        Operation::Test => light_tests(rng),
        Operation::TurnBundle | Operation::TurnProof => turning::light(rng, operation),
        Operation::List => {
            let tests = light_tests(rng);
            vectors::from_tests(rng, tests)
        }
        Operation::Print | Operation::PrintWords => {
            printing::from_tests(operation, light_tests(rng))
        }
        Operation::NextProof => {
            let mut cases = short::from_shows(shows(1));
            cases.extend(short::light(rng));
            cases
        }
    };
    cases.extend(editions::light(rng, operation));
    for aimed in &mut cases {
        mix_aimed(rng, aimed);
    }
    cases
}

/// The cases of one operation with long files, likewise.
pub fn heavy(rng: &mut Rng, operation: Operation) -> Vec<Aimed> {
    let mut cases = match operation {
        Operation::Check => heavy_checks(rng),
        Operation::Read => heavy_reads(rng),
        Operation::Write => Vec::new(),
        Operation::Show => heavy_shows(rng),
        Operation::Test => heavy_tests(rng),
        Operation::TurnBundle | Operation::TurnProof => turning::heavy(rng, operation),
        Operation::List => {
            let tests = heavy_tests(rng);
            vectors::from_tests(rng, tests)
        }
        Operation::Print | Operation::PrintWords => {
            printing::from_tests(operation, heavy_tests(rng))
        }
        Operation::NextProof => short::from_shows(heavy_shows(rng)),
    };
    for aimed in &mut cases {
        mix_aimed(rng, aimed);
    }
    // These have their editions already, and are long by them.
    cases.extend(editions::heavy(rng, operation));
    cases
}

/// So many strengthens, each in the given branch of the one before, and all
/// branches closed by line 1.
fn nested(count: usize, branch: usize) -> Vec<Vec<u8>> {
    let mut rows = Vec::new();
    for _ in 0..count {
        rows.push(strengthen(0));
        rows.extend(vec![close(1); branch]);
    }
    rows.extend(vec![close(1); 1 + count * (2 - branch)]);
    rows
}

/// "17x + 1 ≤ 0", which may be rounded by 17 and any amount, "1 = 0", and
/// "x ≠ 0".
fn rounded_a() -> Vec<u8> {
    let distinct = disequality(&[1, 0]);
    file(
        1,
        &[
            constraint(false, &[17, 1]),
            constraint(true, &[0, 1]),
            distinct,
        ],
    )
}

/// So many steps, strengthens, splits and roundings by at most so much mixed,
/// each in a random branch of the one before, and all branches closed by line 1.
fn mixed(rng: &mut Rng, count: usize, most: usize) -> Vec<Vec<u8>> {
    let mut rows = Vec::new();
    let mut waiting = 1;
    for _ in 0..count {
        let (row, branches) = match rng.below(most + 2) {
            0 => (strengthen(0), 3),
            1 => (split(2), 2),
            more => (rounding(0, 17, more as u16 - 1), more),
        };
        rows.push(row);
        let branch = rng.below(branches);
        rows.extend(vec![close(1); branch]);
        waiting += branches - 1 - branch;
    }
    rows.extend(vec![close(1); waiting]);
    rows
}

/// What a rounding asks for, and how far it may go.
fn roundings(rng: &mut Rng) -> Vec<Aimed> {
    let mut cases = Vec::new();
    let over = |rows: Vec<Vec<u8>>| check(rounded_a(), file(1, &[]), file(1, &rows));
    let whole = |row: Vec<u8>, k: usize| [vec![row], vec![close(1); k + 1]].concat();
    // k, and g with coefficients that every g divides.
    for k in [1, 2, 15, 16] {
        cases.push((0, over(whole(rounding(0, 17, k as u16), k))));
        for g in [17, 18, 32_767, 32_768, 65_535] {
            let a = file(1, &[constraint(false, &[0, 1]), constraint(true, &[0, 1])]);
            let rows = whole(rounding(0, g, k as u16), k);
            cases.push((0, check(file(1, &[]), a, file(1, &rows))));
        }
    }
    for k in [0, 17, 18, 256, 257, 65_535] {
        cases.push((12, over(whole(rounding(0, 17, k), 16))));
    }
    let odd = file(1, &[constraint(false, &[2, 1]), constraint(true, &[0, 1])]);
    for (number, g, k) in [(12, 0, 1), (12, 1, 1), (0, 2, 1), (15, 2, 2), (15, 3, 1)] {
        let proof = file(1, &whole(rounding(0, g, k), usize::from(k)));
        cases.push((number, check(odd.clone(), file(1, &[]), proof)));
    }
    // 17 divides d + k: a rounding by k stands, by one more it does not.
    for k in 1..=MOST as i16 {
        let a = file(
            1,
            &[constraint(false, &[-34, 17 - k]), constraint(true, &[0, 1])],
        );
        let stage = |by: i16| {
            let rows = whole(rounding(0, 17, by as u16), by as usize);
            check(a.clone(), file(1, &[]), file(1, &rows))
        };
        cases.push((0, stage(k)));
        cases.push((if k == 16 { 12 } else { 15 }, stage(k + 1)));
    }
    // Open steps, mixed.
    for most in [1, 2, 3] {
        cases.push((0, over(mixed(rng, 32, most))));
        cases.push((17, over(mixed(rng, 33, most))));
    }
    // The 128th line in each branch, and the 129th.
    let k = 1 + rng.below(MOST);
    let row = rounding(0, 17, k as u16);
    let full = |scales: usize| vec![scale(0, 1); scales];
    cases.push((0, over([full(124), whole(row.clone(), k)].concat())));
    cases.push((16, over([full(125), whole(row.clone(), k)].concat())));
    let branch = rng.below(k + 1);
    let inside = [full(124), vec![row], vec![close(1); branch], full(1)].concat();
    cases.push((16, over(inside)));
    cases
}

/// Splits as deep as may be, on the last line and at the ends of two bytes.
fn splits() -> Vec<Aimed> {
    let mut cases = Vec::new();
    let lines = [constraint(true, &[0, 1]), disequality(&[1, 0])];
    for of_a in 0..3 {
        let (a, b) = lines.split_at(of_a);
        let over = |rows: Vec<Vec<u8>>| check(file(1, a), file(1, b), file(1, &rows));
        for branch in 0..2 {
            let rows = |count: usize| {
                let step = [vec![split(1)], vec![close(0); branch]].concat();
                let ends = vec![close(0); 1 + count * (1 - branch)];
                [vec![step; count].concat(), ends].concat()
            };
            cases.extend([(0, over(rows(32))), (17, over(rows(33)))]);
        }
        for (number, made) in [(0, 125), (16, 126)] {
            let rows = [vec![scale(0, 1); made], vec![split(1), close(0), close(0)]];
            cases.push((number, over(rows.concat())));
        }
    }
    for d in [-32_768, -32_767, -1, 0, 1, 32_767] {
        let with = file(1, &[disequality(&[d, d]), constraint(true, &[0, 1])]);
        let proof = file(1, &[split(0), close(1), close(1)]);
        let without = file(1, &[]);
        cases.push((0, check(with.clone(), without.clone(), proof.clone())));
        cases.push((0, check(without, with, proof)));
    }
    for (number, count) in [(0, 32), (8, 33)] {
        let many = file(1, &vec![disequality(&[0, 0]); count]);
        let proof = file(1, &[split(31), close(32), close(32)]);
        cases.push((number, check(many, file(1, &[]), proof)));
    }
    cases
}

/// A rounding's t + k and tA + k at the end of the range and one past it.
fn rounded_ranges() -> Vec<Aimed> {
    let a = file(
        1,
        &[constraint(false, &[0, 32_767]), constraint(false, &[0, 1])],
    );
    let b = file(
        1,
        &[constraint(false, &[0, 1]), constraint(false, &[0, -9])],
    );
    let mut cases = Vec::new();
    for k in [1, 2, 7, 16] {
        // Line 5 has d at the end of the range less k and some, of A alone.
        let up_to = |less: u16| {
            let rest = 65_535 - k - less;
            vec![combine(0, 1, 65_535, 32_767), combine(4, 1, 1, rest)]
        };
        let most = i64::from(i32::MAX) - i64::from(k);
        let mut stage = |number: u8, rows: Vec<Vec<u8>>, line: u8, d: i64| {
            // A stride that lets the rounding go so far.
            let fits = |g: &u16| (-d).rem_euclid(i64::from(*g)) >= i64::from(k);
            let g = (17..).find(fits).unwrap_or(17);
            let row = rounding(line, g, k);
            let ends = vec![close(line + 1); usize::from(k) + 1];
            let proof = file(1, &[rows, vec![row], ends].concat());
            cases.push((number, check(a.clone(), b.clone(), proof)));
        };
        let one_more = || [up_to(0), vec![combine(5, 1, 1, 1)]].concat();
        stage(0, up_to(1), 5, most - 1);
        stage(0, up_to(0), 5, most);
        stage(13, one_more(), 6, most + 1);
        // t alone, and tA alone.
        let t_alone = [up_to(0), vec![combine(5, 2, 1, 1)]].concat();
        stage(13, t_alone, 6, most + 1);
        let stands = [up_to(0), vec![combine(5, 3, 1, 1)]].concat();
        stage(0, stands, 6, most - 9);
        let partial_alone = [one_more(), vec![combine(6, 3, 1, 1)]].concat();
        stage(13, partial_alone, 7, most + 1 - 9);
    }
    cases
}

fn light_checks(rng: &mut Rng) -> Vec<Aimed> {
    let mut cases = roundings(rng);
    cases.extend(rounded_ranges());
    cases.extend(splits());
    let flat = |rows: Vec<Vec<u8>>| check(flat_a(), file(1, &[]), file(1, &rows));
    // K.
    for k in [1, 2, 15, 16] {
        let base = Base::with(k, rng.below(usize::from(k)));
        cases.push((0, base.check(&base.closed())));
    }
    for k in [0, 17, 255] {
        let base = Base::with(k, 0);
        cases.push((7, base.check(&[])));
    }
    // Constraints: 32 and 33 in A and in B.
    let base = Base::with(1, 0);
    for count in [32, 33] {
        let many = file(1, &vec![base.inequality(-1, 1); count]);
        let number = if count == 32 { 0 } else { 8 };
        let closed = file(1, &[combine(0, 32, 1, 1), close(34)]);
        cases.push((number, check(many.clone(), base.a.clone(), closed)));
        let closed = file(1, &[combine(0, 2, 1, 1), close(34)]);
        cases.push((number, check(base.a.clone(), many, closed)));
    }
    // Lines: 2 of A, then up to 128 and one more.
    let full = vec![scale(0, 1); 126];
    for (number, row) in [
        (0, close(1)),
        (15, close(127)),
        (10, scale(128, 1)),
        (10, scale(255, 1)),
        (16, scale(1, 1)),
        (16, combine(0, 0, 1, 1)),
        (16, reduce(0, 1, 1)),
        (16, strengthen(0)),
    ] {
        cases.push((number, flat([full.clone(), vec![row]].concat())));
    }
    let mut branches = vec![vec![scale(0, 1); 60].concat(), strengthen(0)];
    for _ in 0..3 {
        branches.extend([vec![scale(2, 1); 65].concat(), close(1)]);
    }
    cases.push((0, flat(branches.clone())));
    branches.insert(6, scale(62, 1));
    cases.push((16, flat(branches)));
    let one = file(1, &vec![constraint(true, &[0, 1]); 32]);
    for (number, scales) in [(0, 64), (16, 65)] {
        let rows = [vec![scale(63, 2); scales].concat(), close(127)];
        cases.push((number, check(one.clone(), one.clone(), file(1, &rows))));
    }
    // Open strengthens.
    for branch in 0..3 {
        cases.push((0, flat(nested(32, branch))));
        cases.push((17, flat(nested(33, branch))));
    }
    let mut again = vec![strengthen(0); 32];
    again.extend([close(1), close(1), close(1), strengthen(0)]);
    cases.push((20, flat(again.clone())));
    again.truncate(34);
    again.push(strengthen(0));
    cases.push((17, flat(again)));
    // The range of numbers, at both ends.
    for sign in [1, -1] {
        let a = file(
            1,
            &[
                constraint(false, &[sign * 32_767, 0]),
                constraint(false, &[sign, 0]),
            ],
        );
        let most = i32::from(sign) * i32::MAX;
        let limit = claim(&[most, 0], &[most, 0]);
        let rows = [
            combine(0, 1, 65_535, 32_767),
            combine(2, 1, 1, 65_535),
            limit,
        ];
        for (number, row) in [
            (20, note()),
            (13, combine(3, 1, 1, 1)),
            (13, combine(3, 1, 1, 2)),
            (13, scale(3, 2)),
            (20, scale(3, 1)),
            (20, strengthen(3)),
        ] {
            let proof = file(1, &[rows.concat(), row]);
            cases.push((number, check(a.clone(), file(1, &[]), proof)));
        }
    }
    // The same for d, where a strengthen counts: in t and tA, in t, in tA.
    let a = file(
        1,
        &[constraint(false, &[0, 32_767]), constraint(false, &[0, 1])],
    );
    let b = file(
        1,
        &[constraint(false, &[0, 1]), constraint(false, &[0, -9])],
    );
    let rows = [combine(0, 1, 65_535, 32_767), combine(4, 1, 1, 65_534)].concat();
    for (number, more) in [
        (20, vec![strengthen(5)]),
        (20, vec![strengthen(5), close(6), close(6)]),
        (0, vec![strengthen(5), close(6), close(6), close(6)]),
        (13, vec![combine(5, 1, 1, 1), strengthen(6)]),
        (13, vec![combine(5, 2, 1, 1), strengthen(6)]),
        (
            13,
            vec![combine(5, 3, 1, 1), combine(6, 1, 1, 1), strengthen(7)],
        ),
        (13, vec![strengthen(5), strengthen(6)]),
    ] {
        let proof = file(1, &[rows.clone(), more.concat()]);
        cases.push((number, check(a.clone(), b.clone(), proof)));
    }
    // Stage 9.
    let a = file(1, &[constraint(false, &[-32_768, 0])]);
    let stands = [
        scale(0, 65_535),
        claim(&[-2_147_450_880, 0], &[-2_147_450_880, 0]),
    ]
    .concat();
    let stage = |row: Vec<u8>| check(a.clone(), file(1, &[]), file(1, &[stands.clone(), row]));
    cases.push((20, stage(Vec::new())));
    cases.push((13, stage(scale(1, 2))));
    // Multipliers and strides.
    let base = Base::new(rng);
    for (row, t, partial) in [
        (combine(0, 2, 65_535, 1), (65_534, 1), (65_535, 0)),
        (combine(0, 2, 1, 65_535), (-65_534, 65_535), (1, 0)),
        (combine(0, 2, 32_768, 32_768), (0, 32_768), (32_768, 0)),
        (reduce(2, 1, 32_767), (65_533, 32_768), (65_534, 32_767)),
        (
            reduce(2, 1, -32_768),
            (-65_537, -32_767),
            (-65_536, -32_768),
        ),
        (reduce(2, 1, -1), (-3, 0), (-2, -1)),
        (scale(2, 65_535), (-65_535, 65_535), (0, 0)),
        (scale(1, 32_768), (65_536, 32_768), (65_536, 32_768)),
    ] {
        cases.push((20, base.check(&[row, base.claim(t, partial)])));
    }
    for g in [2, 32_767, 32_768, 65_535] {
        let proof = file(1, &[stride(1, g)]);
        cases.push((0, check(flat_a(), file(1, &[]), proof)));
    }
    cases
}

fn heavy_checks(rng: &mut Rng) -> Vec<Aimed> {
    let mut cases = Vec::new();
    let flat = |rows: Vec<Vec<u8>>| check(flat_a(), file(1, &[]), file(1, &rows));
    // Rows.
    cases.push((0, flat(bushy(341, 1))));
    let mut rows = bushy(341, 1);
    rows.push(close(1));
    cases.push((19, flat(rows.clone())));
    rows.insert(0, scale(0, 1));
    cases.push((18, flat(rows.clone())));
    rows.truncate(1_024);
    cases.push((20, flat(rows.clone())));
    rows.push(field(0x14, &[]));
    cases.push((6, flat(rows)));
    // The longest formula: 683 strides with 16 constants.
    let mut numbers = vec![0; 17];
    numbers[16] = 1;
    let a = file(
        16,
        &[constraint(false, &numbers), constraint(true, &numbers)],
    );
    let rows: Vec<Vec<u8>> = bushy(341, 1)
        .into_iter()
        .map(|row| if row[0] == 0x14 { stride(1, 7) } else { row })
        .collect();
    let needed = 8 + 341 * 6 + 683 * 75;
    for (number, out) in [(0, needed), (21, needed - 1)] {
        cases.push((
            number,
            Case::Check {
                a: a.clone(),
                b: file(16, &[]),
                proof: file(16, &rows),
                out,
            },
        ));
    }
    // The longest formula that is accepted, and longer ones.
    for (number, bytes, out) in [
        (0, 65_535, 65_535),
        (0, 65_535, 65_536),
        (21, 65_535, 65_534),
        (21, 65_535, 0),
        (0, 65_533, 65_533),
        (21, 65_533, 65_532),
        (0, 65_531, 65_531),
        (1, 65_537, 65_536),
        (1, 65_537, 65_537),
        (1, 65_537, 0),
        (1, 65_539, 65_536),
        (1, 65_539, 65_539),
        (1, 65_539, 65_538),
        (1, 65_539, 0),
        (1, 65_543, 70_000),
    ] {
        if let Case::Check { a, b, proof, .. } = exact(rng, bytes) {
            cases.push((number, Case::Check { a, b, proof, out }));
        }
    }
    cases.extend(many_roundings(rng));
    // File lengths.
    let base = Base::new(rng);
    let proof = file(base.k, &base.closed());
    for (number, length) in [(0, 4_096), (1, 4_097)] {
        let (mut a, mut b) = (base.a.clone(), base.b.clone());
        fill(&mut a, length);
        fill(&mut b, length);
        cases.push((number, check(a, base.b.clone(), proof.clone())));
        cases.push((number, check(base.a.clone(), b, proof.clone())));
    }
    for (number, length) in [(0, 65_536), (1, 65_537)] {
        let mut long = proof.clone();
        fill(&mut long, length);
        cases.push((number, base.check_file(long)));
        let mut long = header(base.k);
        fill(&mut long, length - 13);
        long.extend(base.closed().concat());
        cases.push((number, base.check_file(long)));
    }
    // Many lines with claims at 16 constants.
    let t: Vec<i32> = numbers.iter().map(|&n| i32::from(n)).collect();
    let rows = vec![[scale(0, 1), claim(&t, &t)].concat(); 126];
    for (number, row) in [(0, close(127)), (16, scale(0, 1))] {
        let proof = file(16, &[rows.concat(), row]);
        cases.push((number, check(a.clone(), file(16, &[]), proof)));
    }
    for _ in 0..6 {
        let Table { a, b, proof, .. } = closed_table(rng, &Size::LARGE);
        cases.push((0, check(a, b, proof)));
    }
    cases
}

/// As many roundings by 16 as may be open, and as many as rows allow.
fn many_roundings(rng: &mut Rng) -> Vec<Aimed> {
    let mut cases = Vec::new();
    let most = MOST as u16;
    // In the first branch, and in the last.
    for branch in [0, MOST] {
        let rows = |count: usize| {
            let step = [vec![rounding(0, 17, most)], vec![close(1); branch]].concat();
            let mut rows = vec![step; count].concat();
            rows.extend(vec![close(1); 1 + count * (MOST - branch)]);
            rows
        };
        for (k, number) in [(1, 0), (12, 0), (13, 1), (16, 1)] {
            let mut rounds = vec![0; usize::from(k) + 1];
            let mut ends = rounds.clone();
            (rounds[usize::from(k)], ends[usize::from(k)]) = (1, 1);
            let b = file(k, &[constraint(false, &rounds), constraint(true, &ends)]);
            let stage = |count| check(file(k, &[]), b.clone(), file(k, &rows(count)));
            cases.extend([(number, stage(32)), (17, stage(33))]);
        }
    }
    for count in [32, 33] {
        let rows = mixed(rng, count, MOST);
        let number = if count == 32 { 0 } else { 17 };
        cases.push((number, check(rounded_a(), file(1, &[]), file(1, &rows))));
    }
    // 60 roundings by 16 and 961 closes by stride, and three rows more: too
    // long by far for 16 constants, and not for 1.
    let mut rows = vec![scale(0, 1); 3];
    for _ in 0..30 {
        rows.extend([rounding(0, 17, most), rounding(0, 17, most)]);
        rows.extend(vec![stride(1, 7); 31]);
    }
    rows.extend(vec![stride(1, 7); 31]);
    for (k, number, out) in [
        (1, 0, 65_536),
        (16, 1, 65_536),
        (16, 1, 200_000),
        (16, 1, 0),
    ] {
        let mut rounds = vec![0; usize::from(k) + 1];
        rounds[usize::from(k)] = 1;
        let lines = [constraint(false, &rounds), constraint(true, &rounds)];
        let case = Case::Check {
            a: file(k, &lines),
            b: file(k, &[]),
            proof: file(k, &rows),
            out,
        };
        cases.push((number, case));
    }
    cases
}

/// Reads of bundles with K and constraints at their limits.
fn reads(rng: &mut Rng, k: u8) -> Vec<Aimed> {
    let mut cases = Vec::new();
    let mut push = |number: u8, file: Vec<u8>, kinds: usize, numbers: usize| {
        let case = Case::Read {
            file,
            kinds,
            numbers,
        };
        cases.push((number, case));
    };
    for k in [0, 1, 16, 17, 255] {
        let numbers: Vec<i16> = (0..=k).map(|_| rng.word() as i16).collect();
        let number = if (1..=16).contains(&k) { 0 } else { 7 };
        push(number, file(k as u8, &[constraint(true, &numbers)]), 1, 17);
    }
    let width = usize::from(k) + 1;
    let row = constraint(false, &vec![-1; width]);
    let full = file(k, &vec![row.clone(); 32]);
    push(0, full.clone(), 32, 32 * width);
    push(21, full.clone(), 31, 32 * width);
    push(21, full.clone(), 32, 32 * width - 1);
    push(8, [full.clone(), row].concat(), 40, 700);
    push(6, [full, constraint(false, &[1])].concat(), 40, 700);
    cases
}

fn heavy_reads(rng: &mut Rng) -> Vec<Aimed> {
    let mut cases = reads(rng, 16);
    let base = Base::new(rng);
    for (number, length) in [(0, 4_096), (1, 4_097)] {
        // One long note, and very many short ones.
        for start in [base.a.clone(), file(1, &[[0x80, 0, 0].repeat(1_360)])] {
            let mut file = start;
            fill(&mut file, length);
            cases.push((
                number,
                Case::Read {
                    file,
                    kinds: 32,
                    numbers: 544,
                },
            ));
        }
    }
    cases
}

fn writes(rng: &mut Rng) -> Vec<Aimed> {
    let mut cases = Vec::new();
    for edition in Edition::ALL {
        cases.extend(writes_in(rng, edition));
    }
    cases
}

fn writes_in(rng: &mut Rng, edition: Edition) -> Vec<Aimed> {
    let mut cases = Vec::new();
    for k in [0u8, 1, 16, 17] {
        for count in [31usize, 32, 33] {
            let width = usize::from(k) + 1;
            let needed = 8 + count * (3 + edition.number_bytes() * width);
            let number = match (k, count) {
                (0 | 17, _) => 7,
                (_, 33) => 8,
                _ => 0,
            };
            for (number, out) in [(number, needed), (21, needed - 1)] {
                // One below is of interest only where the rest is right.
                if number == 21 && !((1..=16).contains(&k) && count <= 32) {
                    continue;
                }
                let numbers = (0..count * width).map(|_| other::number(rng, edition));
                let case = Case::Write {
                    edition: usize::from(edition.number()),
                    k: usize::from(k),
                    kinds: (0..count).map(|i| (i % 3) as u8).collect(),
                    numbers: numbers.collect(),
                    out,
                };
                cases.push((number, case));
            }
        }
    }
    cases
}

fn shows(k: u8) -> Vec<Aimed> {
    let width = usize::from(k) + 1;
    let full = file(k, &vec![constraint(true, &vec![3; width]); 32]);
    let empty = file(k, &[]);
    let mut cases = Vec::new();
    for (a, b, line, number) in [
        (&full, &full, 0, 0),
        (&full, &full, 31, 0),
        (&full, &full, 32, 0),
        (&full, &full, 63, 0),
        (&full, &full, 64, 10),
        (&full, &full, 255, 10),
        (&full, &full, 65_535, 10),
        (&full, &full, 65_536, 10),
        (&full, &full, 1_000_000, 10),
        (&full, &full, usize::MAX, 10),
        (&empty, &full, 31, 0),
        (&empty, &full, 32, 10),
        (&full, &empty, 32, 10),
        (&empty, &empty, 0, 10),
    ] {
        let case = Case::Show {
            a: a.clone(),
            b: b.clone(),
            line,
        };
        cases.push((number, case));
    }
    cases
}

fn heavy_shows(rng: &mut Rng) -> Vec<Aimed> {
    let mut cases = shows(16);
    let base = Base::new(rng);
    for (number, length) in [(0, 4_096), (1, 4_097)] {
        let (mut a, mut b) = (base.a.clone(), base.b.clone());
        fill(&mut a, length);
        fill(&mut b, length);
        for line in [0, 3] {
            let first = Case::Show {
                a: a.clone(),
                b: base.b.clone(),
                line,
            };
            let second = Case::Show {
                a: base.a.clone(),
                b: b.clone(),
                line,
            };
            cases.extend([(number, first), (number, second)]);
        }
    }
    cases
}

fn light_tests(rng: &mut Rng) -> Vec<Aimed> {
    let mut cases = Vec::new();
    let mut push = |number: u8, formula: Vec<u8>, values: Vec<i32>| {
        cases.push((number, Case::Test { formula, values }));
    };
    let leaf = comparison(false, &[1, 0]);
    for value in [-1_000_001_i32, -1_000_000, 1_000_000, 1_000_001] {
        let number = if value.abs() > 1_000_000 { 23 } else { 0 };
        push(number, file(1, &[leaf.clone()]), vec![value]);
    }
    for k in [1, 16] {
        let numbers: Vec<i32> = (0..=k).map(|_| rng.word() as i32).collect();
        push(
            0,
            file(k as u8, &[divides(3, &numbers)]),
            vec![-1_000_000; k],
        );
        push(
            0,
            file(k as u8, &[comparison(false, &vec![i32::MIN; k + 1])]),
            vec![1_000_000; k],
        );
        push(
            0,
            file(k as u8, &[comparison(false, &vec![i32::MAX; k + 1])]),
            vec![1_000_000; k],
        );
        push(
            0,
            file(k as u8, &[comparison(true, &vec![i32::MIN; k + 1])]),
            vec![2; k],
        );
    }
    push(7, file(17, &[comparison(true, &[0; 18])]), vec![0; 17]);
    push(7, file(17, &[comparison(true, &[0; 18])]), vec![0; 16]);
    push(7, file(0, &[comparison(true, &[0])]), vec![]);
    for g in [i32::MIN, -2, -1, 0, 1, 2, 65_535, 65_536, i32::MAX] {
        let number = if g < 2 { 12 } else { 0 };
        push(number, file(1, &[divides(g, &[1, 0])]), vec![65_536]);
    }
    for levels in [63, 64, 65, 100] {
        for formula in nested_both_ways(rng, levels) {
            push(0, formula, vec![levels as i32 % 2]);
        }
    }
    // Without their parts, which would make the file long.
    push(2, file(1, &[or().repeat(600)]), vec![0]);
    push(17, file(1, &[or().repeat(601)]), vec![0]);
    cases
}

/// Formulas of so many levels, in the second parts and in the first.
fn nested_both_ways(rng: &mut Rng, levels: usize) -> [Vec<u8>; 2] {
    let leaf = comparison(false, &[1, 0]);
    let junction = if rng.chance(1, 2) { or() } else { and() };
    let second = [
        [junction.clone(), leaf.clone()].concat().repeat(levels),
        leaf.clone(),
    ];
    let first = [junction.repeat(levels), leaf.repeat(levels + 1)];
    [file(1, &second), file(1, &first)]
}

fn heavy_tests(rng: &mut Rng) -> Vec<Aimed> {
    let mut cases = Vec::new();
    let leaf = comparison(false, &[1, 0]);
    for (number, length) in [(0, 65_536), (1, 65_537)] {
        let mut long = file(1, &[leaf.clone()]);
        fill(&mut long, length);
        let case = Case::Test {
            formula: long,
            values: vec![3],
        };
        cases.push((number, case));
    }
    for (number, levels) in [(0, 599), (0, 600), (17, 601)] {
        for formula in nested_both_ways(rng, levels) {
            let values = vec![levels as i32 % 2];
            cases.push((number, Case::Test { formula, values }));
        }
    }
    // Many parts: a full tree of ten levels.
    for k in [1, 3] {
        let numbers: Vec<i32> = (0..=k).map(|_| rng.word() as i32).collect();
        let mut formula = header(k as u8);
        let mut levels = vec![0];
        while let Some(level) = levels.pop() {
            if level < 10 {
                formula.extend(if level % 2 == 0 { or() } else { and() });
                levels.extend([level + 1; 2]);
            } else {
                formula.extend(comparison(rng.chance(1, 2), &numbers));
            }
        }
        let values = vec![2; k];
        cases.push((0, Case::Test { formula, values }));
    }
    cases
}
