//! Runs of stages, and proofs with rows that nothing uses: what the generators make.

use reference::{check, guards, shorten, Answer};
use stages::rng::Rng;
use stages::runs::{self, Run};
use stages::table::{closed_table, Size};
use stages::unused::{pad, Shortening};
use std::collections::BTreeMap;

fn answer(run: &Run) -> Answer {
    let (mut out, mut sizes) = (vec![0; 17 * 65_536], [0; 17]);
    guards(&run.buffer, &run.lengths, &run.proof, &mut out, &mut sizes).answer
}

/// How often each number is answered.
fn numbers(count: usize, mut make: impl FnMut(&mut Rng) -> Run) -> BTreeMap<u8, usize> {
    let mut rng = Rng::new(3);
    let mut found = BTreeMap::new();
    for _ in 0..count {
        *found.entry(answer(&make(&mut rng)).number).or_default() += 1;
    }
    found
}

/// At least so many of each number, and no others.
fn just(found: &BTreeMap<u8, usize>, wanted: &[(u8, usize)]) {
    let known: Vec<u8> = wanted.iter().map(|&(number, _)| number).collect();
    assert!(found.keys().copied().eq(known), "{found:?}");
    for (number, least) in wanted {
        assert!(found[number] >= *least, "{found:?}");
    }
}

/// Nearly all are accepted; a number may leave the range in some cut.
#[test]
fn sound_runs() {
    for (size, count) in [
        (Size::SMALL, 2_000),
        (Size::MEDIUM, 500),
        (Size::LARGE, 100),
    ] {
        let mut found = numbers(count, |rng| runs::sound(rng, &size));
        let others = found.split_off(&1);
        assert!(found[&0] >= count * 9 / 10, "{found:?} {others:?}");
    }
}

/// Some are told by 28, and some are accepted: the branches that differ need not be alike.
#[test]
fn unlike_branches() {
    let found = numbers(2_000, |rng| runs::unlike(rng, &Size::SMALL));
    assert!(found[&0] >= 500 && found[&28] >= 200, "{found:?}");
}

#[test]
fn claims() {
    let found = numbers(1_000, |rng| runs::claimed(rng, &Size::SMALL));
    assert!(found[&27] >= 250 && found[&4] >= 100, "{found:?}");
    assert!(found[&6] >= 10 && found[&19] >= 10, "{found:?}");
    assert!(!found.contains_key(&14), "{found:?}");
}

/// In some cuts a number is out of range, in others it is not: a check of these is accepted.
#[test]
fn out_of_range_in_some_cuts() {
    let mut rng = Rng::new(4);
    let mut alone = 0;
    for _ in 0..2_000 {
        let run = runs::out_of_range(&mut rng);
        let all = answer(&run).number;
        assert!(all == 0 || all == 13, "{all}");
        if all != 13 {
            continue;
        }
        let stages: Vec<_> = run
            .stages()
            .into_iter()
            .map(stages::unused::constraints)
            .collect();
        let k = usize::from(run.proof[7]);
        let mut out_of_range = 0;
        for cut in 0..=stages.len() {
            let (own, theirs) = stages.split_at(cut);
            let a = runs::bundle(&mut rng, k, &own.concat());
            let b = runs::bundle(&mut rng, k, &theirs.concat());
            let number = check(&a, &b, &run.proof, &mut [0; 4_096]).answer.number;
            assert!(number == 0 || number == 13, "{number}");
            out_of_range += usize::from(number == 13);
        }
        assert!(0 < out_of_range && out_of_range <= stages.len());
        alone += usize::from(out_of_range == 1);
    }
    assert!(alone >= 100, "{alone}");
}

/// On both sides of each limit.
#[test]
fn limits() {
    let found = numbers(300, runs::long);
    just(&found, &[(0, 50), (1, 50)]);
    let found = numbers(100, runs::full);
    just(&found, &[(0, 20), (18, 10)]);
    let found = numbers(1_000, runs::crowded);
    just(&found, &[(0, 100), (8, 50), (10, 10), (26, 100)]);
    let found = numbers(500, |rng| runs::lengthy(rng, &Size::SMALL));
    assert!(found[&0] >= 50 && found[&1] >= 100, "{found:?}");
}

#[test]
fn stages_and_lengths() {
    let found = numbers(1_000, |rng| runs::measured(rng, &Size::SMALL));
    assert!(found[&25] >= 500 && found[&0] >= 30, "{found:?}");
    // Sums that wrap around to the buffer's length are among them.
    let mut rng = Rng::new(5);
    let wraps = (0..500)
        .map(|_| runs::measured(&mut rng, &Size::SMALL))
        .filter(|run| {
            let real: u128 = run.lengths.iter().map(|&length| length as u128).sum();
            let wrapped = run
                .lengths
                .iter()
                .fold(0, |sum: usize, &l| sum.wrapping_add(l));
            wrapped == run.buffer.len() && real != run.buffer.len() as u128
        })
        .inspect(|run| assert_eq!(answer(run).number, 25))
        .count();
    assert!(wraps >= 50, "{wraps}");
}

/// Rows put in change neither the formula nor what is told of the others.
#[test]
fn rows_put_in() {
    let mut rng = Rng::new(6);
    let mut rows = 0;
    for _ in 0..500 {
        let table = closed_table(&mut rng, &Size::MEDIUM);
        let padded = pad(&mut rng, &table, 60);
        let mut outs = [vec![0; 65_536], vec![0; 65_536]];
        let [first, second] = &mut outs;
        let old = check(&table.a, &table.b, &table.proof, first);
        let new = check(&table.a, &table.b, &padded.proof, second);
        assert_eq!((old, &first[..old.written]), (new, &second[..new.written]));
        if old.written == 0 {
            continue;
        }
        let mut report = [9; 1_024];
        let told = shorten(&table.a, &table.b, &padded.proof, &mut report, second);
        assert_eq!(told.rows, padded.put_in.len());
        for (told, put_in) in report.iter().zip(&padded.put_in) {
            assert!(!put_in || *told == 0);
            rows += usize::from(*put_in);
        }
    }
    assert!(rows >= 5_000, "{rows}");
}

/// What is lent and the answer of a printed line: these words from its front, then six numbers, then two lists.
fn printed(line: &str, front: usize) -> (u8, Vec<&str>) {
    let words: Vec<&str> = line.split(' ').collect();
    assert_eq!(words.len(), front + 6 + 2, "{line}");
    (words[front].parse().unwrap(), words)
}

/// Lines of every sort: accepted, outputs too short, and other refusals, which fill nothing.
#[test]
fn printed_lines() {
    let mut rng = Rng::new(12);
    let (mut guards, mut shortened) = (BTreeMap::new(), BTreeMap::new());
    for _ in 0..500 {
        let run = runs::any(&mut rng, &Size::SMALL);
        let line = run.print_call(&mut rng);
        let (number, words) = printed(&line, 6);
        assert_eq!(words[0], "guards");
        let filled = words[13].split(',').filter(|word| *word != "-").count();
        let n = run.lengths.len();
        assert_eq!(filled, if number == 0 { n + 1 } else { 0 });
        assert_eq!(words[12] == "-", number != 0);
        *guards.entry(number.min(22)).or_insert(0) += 1;

        let case = Shortening::any(&mut rng, &Size::SMALL);
        let line = case.print();
        let (number, words) = printed(&line, 6);
        assert_eq!(words[0], "shorten");
        assert_eq!([words[12], words[13]].contains(&"-"), number != 0);
        *shortened.entry(number.min(22)).or_insert(0) += 1;
    }
    for found in [guards, shortened] {
        assert!(found[&0] > 100 && found[&21] > 30, "{found:?}");
        assert!(found.len() > 6, "{found:?}");
    }
}
