//! Disequalities and their splits: what is written of them, whose they are, and
//! that every other row refuses them.

use stages::build::*;
use stages::damage::fields;
use stages::deep::misused;
use stages::rng::Rng;
use stages::table::Size;
use stages::{stream, Case, Class, Operation, CLASSES};
use std::collections::BTreeSet;

/// Number, place and bytes of a check.
fn checked(a: &[u8], b: &[u8], proof: &[u8]) -> (u8, usize, Vec<u8>) {
    let mut out = vec![0; 65_536];
    let result = reference::check(a, b, proof, &mut out);
    out.truncate(result.written);
    (result.answer.number, result.answer.place, out)
}

fn random_form(rng: &mut Rng, k: usize) -> Vec<i16> {
    let zero = rng.chance(1, 8);
    (0..=k)
        .map(|_| match (zero, rng.below(8)) {
            (true, _) => 0,
            (_, 0) => *rng.pick(&[-32_768, -32_767, 32_767]),
            _ => rng.within(-9, 9) as i16,
        })
        .collect()
}

/// The form times a sign, with so much added to d.
fn raised(form: &[i16], sign: i32, by: i32) -> Vec<i32> {
    let mut raised: Vec<i32> = form.iter().map(|&n| sign * i32::from(n)).collect();
    *raised.last_mut().expect("a d") += by;
    raised
}

/// A random disequality among other lines, each branch of its split with a claim of the new line, and closed by line 0.
#[test]
fn splits_are_written_as_document_02_says() {
    let mut rng = Rng::new(71);
    let mut owners = [0; 2];
    for _ in 0..4_000 {
        let k = 1 + rng.below(16);
        let form = random_form(&mut rng, k);
        let mut one = vec![0; k + 1];
        one[k] = 1;
        // Some lines before it, "1 = 0" among them, and some after.
        let before = 1 + rng.below(4);
        let mut lines = vec![constraint(true, &one)];
        while lines.len() < before {
            let other = random_form(&mut rng, k);
            lines.push(constraint_of(rng.below(3) as u8, &other));
        }
        lines.push(disequality(&form));
        for _ in 0..rng.below(3) {
            let other = random_form(&mut rng, k);
            lines.push(constraint_of(rng.below(3) as u8, &other));
        }
        let of_a = rng.below(lines.len() + 1);
        let own = before < of_a;
        owners[usize::from(own)] += 1;
        let (a, b) = lines.split_at(of_a);
        let (a, b) = (file(k as u8, a), file(k as u8, b));
        // Each branch states its line, and is closed by line 0, of A or of B.
        let zero = vec![0; k + 1];
        let made = lines.len() as u8;
        let branch = |sign: i32| {
            let t = raised(&form, sign, 1);
            let partial = if own { t.clone() } else { zero.clone() };
            [scale(made, 1), claim(&t, &partial), close(0)].concat()
        };
        let rows = [split(before as u8), branch(1), branch(-1)];
        let mut end = zero.clone();
        end[k] = i32::from(of_a > 0);
        let leaf = comparison(true, &end);
        let junction = if own { or() } else { and() };
        let expected = file(k as u8, &[junction, leaf.clone(), leaf]);
        let (number, _, bytes) = checked(&a, &b, &file(k as u8, &rows));
        assert_eq!((number, bytes), (0, expected));
        // The branches exchanged, where that makes a difference.
        if form.iter().any(|&n| n != 0) {
            let rows = [split(before as u8), branch(-1), branch(1)];
            let (number, ..) = checked(&a, &b, &file(k as u8, &rows));
            assert_eq!(number, 14);
        }
    }
    assert!(owners.iter().all(|&times| times > 1_000), "{owners:?}");
}

#[test]
fn no_other_row_takes_a_disequality() {
    let mut rng = Rng::new(72);
    let mut met = BTreeSet::new();
    for _ in 0..4_000 {
        let lines = [
            constraint(false, &[rng.within(-9, 9) as i16, 1]),
            constraint(rng.chance(1, 2), &[0, 1]),
            disequality(&random_form(&mut rng, 1)),
        ];
        let (a, b) = lines.split_at(rng.below(4));
        let row = misused(&mut rng, 2);
        met.insert(row[0]);
        let (number, place, _) = checked(&file(1, a), &file(1, b), &file(1, &[row]));
        assert_eq!((number, place), (11, 8));
    }
    assert_eq!(met, (0x10..=0x16).collect());
}

#[test]
fn every_class_splits_lines_of_a_and_of_b() {
    for class in [
        Class::Sound,
        Class::Damaged,
        Class::Directed,
        Class::Limit,
        Class::Edge,
    ] {
        let mut splits = [0; 2];
        for case in stream(Operation::Check, class, Size::SMALL, 73).take(3_000) {
            if case.outcome().answer.number != 0 {
                continue;
            }
            let Case::Check { a, proof, .. } = case else {
                unreachable!();
            };
            let constraints = fields(&a)
                .into_iter()
                .filter(|part| matches!(a[part.start], 0x03..=0x05));
            let own = constraints.count();
            for part in fields(&proof) {
                if proof[part.start] == 0x17 {
                    splits[usize::from(usize::from(proof[part.end - 1]) >= own)] += 1;
                }
            }
        }
        assert!(
            splits.iter().all(|&times| times > 20),
            "{class:?} {splits:?}"
        );
    }
}

#[test]
fn kinds_of_every_number_are_read_and_written() {
    let mut read = BTreeSet::new();
    let mut refused = BTreeSet::new();
    for class in CLASSES {
        for case in stream(Operation::Read, class, Size::SMALL, 74).take(500) {
            let Case::Read { file, .. } = &case else {
                unreachable!();
            };
            let (mut kinds, mut numbers) = ([9; 32], [0; 544]);
            let result = reference::read_bundle(file, &mut kinds, &mut numbers);
            read.extend(&kinds[..result.count]);
        }
        for case in stream(Operation::Write, class, Size::SMALL, 75).take(500) {
            let answer = case.outcome().answer;
            let Case::Write { kinds, .. } = &case else {
                unreachable!();
            };
            if answer.number == 24 && answer.place < kinds.len() {
                refused.insert(kinds[answer.place]);
            }
        }
    }
    assert_eq!(read, BTreeSet::from([0, 1, 2]));
    assert!(refused.contains(&3) && !refused.contains(&2), "{refused:?}");
}
