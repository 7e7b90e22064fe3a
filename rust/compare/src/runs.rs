//! Guards of runs of stages (document 02, point 7): both sides on random, damaged and limit runs, outputs of several lengths;
//! and what the guards are to be: a chain, tested at small assignments, and in each cut what a check writes.

use crate::{bytes, number, outcome};
use stages::rng::Rng;
use stages::runs::{bundle, Run};
use stages::unused::{constraints, Constraint};
use std::collections::BTreeMap;

/// What was compared.
#[derive(Default, Debug)]
pub struct Runs {
    /// Calls by number, 0 for accepted.
    pub calls: BTreeMap<u8, u64>,
    /// Accepted runs by their stages.
    pub accepted: [u64; 17],
    /// Refusals of a proof that stand inside a branch.
    pub inside: u64,
    /// Assignments at which a chain was tested, and those that meet a stage whose guard before it holds.
    pub points: u64,
    pub led_on: u64,
    /// Guards that were compared with what a check writes.
    pub checked: u64,
    pub differences: u64,
    /// The first run that differed.
    pub first: Option<String>,
}

impl std::fmt::Display for Runs {
    fn fmt(&self, f: &mut std::fmt::Formatter<'_>) -> std::fmt::Result {
        write!(
            f,
            "runs: {} calls {:?}, {} refusals inside a branch; accepted by stages {:?}; {} assignments, {} that lead from a guard to the next; {} guards as check writes them, {} differences",
            self.calls.values().sum::<u64>(),
            self.calls,
            self.inside,
            &self.accepted[1..],
            self.points,
            self.led_on,
            self.checked,
            self.differences
        )?;
        match &self.first {
            Some(run) => write!(f, "\ndiffers: {run}"),
            None => Ok(()),
        }
    }
}

impl Runs {
    fn tell(&mut self, run: &Run, same: bool) {
        self.differences += u64::from(!same);
        if !same && self.first.is_none() {
            self.first = Some(run.print());
        }
    }
}

/// Calls both sides once with outputs of these lengths. Gives the guards where they are accepted, else the refusal.
fn call(
    run: &Run,
    (count, sizes): (usize, usize),
    rng: &mut Rng,
    seen: &mut Runs,
) -> Result<Vec<Vec<u8>>, dulgaverk::Refusal> {
    let Run {
        buffer,
        lengths,
        proof,
    } = run;
    let words: Vec<usize> = (0..sizes).map(|_| rng.word() as usize).collect();
    let before = (bytes(rng, count), words);
    let (mut lent, mut other) = (before.clone(), before.clone());
    let verified = dulgaverk::guards_into(buffer, lengths, proof, &mut lent.0, &mut lent.1);
    let r = reference::guards(buffer, lengths, proof, &mut other.0, &mut other.1);
    let expected = outcome(r.answer, r.written);
    *seen.calls.entry(number(&expected)).or_default() += 1;
    seen.inside += u64::from(expected.is_err_and(|refusal| refusal.step.is_some()));
    let kept = expected.is_ok() || lent == before;
    seen.tell(run, verified == expected && lent == other && kept);
    verified?;
    // The output cut by the sizes.
    let mut rest = &lent.0[..];
    let mut guards = Vec::new();
    for &size in lent.1.iter().take(lengths.len() + 1) {
        let Some((guard, more)) = rest.split_at_checked(size) else {
            seen.tell(run, false);
            break;
        };
        guards.push(guard.to_vec());
        rest = more;
    }
    Ok(guards)
}

/// Compares the guards of a run, and looks at what they are where it is accepted.
pub fn guard_run(run: &Run, rng: &mut Rng, seen: &mut Runs) {
    let stages = run.lengths.len();
    // Without outputs the answer tells how much is needed.
    let needed = match call(run, (0, 0), rng, seen) {
        Err(refusal) if (refusal.number, refusal.file) == (21, 4) => refusal.place,
        Err(refusal) => {
            // Too long a guard is refused whatever is lent.
            let lent = match (refusal.number, refusal.file) {
                (1, 4) => refusal.place,
                _ => rng.below(100),
            };
            if refusal.file == 4 || rng.chance(1, 4) {
                let _ = call(run, (lent, 17), rng, seen);
            }
            return;
        }
        // n + 1 sizes have no room in 0.
        Ok(_) => return seen.tell(run, false),
    };
    for lent in [
        (needed - 1, stages + 1),
        (needed, stages),
        (needed + 9, 0),
        (needed + 9, stages + 3),
    ] {
        if rng.chance(1, 2) {
            let _ = call(run, lent, rng, seen);
        }
    }
    let Ok(guards) = call(run, (needed, stages + 1), rng, seen) else {
        return seen.tell(run, false);
    };
    seen.accepted[stages] += 1;
    let read: Vec<Vec<Constraint>> = run.stages().into_iter().map(constraints).collect();
    let k = usize::from(guards[0][7]);
    as_check_writes(run, &guards, &read, k, rng, seen);
    chain(run, &guards, &read, k, rng, seen);
}

/// Each guard is what a check writes of the stages up to it as A and the others as B, where both can be bundles.
fn as_check_writes(
    run: &Run,
    guards: &[Vec<u8>],
    stages: &[Vec<Constraint>],
    k: usize,
    rng: &mut Rng,
    seen: &mut Runs,
) {
    for (cut, guard) in guards.iter().enumerate() {
        let (own, theirs) = stages.split_at(cut);
        let (own, theirs) = (own.concat(), theirs.concat());
        if own.len() > 32 || theirs.len() > 32 {
            continue;
        }
        let (a, b) = (bundle(rng, k, &own), bundle(rng, k, &theirs));
        let mut out = vec![0; guard.len()];
        let written = dulgaverk::check_into(&a, &b, &run.proof, &mut out);
        seen.tell(run, written == Ok(guard.len()) && out == *guard);
        seen.checked += 1;
    }
}

/// Whether an assignment meets all constraints.
fn meets(constraints: &[Constraint], values: &[i32]) -> bool {
    constraints.iter().all(|(kind, numbers)| {
        let (coefficients, d) = numbers.split_at(values.len());
        let products = coefficients.iter().zip(values);
        let sum: i64 = products.map(|(c, v)| i64::from(*c) * i64::from(*v)).sum();
        let value = sum + i64::from(d[0]);
        match kind {
            0 => value <= 0,
            1 => value == 0,
            _ => value != 0,
        }
    })
}

/// Small assignments: all from -2 to 2 where there are up to three constants, else some.
fn assignments(rng: &mut Rng, k: usize) -> Vec<i32> {
    if k > 3 {
        return (0..60 * k).map(|_| rng.within(-4, 4) as i32).collect();
    }
    let all = 5usize.pow(k as u32);
    (0..all)
        .flat_map(|point| {
            (0..k).map(move |place| (point / 5usize.pow(place as u32) % 5) as i32 - 2)
        })
        .collect()
}

/// The first guard holds everywhere, the last nowhere, and each wherever the one before it and the stage between them do.
fn chain(
    run: &Run,
    guards: &[Vec<u8>],
    stages: &[Vec<Constraint>],
    k: usize,
    rng: &mut Rng,
    seen: &mut Runs,
) {
    let values = assignments(rng, k);
    let mut table = Vec::new();
    for guard in guards {
        match dulgaverk::test_list(guard, k, &values) {
            Ok(marks) => table.push(marks),
            Err(_) => return seen.tell(run, false),
        }
    }
    let mut same = true;
    for (point, values) in values.chunks_exact(k).enumerate() {
        seen.points += 1;
        same &= table[0][point] && !table[stages.len()][point];
        for (stage, constraints) in stages.iter().enumerate() {
            if table[stage][point] && meets(constraints, values) {
                seen.led_on += 1;
                same &= table[stage + 1][point];
            }
        }
    }
    seen.tell(run, same);
}
