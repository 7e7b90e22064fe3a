//! The stack that a call takes is what include/dulgaverk.h says: each call is made on a thread that has little more.

use dulgaverk::{Edition, Job, RowUse, Scheduler};
use stages::build::{
    and, close, comparison, constraint, disequality, file, fill, rounding, scale, split, strengthen,
};
use stages::turn::turned_up;
use std::env;
use std::process::Command;
use std::thread;

/// What the header says of a check whose proof is of edition 1, of one whose proof is of edition 2, of shortening
/// likewise, of the guards of a run, of a test, of a test at a list, of printing, and of the other calls.
const CHECK: usize = 152 * 1024;
const CHECK_2: usize = 272 * 1024;
const SHORTEN: usize = 168 * 1024;
const SHORTEN_2: usize = 288 * 1024;
const RUN: usize = 192 * 1024;
const TEST: usize = 72 * 1024;
const LIST: usize = 96 * 1024;
const PRINT: usize = 152 * 1024;
const OTHER: usize = 12 * 1024;

/// What a thread of Rust and the wrapper take for themselves.
const OWN: usize = 16 * 1024;

/// Whether a test of this file passes in a process of its own, in which no stack is kept: a thread may else be handed the
/// larger stack of one that is done.
fn passes_alone(name: &str) -> bool {
    let this = env::current_exe().expect("a path");
    let output = Command::new(this)
        .args([name, "--exact", "--include-ignored"])
        .env(ALONE, "1")
        .env("GLIBC_TUNABLES", "glibc.pthread.stack_cache_size=0")
        .output()
        .expect("this program");
    output.status.success()
}

/// Set in such a process.
const ALONE: &str = "DULGAVERK_STACK_ALONE";

/// Runs a test in a process of its own.
fn alone(name: &str, test: impl FnOnce()) {
    if env::var_os(ALONE).is_some() {
        test();
    } else {
        assert!(passes_alone(name), "{name}");
    }
}

fn on_stack<T: Send + 'static>(bytes: usize, call: impl FnOnce() -> T + Send + 'static) -> T {
    thread::Builder::new()
        .stack_size(bytes + OWN)
        .spawn(call)
        .expect("a thread")
        .join()
        .expect("no overflow")
}

/// 33 branches one inside the other, in the longest file, so that the check takes the most working memory too.
#[test]
fn the_deepest_check() {
    alone("the_deepest_check", || {
        let mut numbers = [0i16; 17];
        numbers[16] = 1;
        let a = file(16, &[constraint(false, &numbers)]);
        let b = file(16, &[]);
        let mut rows = vec![strengthen(0); 32];
        rows.extend(vec![close(0); 65]);
        let mut proof = file(16, &rows);
        fill(&mut proof, 65_536);
        let turned = turn_on_stack(CHECK, a.clone(), b.clone(), proof.clone());
        let written = on_stack(CHECK, move || dulgaverk::check(&a, &b, &proof));
        // an or and an and for each strengthen, and 65 times "1 is at most 0", over 16 constants
        let written = written.map(|bytes| bytes.len());
        assert_eq!(written, Ok(8 + 32 * 6 + 65 * 71));
        assert_eq!(written, turned);
    });
}

/// The same with 960 lines on the deepest branch, the most that 1,024 rows leave for it, in edition 2.
#[test]
fn the_deepest_check_of_edition_2() {
    alone("the_deepest_check_of_edition_2", || {
        let mut numbers = [0i16; 17];
        numbers[16] = 1;
        let a = file(16, &[constraint(false, &numbers)]);
        let b = file(16, &[]);
        let mut rows = vec![strengthen(0); 32];
        rows.extend(vec![scale(0, 1); 927]);
        rows.extend(vec![close(0); 65]);
        assert_eq!(rows.len(), 1_024);
        let mut proof = turned_up(&file(16, &rows));
        fill(&mut proof, 65_536);
        let turned = turn_on_stack(CHECK_2, a.clone(), b.clone(), proof.clone());
        let written = on_stack(CHECK_2, move || dulgaverk::check(&a, &b, &proof));
        let written = written.map(|bytes| bytes.len());
        assert_eq!(written, Ok(8 + 32 * 6 + 65 * 71));
        assert_eq!(written, turned);
    });
}

/// A turn of the scheduler that makes such a check: 2 KiB more at most, by the header, and within the same figure.
fn turn_on_stack(
    bytes: usize,
    a: Vec<u8>,
    b: Vec<u8>,
    proof: Vec<u8>,
) -> Result<usize, dulgaverk::Refusal> {
    let (x, y) = (a.len(), a.len() + b.len());
    let buffer = [a, b, proof].concat();
    let mut scheduler = Scheduler::new();
    let job = Job {
        a: 0..x,
        b: x..y,
        proof: y..buffer.len(),
    };
    scheduler.submit(3, &job)?;
    let mut out = vec![0; 65_536];
    let served = on_stack(bytes, move || scheduler.turn(&buffer, &mut out))?;
    assert_eq!(served.seat, 3);
    served.result
}

/// 32 roundings by 16, one inside the other: in the first branch of the one before, and in the last. Over 12 constants the
/// formula has 61,503 bytes, over 13 it would be too long. In both editions.
#[test]
fn the_deepest_roundings() {
    alone("the_deepest_roundings", || {
        for branch in [0, 16] {
            for (constants, needed) in [(12, 61_503), (13, 65_603)] {
                let mut numbers = vec![0i16; constants + 1];
                numbers[constants] = 1;
                let a = file(constants as u8, &[constraint(false, &numbers)]);
                let b = file(constants as u8, &[]);
                let step = [vec![rounding(0, 17, 16)], vec![close(0); branch]].concat();
                let mut rows = vec![step; 32].concat();
                rows.extend(vec![close(0); 1 + 32 * (16 - branch)]);
                let proof = file(constants as u8, &rows);
                for (stack, mut proof) in [(CHECK_2, turned_up(&proof)), (CHECK, proof)] {
                    fill(&mut proof, 65_536);
                    let (a, b) = (a.clone(), b.clone());
                    let turned = turn_on_stack(stack, a.clone(), b.clone(), proof.clone());
                    let written = on_stack(stack, move || dulgaverk::check(&a, &b, &proof));
                    let expected = if needed > 65_536 {
                        Err(dulgaverk::Refusal::outside(1, 4, needed))
                    } else {
                        Ok(needed)
                    };
                    assert_eq!(written.map(|bytes| bytes.len()), expected);
                    assert_eq!(turned, expected);
                }
            }
        }
    });
}

/// 600 levels of and, one inside the other, in the first part and in the second.
#[test]
fn the_deepest_formula() {
    alone("the_deepest_formula", || {
        let part = || comparison(false, &[1, -7]);
        let first = [vec![and(); 600], vec![part(); 601]].concat();
        let second = [vec![[and(), part()].concat(); 600], vec![part()]].concat();
        for parts in [first, second] {
            let formula = file(1, &parts);
            assert_eq!(
                on_stack(TEST, {
                    let formula = formula.clone();
                    move || dulgaverk::test_formula(&formula, &[7])
                }),
                Ok(true)
            );
            assert_eq!(
                on_stack(LIST, move || dulgaverk::test_list(&formula, 1, &[7; 64])),
                Ok(vec![true; 64])
            );
        }
    });
}

/// The same printed, both ways, and the longest text.
#[test]
fn the_deepest_printing() {
    alone("the_deepest_printing", || {
        let part = || comparison(false, &[1, -7]);
        let first = [vec![and(); 600], vec![part(); 601]].concat();
        let second = [vec![[and(), part()].concat(); 600], vec![part()]].concat();
        let widest = comparison(false, &[i32::MIN; 17]);
        let long = [vec![[and(), widest.clone()].concat(); 600], vec![widest]].concat();
        for (constants, parts) in [(1, first), (1, second), (16, long)] {
            let formula = file(constants, &parts);
            for print in [dulgaverk::print, dulgaverk::print_words] {
                let formula = formula.clone();
                let text = on_stack(PRINT, move || print(&formula));
                assert_eq!(text.map(|text| text.matches("and").count()), Ok(600));
            }
        }
    });
}

/// A search through all tables of four lines over 16 constants, of which none is a proof; and a pair with one.
#[test]
fn short_proofs() {
    alone("short_proofs", || {
        let mut numbers = [1i16; 17];
        let lines = vec![constraint(true, &numbers); 4];
        let (a, b) = (file(16, &lines), file(16, &[]));
        let none = on_stack(OTHER, move || dulgaverk::next_proof(&a, &b, &b));
        assert_eq!(none, Err(dulgaverk::Refusal::outside(33, 4, 0)));
        numbers = [0; 17];
        numbers[16] = 1;
        let (a, b) = (file(16, &[constraint(true, &numbers)]), file(16, &[]));
        let count = on_stack(OTHER, move || {
            dulgaverk::short_proofs(&a, &b).map(Iterator::count)
        });
        assert!(count.is_ok_and(|count| count > 1_000));
    });
}

#[test]
fn jobs() {
    alone("jobs", || {
        let refused = on_stack(OTHER, move || {
            let mut scheduler = Scheduler::new();
            let job = Job {
                a: 0..1,
                b: 0..1,
                proof: 0..1,
            };
            scheduler.submit(3, &job)?;
            scheduler.cancel(3)?;
            scheduler.turn(&[], &mut []).map(|served| served.seat)
        });
        assert_eq!(refused, Err(dulgaverk::Refusal::outside(35, 4, 0)));
    });
}

#[test]
fn bundles() {
    alone("bundles", || {
        let numbers: Vec<i32> = (0..32 * 17).map(|number| 65_537 * number).collect();
        let kinds = vec![dulgaverk::Kind::Disequality; 32];
        let same = on_stack(OTHER, move || {
            let bytes = dulgaverk::write_bundle(Edition::Two, 16, &kinds, &numbers)?;
            let read = dulgaverk::read_bundle(&bytes)?;
            dulgaverk::show(&bytes, &bytes, 63)?;
            Ok::<bool, dulgaverk::Refusal>((read.kinds, read.numbers) == (kinds, numbers))
        });
        assert_eq!(same, Ok(true));
    });
}

/// The largest bundle and the longest proof, there and back.
#[test]
fn turning() {
    alone("turning", || {
        let numbers: Vec<i32> = (0..32 * 17).map(|number| 60 * number).collect();
        let kinds = vec![dulgaverk::Kind::Disequality; 32];
        let proof = file(
            16,
            &[strengthen(255).repeat(6_553), scale(0, 1).repeat(4_680)],
        );
        assert_eq!(proof.len(), 54_300);
        let back = on_stack(OTHER, move || {
            let bundle = dulgaverk::write_bundle(Edition::One, 16, &kinds, &numbers)?;
            let wide = dulgaverk::turn_bundle(&bundle, Edition::Two)?;
            let same = dulgaverk::turn_bundle(&wide, Edition::One)? == bundle;
            let wide = dulgaverk::turn_proof(&proof, Edition::Two)?;
            let whole = (
                wide.len(),
                dulgaverk::turn_proof(&wide, Edition::One)? == proof,
            );
            Ok::<(bool, (usize, bool)), dulgaverk::Refusal>((same, whole))
        });
        assert_eq!(back, Ok((true, (65_533, true))));
    });
}

/// On half of what it takes a call does not pass, whatever ran before: these tests can fail.
#[test]
fn half_the_stack_is_too_little() {
    assert!(!passes_alone("a_formula_on_half_the_stack"));
}

/// Ends the process, after a thread with a stack that would be enough.
#[test]
#[ignore = "called by half_the_stack_is_too_little"]
fn a_formula_on_half_the_stack() {
    let formula = file(
        1,
        &[vec![and(); 600], vec![comparison(false, &[1, -7]); 601]].concat(),
    );
    on_stack(TEST, || ());
    // The compiler of today leaves a little of half of it unused.
    let truth = on_stack(TEST / 2 - 8 * 1024, move || {
        dulgaverk::test_formula(&formula, &[7])
    });
    assert_eq!(truth, Ok(true));
}

/// 33 branches one inside the other, in the longest file: the second branch of each strengthen has the next, the last a rounding,
/// so that the branches that a run needs alike are; then splits, in the first branch and in the second. In both editions, in
/// edition 2 with 900 lines more on the deepest branch.
fn deepest_runs() -> Vec<Vec<u8>> {
    let middle = [
        [
            vec![[strengthen(0), close(0)].concat(); 31],
            vec![rounding(0, 17, 16)],
        ]
        .concat(),
        vec![close(0); 17 + 31],
    ];
    let first = [vec![split(1); 32], vec![close(0); 33]];
    let second = [vec![[split(1), close(0)].concat(); 32], vec![close(0)]];
    let mut proofs = Vec::new();
    for [front, back] in [middle, first, second] {
        let rows = [&front[..], &back].concat();
        let wide = [&front[..], &vec![scale(0, 1); 900], &back].concat();
        // All branches of a rounding have the same rows.
        let wide = if back.len() == 48 { rows.clone() } else { wide };
        for mut proof in [file(16, &rows), turned_up(&file(16, &wide))] {
            fill(&mut proof, 65_536);
            proofs.push(proof);
        }
    }
    proofs
}

/// "1 is at most 0" and "1 is not 0" over 16 constants.
fn contradiction() -> Vec<Vec<u8>> {
    let mut numbers = [0i16; 17];
    numbers[16] = 1;
    vec![constraint(false, &numbers), disequality(&numbers)]
}

/// Those of runs, and 32 roundings one inside the other, in the first branch and in the last, over 12 constants.
#[test]
fn shortening() {
    alone("shortening", || {
        let mut stages: Vec<(Vec<u8>, Vec<u8>)> = Vec::new();
        for proof in deepest_runs() {
            stages.push((file(16, &contradiction()), proof));
        }
        for branch in [0, 16] {
            let mut numbers = [0i16; 13];
            numbers[12] = 1;
            let step = [vec![rounding(0, 17, 16)], vec![close(0); branch]].concat();
            let mut rows = vec![step; 32].concat();
            rows.extend(vec![close(0); 1 + 32 * (16 - branch)]);
            let proof = file(12, &rows);
            for mut proof in [turned_up(&proof), proof] {
                fill(&mut proof, 65_536);
                stages.push((file(12, &[constraint(false, &numbers)]), proof));
            }
        }
        for (a, proof) in stages {
            let stack = if proof[3] == 1 { SHORTEN } else { SHORTEN_2 };
            // As many constraints as may be.
            let b = file(
                a[7],
                &vec![a[8..8 + 5 + 2 * usize::from(a[7])].to_vec(); 32],
            );
            let shortened = on_stack(stack, move || dulgaverk::shorten(&a, &b, &proof));
            let shortened = shortened.expect("accepted");
            // The steps and their closes; the notes and the scales are gone.
            let stays = shortened.report.iter().filter(|&&row| row == RowUse::Stays);
            let rows = stays.count();
            let rounded = shortened
                .table
                .windows(2)
                .filter(|tag| tag[0] == 0x16)
                .count();
            let width = usize::from(shortened.table[3]);
            assert_eq!(shortened.table.len(), 8 + rows * (3 + width) + 4 * rounded);
            assert!(!shortened.report.contains(&RowUse::Needed));
        }
    });
}

#[test]
fn guards_of_runs() {
    alone("guards_of_runs", || {
        for proof in deepest_runs() {
            let first = file(16, &contradiction());
            let guards = on_stack(RUN, move || {
                let other = file(16, &[]);
                // As many constraints as may be.
                let more = file(16, &vec![contradiction()[0].clone(); 31]);
                let mut stages = vec![&other[..]; 16];
                stages[7..10].copy_from_slice(&[&first, &more, &more]);
                dulgaverk::guards(&stages, &proof)
            });
            let guards = guards.expect("accepted");
            assert_eq!(guards.len(), 17);
            assert!(guards.iter().all(|guard| guard.len() == guards[0].len()));
        }
    });
}
