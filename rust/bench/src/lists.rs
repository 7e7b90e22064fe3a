//! Times testing a formula at long lists beside a simple Rust evaluator, and beside the same with words that wrap.

use crate::simple;
use stages::rng::Rng;
use std::fmt::Write;
use std::hint::black_box;

const K: usize = 16;

#[derive(Clone, Copy, PartialEq)]
enum Parts {
    /// Strides 2, 4 and 8.
    Powers,
    /// The same, numbers that they divide.
    PowersTrue,
    /// Strides that are powers of two, other strides, t ≤ 0 and t = 0, a quarter each.
    Mixed,
}

#[derive(Clone, Copy)]
enum Shape {
    /// Ors and ands by turns, both parts alike.
    Balanced,
    /// A chain of ands, the next in the first part.
    Ands,
    Ors,
}

fn below(rng: &mut Rng, n: u32) -> u32 {
    rng.word() as u32 % n
}

fn field(out: &mut Vec<u8>, tag: u8, numbers: &[i32]) {
    out.push(tag);
    out.extend_from_slice(&(4 * numbers.len() as u16).to_be_bytes());
    for number in numbers {
        out.extend_from_slice(&number.to_be_bytes());
    }
}

fn within(rng: &mut Rng, limit: u32) -> i32 {
    below(rng, 2 * limit + 1) as i32 - limit as i32
}

fn part(rng: &mut Rng, parts: Parts, out: &mut Vec<u8>) {
    let mut numbers: Vec<i32> = (0..=K).map(|_| within(rng, 1_000_000)).collect();
    if parts == Parts::PowersTrue {
        numbers
            .iter_mut()
            .for_each(|number| *number = *number / 8 * 8);
    }
    let sort = if parts == Parts::Mixed {
        below(rng, 4)
    } else {
        0
    };
    match sort {
        0 => {
            numbers.insert(0, 2 << below(rng, 3));
            field(out, 0x35, &numbers);
        }
        1 => {
            numbers.insert(0, [3, 5, 6, 7, 10, 12][below(rng, 6) as usize]);
            field(out, 0x35, &numbers);
        }
        2 => field(out, 0x33, &numbers),
        _ => field(out, 0x34, &numbers),
    }
}

fn formula(rng: &mut Rng, parts: Parts, count: usize, shape: Shape, level: u8, out: &mut Vec<u8>) {
    if count == 1 {
        return part(rng, parts, out);
    }
    let (tag, first) = match shape {
        Shape::Balanced => (0x31 + level % 2, count / 2),
        Shape::Ands => (0x32, count - 1),
        Shape::Ors => (0x31, count - 1),
    };
    field(out, tag, &[]);
    formula(rng, parts, first, shape, level + 1, out);
    formula(rng, parts, count - first, shape, level + 1, out);
}

#[repr(C)]
struct Time {
    seconds: i64,
    nanoseconds: i64,
}

extern "C" {
    fn clock_gettime(clock: i32, time: *mut Time) -> i32;
}

/// The thread's own processor time, as others may use the machine too.
fn now() -> f64 {
    const THREAD: i32 = 3;
    let mut time = Time {
        seconds: 0,
        nanoseconds: 0,
    };
    unsafe { clock_gettime(THREAD, &mut time) };
    time.seconds as f64 * 1e9 + time.nanoseconds as f64
}

/// The shortest of some rounds, taken by turns.
fn times<const N: usize>(rounds: usize, mut sides: [&mut dyn FnMut(); N]) -> [f64; N] {
    let mut best = [f64::MAX; N];
    for _ in 0..rounds {
        for (side, best) in sides.iter_mut().zip(&mut best) {
            let start = now();
            side();
            *best = best.min(now() - start);
        }
    }
    best
}

/// The lengths of the lists, and by what each has its rounds divided.
const LENGTHS: [(usize, usize); 2] = [(10_000, 1), (1_000_000, 20)];

fn row(
    name: &str,
    parts: Parts,
    count: usize,
    shape: Shape,
    vectors: usize,
    rounds: usize,
) -> String {
    let mut rng = Rng::new(11);
    let mut file = vec![1, 0, 1, 1, 2, 0, 1, K as u8];
    formula(&mut rng, parts, count, shape, 0, &mut file);
    let values: Vec<i32> = (0..vectors * K)
        .map(|_| within(&mut rng, 1_000_000))
        .collect();
    let (mut a, mut b, mut c) = (vec![7; vectors], vec![8; vectors], vec![9; vectors]);
    let file = file.as_slice();
    let [rattle, rust, words] = times(
        rounds,
        [
            &mut || {
                let done = dulgaverk::test_list_into(black_box(file), K, &values, &mut a);
                assert_eq!(done, Ok(vectors));
            },
            &mut || simple::test_list(black_box(file), K, &values, &mut b, false),
            &mut || simple::test_list(black_box(file), K, &values, &mut c, true),
        ],
    );
    assert!(a == b && b == c, "{name}");
    let each = |time: f64| time / vectors as f64;
    format!(
        "| {name} | {vectors} | {:.1} ns | {:.1} ns | {:.1} ns | {:.2} | {:.2} |",
        each(rattle),
        each(rust),
        each(words),
        rattle / rust,
        rattle / words
    )
}

/// The page; each row is printed as it comes.
pub fn page(rounds: usize, machine: &str) -> String {
    let mut text = format!(
        "# Speed of testing at a list\n\nWritten by `./bench --write lists`: `dulgaverk_test_list`, called through the static \
         library, beside a simple Rust evaluator (`rust/bench/src/simple.rs`) that parses the formula once into a tree and \
         judges it at each vector, with sums of 64 bits, and beside the same evaluator with 32-bit words that wrap where a \
         stride is a power of two. K is 16, values are within ±1,000,000, and each side tests the range of the values. \
         Processor time of the thread for a vector, the least of {rounds} rounds ({} for 1,000,000 vectors), the three \
         sides by turns, since other work may run on the machine; below 1 Rattle is quicker. Measured on {machine}.\n\n\
         | Formula | Vectors | Rattle | Rust | Rust in words | Rattle / Rust | Rattle / Rust in words |\n\
         |---|---|---|---|---|---|---|\n",
        least(rounds, LENGTHS[1].1)
    );
    for (name, parts, count, shape) in [
        (
            "one stride, a power of two",
            Parts::Powers,
            1,
            Shape::Balanced,
        ),
        ("32 powers, balanced", Parts::Powers, 32, Shape::Balanced),
        ("32 powers, a chain of ands", Parts::Powers, 32, Shape::Ands),
        ("32 powers, a chain of ors", Parts::Powers, 32, Shape::Ors),
        (
            "32 powers, ands, all true",
            Parts::PowersTrue,
            32,
            Shape::Ands,
        ),
        ("32 mixed, balanced", Parts::Mixed, 32, Shape::Balanced),
        ("32 mixed, a chain of ands", Parts::Mixed, 32, Shape::Ands),
        ("32 mixed, a chain of ors", Parts::Mixed, 32, Shape::Ors),
    ] {
        for (vectors, share) in LENGTHS {
            let line = row(name, parts, count, shape, vectors, least(rounds, share));
            println!("{line}");
            let _ = writeln!(text, "{line}");
        }
    }
    text.push_str(MIXED);
    text
}

fn least(rounds: usize, share: usize) -> usize {
    (rounds / share).max(5)
}

const MIXED: &str = "\nMixed parts are strides that are powers of two, other strides, t ≤ 0 and t = 0, a quarter each. In a \
chain most vectors are settled by the first parts; all true asks every part of every vector.\n";
