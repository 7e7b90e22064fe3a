//! Endless rows of cases of one operation and class.

use crate::case::{Case, Operation};
use crate::damage::{damage, noise, noise_in};
use crate::rng::Rng;
use crate::table::{careless_table, closed_table, Size, Table};
use crate::tie::tied;
use crate::turn::{mix, turned_up};
use crate::{deep, directed, edge, limit, other, printing, rounding, short, turning, vectors};
use reference::Edition;

/// What sort of cases are wanted.
#[derive(Clone, Copy, PartialEq, Eq, Debug)]
pub enum Class {
    /// Right inputs, so accepted unless an output is too short.
    Sound,
    /// Right inputs damaged in one or two places; for check also faults inside
    /// branches and of roundings.
    Damaged,
    /// One of each refusal.
    Directed,
    /// Both sides of each limit, with short and long files.
    Limit,
    /// At a limit or just past it, in a random way.
    Edge,
    /// Bytes and numbers without plan.
    Noise,
}

pub const CLASSES: [Class; 6] = [
    Class::Sound,
    Class::Damaged,
    Class::Directed,
    Class::Limit,
    Class::Edge,
    Class::Noise,
];

pub struct Stream {
    operation: Operation,
    class: Class,
    size: Size,
    rng: Rng,
    /// Cases of a list that are still to be given.
    waiting: Vec<Case>,
}

/// The cases of an operation and class for a seed. The size goes for sound
/// and damaged ones.
pub fn stream(operation: Operation, class: Class, size: Size, seed: u64) -> Stream {
    Stream {
        operation,
        class,
        size,
        rng: Rng::new(seed),
        waiting: Vec::new(),
    }
}

impl Iterator for Stream {
    type Item = Case;

    fn next(&mut self) -> Option<Case> {
        let rng = &mut self.rng;
        match self.class {
            Class::Sound => Some(sound(rng, self.operation, &self.size)),
            Class::Damaged => Some(damaged(rng, self.operation, &self.size)),
            Class::Noise => Some(random(rng, self.operation)),
            Class::Edge => Some(edge::edge(rng, self.operation).1),
            Class::Directed | Class::Limit => {
                if self.waiting.is_empty() {
                    let aimed = if self.class == Class::Directed {
                        directed::directed(rng, self.operation)
                    } else {
                        let mut aimed = limit::light(rng, self.operation);
                        aimed.extend(limit::heavy(rng, self.operation));
                        aimed
                    };
                    self.waiting = aimed.into_iter().map(|(_, case)| case).collect();
                }
                self.waiting.pop()
            }
        }
    }
}

/// How much longer or shorter an output is than needed, mostly not at all.
pub(crate) fn near(rng: &mut Rng, needed: usize) -> usize {
    match rng.below(8) {
        0 => needed.saturating_sub(1),
        1 => rng.below(needed + 1),
        2..=4 => needed,
        _ => needed + rng.below(20),
    }
}

pub fn sound(rng: &mut Rng, operation: Operation, size: &Size) -> Case {
    match operation {
        Operation::Check => {
            let Table { a, b, proof, .. } = some_table(rng, size);
            let out = match rng.below(12) {
                0 => rng.below(60),
                _ => 65_536,
            };
            Case::Check { a, b, proof, out }
        }
        Operation::Read => {
            let edition = other::edition(rng);
            let (k, kinds, numbers) = other::lists(rng, edition, size.constants, size.others + 2);
            let file = other::bundle(rng, edition, k, &kinds, &numbers);
            let (kinds, numbers) = (near(rng, kinds.len()), near(rng, numbers.len()));
            Case::Read {
                file,
                kinds,
                numbers,
            }
        }
        Operation::Write => {
            let edition = other::edition(rng);
            let (k, kinds, numbers) = other::lists(rng, edition, 16, size.others + 2);
            let needed = 8 + 3 * kinds.len() + edition.number_bytes() * numbers.len();
            Case::Write {
                edition: usize::from(edition.number()),
                k: usize::from(k),
                kinds,
                numbers,
                out: near(rng, needed),
            }
        }
        Operation::Show => {
            let (first, second) = (other::edition(rng), other::edition(rng));
            // Numbers that both may hold.
            let both = first.min(second);
            let (k, kinds, numbers) = other::lists(rng, both, size.constants, size.others + 2);
            let a = other::bundle(rng, first, k, &kinds, &numbers);
            // B has some of A's constraints, so that K is the same.
            let kept = rng.below(kinds.len() + 1);
            let width = usize::from(k) + 1;
            let b = other::bundle(rng, second, k, &kinds[..kept], &numbers[..kept * width]);
            let line = rng.below(kinds.len() + kept + 2);
            Case::Show { a, b, line }
        }
        Operation::Test => {
            let (k, formula) = some_formula(rng, size);
            let values = (0..k).map(|_| other::value(rng)).collect();
            Case::Test { formula, values }
        }
        Operation::TurnBundle | Operation::TurnProof => turning::sound(rng, operation, size),
        Operation::List => {
            let (k, formula) = some_formula(rng, size);
            vectors::sound(rng, k, formula)
        }
        Operation::Print | Operation::PrintWords => {
            let (_, formula) = some_formula(rng, size);
            printing::sound(rng, operation, formula)
        }
        Operation::NextProof => short::sound(rng),
    }
}

/// A table that is accepted: mostly a closed one as it is made, or with its
/// ties, or one rounded line.
pub(crate) fn some_table(rng: &mut Rng, size: &Size) -> Table {
    match rng.below(10) {
        0 => {
            let table = rounding::rounded(rng, size.constants);
            let mut turn = |file: Vec<u8>| {
                if rng.chance(1, 2) {
                    turned_up(&file)
                } else {
                    file
                }
            };
            Table {
                k: table.constants,
                proof: turn(table.proof()),
                a: turn(table.a),
                b: turn(table.b),
            }
        }
        1 => {
            let mut table = closed_table(rng, size);
            table.proof = tied(&table.proof, table.lines()).0;
            table
        }
        _ => closed_table(rng, size),
    }
}

/// A formula with its K: one that a check wrote, or a random one.
fn some_formula(rng: &mut Rng, size: &Size) -> (usize, Vec<u8>) {
    if rng.chance(1, 3) {
        let Table { k, a, b, proof } = some_table(rng, size);
        let mut out = vec![0; 65_536];
        let written = reference::check(&a, &b, &proof, &mut out).written;
        out.truncate(written);
        (k, out)
    } else {
        let k = 1 + rng.below(size.constants);
        (k, other::formula(rng, k, 3 * size.strengthens))
    }
}

pub fn damaged(rng: &mut Rng, operation: Operation, size: &Size) -> Case {
    if operation == Operation::Check && rng.chance(1, 10) {
        let Table { a, b, proof, .. } = careless_table(rng, size);
        let out = 65_536;
        return Case::Check { a, b, proof, out };
    }
    if operation == Operation::Check && rng.chance(3, 10) {
        let mut case = deep::deep(rng, size.constants).1;
        mix(rng, &mut case);
        return case;
    }
    if operation == Operation::Check && rng.chance(1, 12) {
        let mut case = rounding::damaged(rng, size.constants).1;
        mix(rng, &mut case);
        return case;
    }
    let mut case = match operation {
        Operation::TurnBundle | Operation::TurnProof if rng.chance(1, 3) => {
            turning::large(rng, operation, size)
        }
        _ => sound(rng, operation, size),
    };
    let times = if rng.chance(1, 4) { 2 } else { 1 };
    let k = 1 + rng.below(size.constants);
    for _ in 0..times {
        match &mut case {
            Case::Check { a, b, proof, .. } => match rng.below(10) {
                0 | 1 => damage(rng, a, k),
                2 | 3 => damage(rng, b, k),
                4 if rng.chance(1, 4) => std::mem::swap(a, b),
                _ => damage(rng, proof, k),
            },
            Case::Read { file, .. } => damage(rng, file, k),
            Case::Write {
                edition,
                k,
                kinds,
                numbers,
                out,
            } => match rng.below(8) {
                5 => *edition = wide(rng, 4),
                6 | 7 => {
                    let place = rng.below(numbers.len());
                    if let Some(number) = numbers.get_mut(place) {
                        *number = other::long(rng);
                    }
                }
                0 => *k = wide(rng, 256),
                1 => kinds.push(rng.below(4) as u8),
                2 => {
                    numbers.pop();
                }
                3 => {
                    let place = rng.below(kinds.len());
                    if let Some(kind) = kinds.get_mut(place) {
                        *kind = rng.byte();
                    }
                }
                _ => *out = rng.below(*out + 1),
            },
            Case::Show { a, b, line } => match rng.below(5) {
                0 | 1 => damage(rng, a, k),
                2 | 3 => damage(rng, b, k),
                _ => *line = wide(rng, 300),
            },
            Case::Test { formula, values } => match rng.below(8) {
                0 => {
                    values.pop();
                }
                1 => {
                    let place = rng.below(values.len());
                    if let Some(value) = values.get_mut(place) {
                        *value = other::long(rng);
                    }
                }
                _ => damage(rng, formula, values.len()),
            },
            Case::TurnBundle { file, edition, out } | Case::TurnProof { file, edition, out } => {
                match rng.below(10) {
                    0 => *edition = rng.below(4),
                    1 => *out = rng.below(*out + 1),
                    2 => {}
                    _ => damage(rng, file, k),
                }
            }
            Case::List { .. } => vectors::damaged(rng, &mut case),
            Case::Print { formula, out } | Case::PrintWords { formula, out } => {
                printing::damaged(rng, formula, out, k)
            }
            Case::NextProof { a, b, table, out } => {
                short::damaged(rng, [a, b, table], out, k);
            }
        }
    }
    case
}

/// Bytes and numbers without plan.
pub fn random(rng: &mut Rng, operation: Operation) -> Case {
    let k = 1 + rng.below(3);
    match operation {
        Operation::Check => {
            let base = directed::Base::with(k as u8, 0);
            let (a, b) = if rng.chance(1, 3) {
                (noise(rng, k), noise(rng, k))
            } else {
                (base.a, base.b)
            };
            let mut case = Case::Check {
                a,
                b,
                proof: noise(rng, k),
                out: rng.below(100),
            };
            mix(rng, &mut case);
            case
        }
        Operation::Read => Case::Read {
            file: noise(rng, k),
            kinds: rng.below(4),
            numbers: rng.below(12),
        },
        Operation::Write => {
            let (count, numbers) = (rng.below(5), rng.below(14));
            Case::Write {
                edition: wide(rng, 4),
                k: wide(rng, 20),
                kinds: (0..count).map(|_| rng.below(4) as u8).collect(),
                numbers: (0..numbers).map(|_| other::long(rng)).collect(),
                out: rng.below(60),
            }
        }
        Operation::Show => Case::Show {
            a: noise(rng, k),
            b: noise(rng, k),
            line: rng.below(6),
        },
        Operation::Test => {
            // Formulas are of edition 1, or refused.
            let edition = if rng.chance(1, 6) {
                Edition::Two
            } else {
                Edition::One
            };
            Case::Test {
                formula: noise_in(rng, edition, k),
                values: (0..k).map(|_| other::value(rng)).collect(),
            }
        }
        Operation::TurnBundle | Operation::TurnProof => turning::random(rng, operation, k),
        Operation::List => {
            let count = rng.below(12);
            Case::List {
                formula: noise(rng, k),
                k: if rng.chance(1, 4) { rng.below(20) } else { k },
                values: (0..count).map(|_| other::long(rng)).collect(),
                out: rng.below(8),
            }
        }
        Operation::Print | Operation::PrintWords => {
            let (formula, out) = (noise(rng, k), rng.below(100));
            printing::print(operation, formula, out)
        }
        Operation::NextProof => short::random(rng, k),
    }
}

/// A number below the given one, or one whose lowest byte or two are those of such a number: a caller's numbers are not cut.
fn wide(rng: &mut Rng, count: usize) -> usize {
    let low = rng.below(count);
    match rng.below(8) {
        0 => low + 256,
        1 => low + 65_536,
        2 => low + (1 << 32),
        _ => low,
    }
}
