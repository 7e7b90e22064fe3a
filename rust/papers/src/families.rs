//! The parametric examples at growing parameters, up to the limit that each meets first.

use crate::formula::Formula;
use crate::stage::Stage;
use reference::Edition;
use stages::build::{file_of, Layout};

/// A proof while it is written: rows and the number of the next line. Each branch starts again from the lines of its step.
struct Table {
    layout: Layout,
    rows: Vec<Vec<u8>>,
    lines: usize,
}

impl Table {
    fn combine(&mut self, s: usize, t: usize, x: u16, y: u16) -> usize {
        self.rows.push(self.layout.combine(s, t, x, y));
        self.new_line()
    }

    fn reduce(&mut self, s: usize, t: usize, x: i16) -> usize {
        self.rows.push(self.layout.reduce(s, t, x));
        self.new_line()
    }

    fn close(&mut self, t: usize) {
        self.rows.push(self.layout.close(t));
    }

    fn stride(&mut self, t: usize, g: u16) {
        self.rows.push(self.layout.stride(t, g));
    }

    fn new_line(&mut self) -> usize {
        self.lines += 1;
        self.lines - 1
    }

    /// A step's row, then each branch, which is handed its new line.
    fn step(
        &mut self,
        row: Vec<u8>,
        branches: usize,
        mut branch: impl FnMut(&mut Table, usize, usize),
    ) {
        self.rows.push(row);
        let around = self.lines;
        for index in 0..branches {
            self.lines = around;
            let line = self.new_line();
            branch(self, index, line);
        }
        self.lines = around;
    }
}

/// A member of a family: the parameter, its stage, and how many rows the table has.
pub struct Member {
    pub parameter: i64,
    pub stage: Stage,
    pub rows: usize,
}

/// Constraints as (kind, numbers), kind 0 <=, 1 =, 2 !=.
type Constraints = Vec<(u8, Vec<i32>)>;

fn member(
    parameter: i64,
    edition: Edition,
    a: Constraints,
    b: Constraints,
    write: impl Fn(&mut Table),
) -> Member {
    let layout = Layout(edition);
    let k = (a[0].1.len() - 1) as u8;
    let mut table = Table {
        layout,
        rows: Vec::new(),
        lines: a.len() + b.len(),
    };
    write(&mut table);
    let bundle = |constraints: Constraints| {
        let fields: Vec<Vec<u8>> = constraints
            .iter()
            .map(|(kind, numbers)| layout.constraint(*kind, numbers))
            .collect();
        file_of(edition, k, &fields)
    };
    Member {
        parameter,
        rows: table.rows.len(),
        stage: Stage {
            constants: (0..k).map(|i| format!("r{i}")).collect(),
            a: bundle(a),
            b: bundle(b),
            p: file_of(edition, k, &table.rows),
        },
    }
}

/// Rounds a line by k in roundings of at most 16, one inside the other, and closes every branch against q.
fn by_roundings(table: &mut Table, line: usize, g: u16, k: u16, q: usize) {
    if k == 0 {
        let sum = table.combine(line, q, 1, 1);
        return table.close(sum);
    }
    let by = k.min(reference::limits::ROUNDING);
    let row = table.layout.rounding(line, g, by);
    table.step(row, usize::from(by) + 1, |table, _, new| {
        by_roundings(table, new, g, k - by, q)
    });
}

/// The same by strengthens alone.
fn by_strengthens(table: &mut Table, line: usize, g: u16, k: u16, q: usize) {
    if k == 0 {
        let sum = table.combine(line, q, 1, 1);
        return table.close(sum);
    }
    let row = table.layout.strengthen(line);
    table.step(row, 3, |table, index, new| match index {
        1 => table.stride(new, g),
        _ => by_strengthens(table, new, g, k - 1, q),
    });
}

#[derive(Clone, Copy, PartialEq, Eq)]
pub enum Way {
    /// One rounding, whatever its k.
    One,
    Roundings,
    Strengthens,
}

/// Paper 002, Examples 2 and 4: over x, y, z.
pub fn example_2(n: i32, way: Way) -> Member {
    let a = vec![(0, vec![-2 * n, -1, 0, 1 - n]), (0, vec![2 * n, 1, 0, 0])];
    let b = vec![(0, vec![0, -1, -2 * n, 1]), (0, vec![0, 1, 2 * n, -n])];
    member(n.into(), Edition::One, a, b, |table| {
        let p = table.combine(1, 2, 1, 1);
        let q = table.combine(0, 3, 1, 1);
        let (g, k) = (2 * n as u16, 2 * n as u16 - 1);
        match way {
            Way::Roundings => by_roundings(table, p, g, k, q),
            Way::Strengthens => by_strengthens(table, p, g, k, q),
            Way::One => {
                let row = table.layout.rounding(p, g, k);
                table.step(row, usize::from(k) + 1, |table, _, new| {
                    let sum = table.combine(new, q, 1, 1);
                    table.close(sum);
                });
            }
        }
    })
}

/// Paper 002, Example 2, with A's range cut in two first: over x, y, z and a fresh h of A that is not 0.
///
/// T = y + 2nx is 1 - n to 0; T + m + 1 <= n(h + 1) and -T - m <= n(1 - h) say nothing new, and each half of h's split makes one
/// of them T <= -m - 1 or T >= -m.
pub fn example_2_cases(n: i32) -> Member {
    let m = (n - 2) / 2;
    let a = vec![
        (0, vec![-2 * n, -1, 0, 0, 1 - n]),
        (0, vec![2 * n, 1, 0, 0, 0]),
        (0, vec![2 * n, 1, 0, -n, m + 1 - n]),
        (0, vec![-2 * n, -1, 0, n, -m - n]),
        (2, vec![0, 0, 0, 1, 0]),
    ];
    let b = vec![
        (0, vec![0, -1, -2 * n, 0, 1]),
        (0, vec![0, 1, 2 * n, 0, -n]),
    ];
    member(n.into(), Edition::One, a, b, |table| {
        let p = table.combine(1, 5, 1, 1);
        let q = table.combine(0, 6, 1, 1);
        let row = table.layout.split(4);
        table.step(row, 2, |table, index, new| {
            let half = table.combine(2 + index, new, 1, n as u16);
            let line = table.combine(half, 5 + index, 1, 1);
            let (k, other) = [(2 * n - m - 2, q), (n + m, p)][index];
            by_roundings(table, line, 2 * n as u16, k as u16, other);
        });
    })
}

/// Paper 000, section 6.1, with stride k + 2: a line g(x - z) - k <= 0 rounded by k.
pub fn successive(k: i32, way: Way) -> Member {
    let g = k + 2;
    let a = vec![(0, vec![g, -1, 0, -(k / 2)]), (0, vec![-g, 1, 0, 0])];
    let b = vec![(0, vec![0, -1, g, 1]), (0, vec![0, 1, -g, -(k - k / 2)])];
    member(k.into(), Edition::One, a, b, |table| {
        let p = table.combine(0, 3, 1, 1);
        let q = table.combine(1, 2, 1, 1);
        match way {
            Way::Strengthens => by_strengthens(table, p, g as u16, k as u16, q),
            _ => by_roundings(table, p, g as u16, k as u16, q),
        }
    })
}

/// Paper 000, section 6, pure cuts: d of them, one inside the other, over 0 <= x <= d, y = 2x and y = 2z + 1. Its contradiction
/// does not need them: the family counts rows.
pub fn pure_cuts(d: i32, by_splits: bool) -> Member {
    let mut a = vec![
        (1, vec![-2, 1, 0, 0]),
        (0, vec![1, 0, 0, -d]),
        (0, vec![-1, 0, 0, 0]),
    ];
    if by_splits {
        a.extend((1..=d).rev().map(|i| (2, vec![2, 0, 0, 1 - 2 * i])));
    }
    let first_of_b = a.len();
    let b = vec![(1, vec![0, 1, -2, -1])];
    member(d.into(), Edition::One, a, b, |table| {
        let e = table.reduce(first_of_b, 0, -1);
        if by_splits {
            splits(table, 3, d, e);
        } else {
            cuts(table, 1, d, e);
        }
    })
}

fn cuts(table: &mut Table, line: usize, left: i32, e: usize) {
    if left == 0 {
        return table.stride(e, 2);
    }
    let row = table.layout.strengthen(line);
    table.step(row, 3, |table, index, new| match index {
        1 => table.stride(e, 2),
        _ => cuts(table, new, left - 1, e),
    });
}

fn splits(table: &mut Table, line: usize, left: i32, e: usize) {
    if left == 0 {
        return table.stride(e, 2);
    }
    let row = table.layout.split(line);
    table.step(row, 2, |table, index, _| match index {
        0 => splits(table, line + 1, left - 1, e),
        _ => table.stride(e, 2),
    });
}

/// Paper 000, section 3, program (2) with an even n, over a, b, c, x, y.
pub fn program_2(n: i32, edition: Edition) -> Member {
    let a = vec![
        (1, vec![1, 0, 0, -2, 0, 0]),
        (0, vec![-1, 0, 0, 0, 0, 0]),
        (0, vec![-1, 0, 0, 0, n, -(n / 2)]),
        (0, vec![1, 0, 0, 0, -n, 0]),
        (0, vec![-1, 2, 0, 0, 0, 0]),
        (0, vec![1, -2, 0, 0, 0, -1]),
    ];
    let b = vec![(1, vec![0, -3, 1, 0, 0, -1]), (0, vec![-1, 0, 1, 0, 0, 0])];
    member(n.into(), edition, a, b, |table| {
        let p = table.reduce(1, 0, 1);
        let q = table.reduce(5, 0, -1);
        let r = table.reduce(7, 0, 1);
        let u = table.reduce(r, 6, -1);
        let row = table.layout.rounding(q, 2, 1);
        table.step(row, 2, |table, _, s| {
            let v = table.combine(s, u, 3, 2);
            let w = table.combine(v, p, 1, 1);
            table.close(w);
        });
    })
}

/// Whether a formula over x, y, z says that y is one of 1 - n to 0 modulo 2n: tried at every remainder, as each of its parts is a
/// number or a stride 2n of y alone.
pub fn is_example_2(formula: &Formula, n: i32) -> bool {
    (0..2 * n).all(|y| holds(formula, y, 2 * n) == ((2 * n - y) % (2 * n) < n))
}

fn holds(formula: &Formula, y: i32, stride: i32) -> bool {
    let alone = |form: &[i32]| {
        form[..form.len() - 1]
            .iter()
            .enumerate()
            .all(|(i, &c)| i == 1 || c == 0)
    };
    match formula {
        Formula::Or(i, j) => holds(i, y, stride) || holds(j, y, stride),
        Formula::And(i, j) => holds(i, y, stride) && holds(j, y, stride),
        Formula::AtMostZero(form) => {
            assert!(alone(form) && form[1] == 0, "a number");
            form[form.len() - 1] <= 0
        }
        Formula::Divides(g, form) => {
            assert!(alone(form) && *g == stride, "a stride of y");
            (form[1] * y + form[form.len() - 1]) % g == 0
        }
        Formula::Zero(_) => panic!("no equation arises"),
    }
}
