//! A proof as a tree: where its branches start, and the line that each row makes. For showing; the verified library
//! decides what is accepted.

use crate::fields::{tag::*, Field, File};
use crate::steps::Steps;

/// A line: what it says of t (the tag of a constraint), t, and its partial interpolant tA.
#[derive(Clone, PartialEq, Debug)]
pub struct Line {
    pub kind: u8,
    pub t: Vec<i64>,
    pub ta: Vec<i64>,
}

/// An open step, and on which of its branches we are.
#[derive(Clone, Copy)]
pub struct Step<'a> {
    pub row: usize,
    pub field: &'a Field,
    pub branch: usize,
}

pub enum What<'a> {
    Field(&'a Field),
    Branch(Step<'a>),
}

/// A field of the proof, or the start of a branch, in the order of the file.
pub struct Node<'a> {
    pub depth: usize,
    pub what: What<'a>,
    /// The row's number.
    pub row: Option<usize>,
    /// The number of the line that it makes, or that a close or step names.
    pub number: Option<usize>,
    /// That line, where it is known.
    pub line: Option<Line>,
    /// How many lines the branch has before it.
    pub lines: usize,
}

impl<'a> Node<'a> {
    /// A field outside of every branch.
    pub fn of(field: &'a Field) -> Node<'a> {
        Node {
            depth: 0,
            what: What::Field(field),
            row: None,
            number: None,
            line: None,
            lines: 0,
        }
    }
}

/// A bundle's or formula's fields behind the header; constraints are lines from `first` on.
pub fn flat(file: &File, first: usize) -> Vec<Node<'_>> {
    let mut nodes: Vec<Node> = file.parts().1.iter().map(Node::of).collect();
    let is_constraint = |node: &&mut Node| matches!(node.what, What::Field(f) if f.is_constraint());
    for (node, number) in nodes.iter_mut().filter(is_constraint).zip(first..) {
        node.number = Some(number);
    }
    nodes
}

#[derive(Default)]
pub struct Tree<'a> {
    pub nodes: Vec<Node<'a>>,
    pub closed: bool,
    /// The place of a known field where none may stand: a claim behind no new line, or anything behind the end.
    pub misplaced: Option<usize>,
}

/// The tree of a proof, behind its header. Lines are told up to the place `until`, so not behind a fault.
pub fn tree<'a>(a: &File, b: &File, proof: &'a File, until: usize) -> Tree<'a> {
    let mut walk = Walk {
        tree: Tree::default(),
        lines: bundle_lines(a, b),
        of_a: a.constraints(),
        steps: Steps::default(),
        rows: 0,
        made: false,
        until,
    };
    for field in proof.parts().1 {
        walk.field(field);
    }
    walk.tree
}

struct Walk<'a> {
    tree: Tree<'a>,
    /// The lines of the branch, where they are known.
    lines: Vec<Option<Line>>,
    of_a: usize,
    /// The row of each open step, and how many lines were there before it.
    steps: Steps<(usize, &'a Field, usize)>,
    rows: usize,
    /// Whether the last field, notes aside, made a line.
    made: bool,
    until: usize,
}

impl<'a> Walk<'a> {
    fn field(&mut self, field: &'a Field) {
        let misplaced = self.tree.closed || (field.tag == CLAIM && !self.made);
        if misplaced && !field.is_note() {
            self.tree.misplaced.get_or_insert(field.place);
        }
        if !field.is_note() {
            self.made = field.makes_line();
        }
        let (number, line) = self.line_of(field);
        self.tree.nodes.push(Node {
            depth: self.steps.depth(),
            row: field.is_row().then_some(self.rows),
            number,
            line: line.clone(),
            lines: self.lines.len(),
            ..Node::of(field)
        });
        if field.makes_line() {
            self.lines.push(line);
        } else if field.is_close() {
            self.steps.close();
            self.tree.closed |= self.steps.depth() == 0;
            self.start_branch(field.place);
        } else if field.is_row() {
            let kept = (self.rows, field, self.lines.len());
            self.steps.open(field.branches(), kept);
            self.start_branch(field.place);
        }
        self.rows += usize::from(field.is_row());
    }

    /// The line that a row makes, or that a close or step names, and its number.
    fn line_of(&self, field: &Field) -> (Option<usize>, Option<Line>) {
        if field.makes_line() {
            let line = made_line(field, &self.lines);
            return (
                Some(self.lines.len()),
                line.filter(|_| field.place < self.until),
            );
        }
        if !field.is_row() {
            return (None, None);
        }
        // What a row at fault names is still right.
        let named = field.numbers[0] as usize;
        let line = self.lines.get(named).cloned().flatten();
        (Some(named), line.filter(|_| field.place <= self.until))
    }

    /// The next branch of the innermost step, behind the row at a place.
    fn start_branch(&mut self, place: usize) {
        let Some(open) = self.steps.innermost() else {
            return;
        };
        let (row, field, before) = open.kept;
        let step = Step {
            row,
            field,
            branch: open.branch,
        };
        self.lines.truncate(before);
        let line = branch_line(&step, &self.lines, self.of_a);
        let line = line.filter(|_| place < self.until);
        self.tree.nodes.push(Node {
            depth: self.steps.depth() - 1,
            what: What::Branch(step),
            number: Some(before),
            line: line.clone(),
            lines: before,
            ..Node::of(field)
        });
        self.lines.push(line);
    }
}

fn bundle_lines(a: &File, b: &File) -> Vec<Option<Line>> {
    let mut lines = Vec::new();
    for (file, share) in [(a, 1), (b, 0)] {
        for field in file.fields.iter().filter(|field| field.is_constraint()) {
            lines.push(Some(Line {
                kind: field.tag,
                t: field.numbers.clone(),
                ta: field.numbers.iter().map(|n| share * n).collect(),
            }));
        }
    }
    lines
}

/// αs + βt + d, where every number stays in range.
fn sum(alpha: i64, s: &[i64], beta: i64, t: &[i64], d: i64) -> Option<Vec<i64>> {
    let mut form: Vec<i64> = s.iter().zip(t).map(|(x, y)| alpha * x + beta * y).collect();
    *form.last_mut()? += d;
    let most = i64::from(i32::MAX);
    form.iter().all(|n| n.abs() <= most).then_some(form)
}

fn both(kind: u8, alpha: i64, s: &Line, beta: i64, t: &Line) -> Option<Line> {
    let (t, ta) = (
        sum(alpha, &s.t, beta, &t.t, 0)?,
        sum(alpha, &s.ta, beta, &t.ta, 0)?,
    );
    Some(Line { kind, t, ta })
}

fn made_line(row: &Field, lines: &[Option<Line>]) -> Option<Line> {
    let line = |number: i64| lines.get(number as usize)?.as_ref();
    match (row.tag, &row.numbers[..]) {
        (COMBINE, &[s, t, alpha, beta]) => both(INEQUALITY, alpha, line(s)?, beta, line(t)?),
        (REDUCE, &[s, t, alpha]) => both(line(s)?.kind, 1, line(s)?, alpha, line(t)?),
        (SCALE, &[t, alpha]) => both(line(t)?.kind, alpha, line(t)?, 0, line(t)?),
        _ => None,
    }
}

/// The new line of a step's branch.
fn branch_line(step: &Step, lines: &[Option<Line>], of_a: usize) -> Option<Line> {
    let number = step.field.numbers[0] as usize;
    let Line { t, ta, .. } = lines.get(number)?.as_ref()?;
    let plus = |form: &[i64], sign: i64, d: i64| sum(sign, form, 0, form, d);
    let (kind, t, ta) = match (step.field.tag, step.branch) {
        (STRENGTHEN, 0) => (INEQUALITY, plus(t, 1, 1)?, plus(ta, 1, 1)?),
        (STRENGTHEN, 1) => (EQUALITY, t.clone(), ta.clone()),
        (STRENGTHEN, _) => (INEQUALITY, plus(t, 1, 1)?, ta.clone()),
        (ROUND, branch) => {
            let k = *step.field.numbers.last()?;
            let j = if branch == 0 { k } else { branch as i64 - 1 };
            (INEQUALITY, plus(t, 1, k)?, plus(ta, 1, j)?)
        }
        (_, branch) => {
            let t = plus(t, if branch == 0 { 1 } else { -1 }, 1)?;
            let share = i64::from(number < of_a);
            let ta = t.iter().map(|n| share * n).collect();
            (INEQUALITY, t, ta)
        }
    };
    Some(Line { kind, t, ta })
}
