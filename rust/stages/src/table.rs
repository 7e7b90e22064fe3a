//! Random closed tables: two bundles and a proof that check accepts.
//!
//! Contradictions are built into the bundles, each with the rows that close a
//! branch by it. As lines never leave a branch before it ends, one of them is
//! at hand in every branch, whatever rows come before.

use crate::build::{self, Layout};
use crate::damage::fields;
use crate::rng::Rng;
use crate::rounding::random_by;
use reference::Edition;

pub const MOST: i64 = 2_147_483_647;
/// Lines that are kept free for the rows that close a branch.
const RESERVE: usize = 8;
/// The numbers of a contradiction over four bytes: the rows that show it take
/// them at most 27 times.
const WIDE: i64 = 70_000_000;

/// K coefficients, then d; what follows is 0.
pub type Form = [i64; 17];

/// How large a table may grow.
#[derive(Clone, Copy)]
pub struct Size {
    /// Most constants.
    pub constants: usize,
    /// Most contradictions built in.
    pub contradictions: usize,
    /// Most further constraints.
    pub others: usize,
    /// Most strengthens in all; a rounding by k counts as k/2 of them, and as
    /// one at least.
    pub strengthens: usize,
    /// Most further rows in a branch before it is closed or split.
    pub derivations: usize,
}

impl Size {
    /// Files of some tens to a few hundred bytes.
    pub const SMALL: Size = Size {
        constants: 4,
        contradictions: 2,
        others: 2,
        strengthens: 3,
        derivations: 2,
    };
    pub const MEDIUM: Size = Size {
        constants: 16,
        contradictions: 3,
        others: 6,
        strengthens: 8,
        derivations: 4,
    };
    /// At most 30 steps, so 91 stretches of rows between them and the ends of
    /// branches, and 6 rows to close each of 61 branches: below 1,024.
    pub const LARGE: Size = Size {
        constants: 16,
        contradictions: 4,
        others: 20,
        strengthens: 30,
        derivations: 6,
    };
    /// A branch with more lines than one byte numbers, where the proof is of
    /// edition 2.
    pub const LONG: Size = Size {
        constants: 5,
        contradictions: 3,
        others: 8,
        strengthens: 0,
        derivations: 900,
    };
}

/// Two bundles and a proof over them.
pub struct Table {
    pub k: usize,
    pub a: Vec<u8>,
    pub b: Vec<u8>,
    pub proof: Vec<u8>,
}

impl Table {
    /// How many lines the bundles have.
    pub fn lines(&self) -> usize {
        let bundles = [&self.a, &self.b];
        let count = |file: &Vec<u8>| {
            let found = fields(file).into_iter();
            found
                .filter(|part| matches!(file[part.start], 0x03..=0x05))
                .count()
        };
        bundles.into_iter().map(count).sum()
    }
}

/// What a line says of its form, by the number in lists.
#[derive(Clone, Copy, PartialEq, Eq)]
enum Kind {
    Inequality = 0,
    Equality = 1,
    Disequality = 2,
}

use Kind::{Disequality, Equality, Inequality};

#[derive(Clone, Copy)]
struct Line {
    kind: Kind,
    t: Form,
    partial: Form,
}

/// A line that a planned row uses: one of the contradiction's constraints, or
/// a line that an earlier row of the plan made.
#[derive(Clone, Copy)]
enum Of {
    Given(usize),
    Made(usize),
}

#[derive(Clone, Copy)]
enum Row {
    Combine(Of, Of, i64, i64),
    Reduce(Of, Of, i64),
    Scale(Of, i64),
    Close(Of),
    Stride(Of, i64),
    /// Strengthen the first, close the outer branches by combining with the
    /// second, the middle one by the stride.
    Round(Of, Of, i64),
    /// Round the first by a stride and by so much, and close the branches by
    /// combining with the second.
    RoundBy(Of, Of, i64, i64),
    /// Split the first, t ≠ 0; close by combining with multiples of -t ≤ 0 and
    /// of t ≤ 0, so many times as large.
    Split(Of, (Of, i64), (Of, i64)),
    /// The same where the second line is t = 0.
    SplitEqual(Of, Of),
}

/// Constraints that contradict each other, and the rows that show it.
struct Contradiction {
    constraints: Vec<(Kind, Form)>,
    plan: Vec<Row>,
}

/// A constraint of either bundle.
struct Placed {
    kind: Kind,
    form: Form,
    /// The number of the contradiction that it belongs to, and its place there.
    part: Option<(usize, usize)>,
}

/// A contradiction as part of the table: its constraints' line numbers.
struct Built {
    lines: Vec<usize>,
    plan: Vec<Row>,
}

impl Built {
    /// What its roundings take of the branches that steps may add.
    fn cost(&self) -> usize {
        let cost = |row: &Row| match row {
            Row::RoundBy(_, _, _, k) => rounding_cost(*k),
            _ => 0,
        };
        self.plan.iter().map(cost).sum()
    }
}

/// What a rounding takes of the branches that steps may add: those that it
/// adds, and not less than a strengthen.
fn rounding_cost(k: i64) -> usize {
    k.max(2) as usize
}

/// A form with coefficients of a random size, many of them 0, and no d.
fn random_form(rng: &mut Rng, k: usize, largest: i64) -> Form {
    let mut form = [0; 17];
    let zeros = *rng.pick(&[0, 1, 1, 2, 3]);
    for coefficient in &mut form[..k] {
        if !rng.chance(zeros, 4) {
            *coefficient = rng.within(-largest, largest);
        }
    }
    // A form without any constant is of little use, so only now and then.
    if form == [0; 17] && !rng.chance(1, 12) {
        form[rng.below(k)] = rng.within(1, largest);
    }
    form
}

/// How large the coefficients of a form are; above two bytes only where that
/// many are held.
fn random_size(rng: &mut Rng, most: i64) -> i64 {
    match rng.below(if most > 32_767 { 16 } else { 12 }) {
        0..=7 => 3,
        8..=9 => 12,
        10 => 400,
        11 => 32_767,
        12 => 70_000,
        13 => 5_000_000,
        _ => most,
    }
}

/// α times one form plus β times another.
fn sum(alpha: i64, s: &Form, beta: i64, t: &Form) -> Form {
    let mut form = [0; 17];
    for (slot, (s, t)) in form.iter_mut().zip(s.iter().zip(t)) {
        *slot = alpha * s + beta * t;
    }
    form
}

fn raised(form: &Form, k: usize, by: i64) -> Form {
    let mut form = *form;
    form[k] += by;
    form
}

fn in_range(form: &Form) -> bool {
    form.iter().all(|n| (-MOST..=MOST).contains(n))
}

fn gcd(mut a: i64, mut b: i64) -> i64 {
    while b != 0 {
        (a, b) = (b, a % b);
    }
    a.abs()
}

/// A number that g does not divide.
fn not_divided(rng: &mut Rng, g: i64) -> i64 {
    rng.within(1, g - 1) + g * rng.within(-2, 2)
}

/// A random contradiction; one that takes a rounding only if that is allowed.
/// `wide`: with numbers of four bytes.
fn random_contradiction(rng: &mut Rng, k: usize, rounding: bool, wide: bool) -> Contradiction {
    use Of::{Given, Made};
    let most = if wide { WIDE } else { 32_767 };
    for _ in 0..20 {
        let size = random_size(rng, most);
        let f = random_form(rng, k, size);
        let smaller = if size > 32_767 { 70_000 } else { 400 };
        let h = random_form(rng, k, size.min(smaller));
        let other = random_form(rng, k, size.min(smaller));
        let zero = [0; 17];
        let (p, q) = (rng.within(1, 3), rng.within(1, 3));
        let sign = if rng.chance(1, 2) { 1 } else { -1 };
        let alpha = sign * p;
        let g = match rng.below(6) {
            0..=3 => rng.within(2, 7),
            4 => rng.within(8, 300),
            _ => rng.within(300, 65_535),
        };
        let (d1, d2) = (rng.within(-9, 9), rng.within(-9, 9));
        let positive = rng.within(1, 5);
        let (constraints, plan) = match rng.below(if rounding { 24 } else { 20 }) {
            // Two inequalities.
            0..=4 => (
                vec![
                    (Inequality, raised(&sum(p, &f, 0, &zero), k, d1 * p)),
                    (
                        Inequality,
                        raised(&sum(-q, &f, 0, &zero), k, positive - d1 * q),
                    ),
                ],
                vec![Row::Combine(Given(0), Given(1), q, p), Row::Close(Made(0))],
            ),
            // Three inequalities.
            5..=6 => (
                vec![
                    (Inequality, raised(&f, k, d1)),
                    (Inequality, raised(&h, k, d2)),
                    (
                        Inequality,
                        raised(&sum(-1, &f, -1, &h), k, positive - d1 - d2),
                    ),
                ],
                vec![
                    Row::Combine(Given(0), Given(1), p, p),
                    Row::Scale(Given(2), p),
                    Row::Combine(Made(1), Made(0), q, q),
                    Row::Close(Made(2)),
                ],
            ),
            // Two equalities that leave a multiple of g and a rest.
            7..=9 => {
                let g = if size > 3 {
                    rng.within(2, 5)
                } else {
                    g.min(3_000)
                };
                let e = raised(&sum(1, &f, g, &h), k, d1);
                let rest = not_divided(rng, g);
                let other = raised(&sum(-alpha, &f, g, &other), k, rest - alpha * d1);
                (
                    vec![(Equality, e), (Equality, other)],
                    vec![
                        Row::Reduce(Given(1), Given(0), alpha),
                        Row::Stride(Made(0), g),
                    ],
                )
            }
            // Two equalities that leave a number.
            10 => (
                vec![
                    (Equality, raised(&f, k, d1)),
                    (
                        Equality,
                        raised(&sum(-alpha, &f, 0, &zero), k, sign * positive - alpha * d1),
                    ),
                ],
                vec![Row::Reduce(Given(1), Given(0), alpha), Row::Close(Made(0))],
            ),
            // An inequality and an equality.
            11..=12 => (
                vec![
                    (Equality, raised(&f, k, d1)),
                    (
                        Inequality,
                        raised(&sum(-alpha, &f, 0, &zero), k, positive - alpha * d1),
                    ),
                ],
                vec![
                    Row::Reduce(Given(1), Given(0), alpha),
                    Row::Scale(Made(0), q),
                    Row::Close(Made(1)),
                ],
            ),
            // One constraint alone, by number or by stride.
            13 => {
                let (kind, d) = if rng.chance(1, 2) {
                    (Equality, sign * positive)
                } else {
                    (Inequality, positive)
                };
                (
                    vec![(kind, raised(&zero, k, d))],
                    vec![Row::Close(Given(0))],
                )
            }
            14 => {
                let g = if size > 3 {
                    rng.within(2, 5)
                } else {
                    g.min(9_000)
                };
                let rest = not_divided(rng, g);
                (
                    vec![(Equality, raised(&sum(g, &h, 0, &zero), k, rest))],
                    vec![Row::Stride(Given(0), g)],
                )
            }
            // Neither below nor above 0, and not 0.
            16..=18 => {
                let t = raised(&f, k, d1);
                (
                    vec![
                        (Disequality, t),
                        (Inequality, sum(-q, &t, 0, &zero)),
                        (Inequality, sum(p, &t, 0, &zero)),
                    ],
                    vec![Row::Split(Given(0), (Given(1), q), (Given(2), p))],
                )
            }
            19 => {
                let t = raised(&f, k, d1);
                (
                    vec![(Disequality, t), (Equality, t)],
                    vec![Row::SplitEqual(Given(0), Given(1))],
                )
            }
            // Rounded by several at once: a line as it stands, or a sum.
            20.. => {
                let by = random_by(rng) as i64;
                let g = by + rng.within(1, 9);
                // g divides the rest + by + some more, and no sum in between.
                let rest = g * rng.within(0, 2) - by - rng.within(0, g - by - 1);
                let t = raised(&sum(g, &h, 0, &zero), k, rest);
                let other = raised(&sum(-1, &t, 0, &zero), k, positive - by);
                if rng.chance(1, 3) {
                    (
                        vec![(Inequality, t), (Inequality, other)],
                        vec![Row::RoundBy(Given(0), Given(1), g, by)],
                    )
                } else {
                    let part = raised(&f, k, d1);
                    (
                        vec![
                            (Inequality, part),
                            (Inequality, sum(1, &t, -1, &part)),
                            (Inequality, other),
                        ],
                        vec![
                            Row::Combine(Given(0), Given(1), 1, 1),
                            Row::RoundBy(Made(0), Given(2), g, by),
                        ],
                    )
                }
            }
            // Contradictory only over the whole numbers, as in stage 5.
            _ => {
                let g = rng.within(2, 5);
                let rest = not_divided(rng, g);
                let t = raised(&sum(g, &h, 0, &zero), k, rest);
                (
                    vec![(Inequality, t), (Inequality, sum(-1, &t, 0, &zero))],
                    vec![Row::Round(Given(0), Given(1), g)],
                )
            }
        };
        let held = |form: &Form| form.iter().all(|n| (-most - 1..=most).contains(n));
        if constraints.iter().all(|(_, form)| held(form)) {
            return Contradiction { constraints, plan };
        }
    }
    Contradiction {
        constraints: vec![(Inequality, raised(&[0; 17], k, 1))],
        plan: vec![Row::Close(Of::Given(0))],
    }
}

/// The editions of A, B and proof.
pub type Editions = [Edition; 3];

/// A random mix of editions.
pub fn random_editions(rng: &mut Rng) -> Editions {
    [(); 3].map(|()| *rng.pick(&Edition::ALL))
}

/// A random table that check accepts, in a random mix of editions.
pub fn closed_table(rng: &mut Rng, size: &Size) -> Table {
    let editions = random_editions(rng);
    closed_table_in(rng, size, editions)
}

/// A random table that check accepts, in these editions.
pub fn closed_table_in(rng: &mut Rng, size: &Size, editions: Editions) -> Table {
    table(rng, size, editions, false)
}

/// A random table like a closed one, except that a row may take a number out
/// of range.
pub fn careless_table(rng: &mut Rng, size: &Size) -> Table {
    let editions = random_editions(rng);
    table(rng, size, editions, true)
}

fn table(rng: &mut Rng, size: &Size, editions: Editions, careless: bool) -> Table {
    let [of_a, of_b, of_proof] = editions;
    // A constraint may stand in either bundle, so both must hold its numbers.
    let wide = of_a.min(of_b) == Edition::Two;
    let k = 1 + rng.below(size.constants);
    let mut all: Vec<Placed> = Vec::new();
    let mut plans = Vec::new();
    let contradictions = 1 + rng.below(size.contradictions);
    for number in 0..contradictions {
        // The first closes a branch even where no step may be added.
        let new = random_contradiction(rng, k, number > 0, wide);
        for (place, (kind, form)) in new.constraints.iter().enumerate() {
            all.push(Placed {
                kind: *kind,
                form: *form,
                part: Some((number, place)),
            });
        }
        plans.push(Built {
            lines: vec![0; new.constraints.len()],
            plan: new.plan,
        });
    }
    for _ in 0..rng.below(size.others + 1) {
        let largest = random_size(rng, if wide { MOST } else { 32_767 });
        let form = random_form(rng, k, largest);
        // Now and then one that can be rounded.
        let times = if largest < 400 && rng.chance(1, 3) {
            rng.within(2, 20)
        } else {
            1
        };
        let form = sum(times, &form, 0, &form);
        let d = rng.within(-largest - 1, largest).max(-MOST);
        all.push(Placed {
            kind: *rng.pick(&[Inequality, Inequality, Equality, Equality, Disequality]),
            form: raised(&form, k, d),
            part: None,
        });
    }
    rng.shuffle(&mut all);
    // All in one bundle now and then, else each where chance puts it, or the
    // constraints of a contradiction in turn.
    let way = rng.below(12);
    let first_in_a = rng.chance(1, 2);
    let (own, theirs): (Vec<Placed>, Vec<Placed>) =
        all.into_iter().partition(|given| match (way, given.part) {
            (0, _) => false,
            (1, _) => true,
            (2..=7, Some((_, place))) => (place % 2 == 0) == first_in_a,
            _ => rng.chance(1, 2),
        });

    let mut maker = Maker {
        k,
        own: 0,
        lines: Vec::new(),
        rows: Layout(of_proof),
        most: of_proof.lines(),
        proof: build::header_of(of_proof, k as u8),
        branches: 2 * rng.below(size.strengthens + 1),
        derivations: size.derivations,
        multiplier: *rng.pick(&[4, 4, 4, 4, 4, 60, 65_535]),
        careless,
        claims: *rng.pick(&[0, 0, 1, 4]),
        notes: *rng.pick(&[0, 0, 0, 1, 3]),
        plans,
    };
    let mut bundles = [of_a, of_b].map(|edition| build::header_of(edition, k as u8));
    let given = [(of_a, true, &own), (of_b, false, &theirs)];
    for (bundle, (edition, own, constraints)) in bundles.iter_mut().zip(given) {
        for given in constraints {
            let form = given.form;
            let numbers: Vec<i32> = form[..=k].iter().map(|&n| n as i32).collect();
            random_notes(rng, maker.notes, bundle);
            bundle.extend(Layout(edition).constraint(given.kind as u8, &numbers));
            if let Some((number, place)) = given.part {
                maker.plans[number].lines[place] = maker.lines.len();
            }
            maker.own += usize::from(own);
            maker.lines.push(Line {
                kind: given.kind,
                t: form,
                partial: if own { form } else { [0; 17] },
            });
        }
        random_notes(rng, maker.notes, bundle);
        if maker.notes > 0 && rng.chance(1, 3) {
            let mut start = Vec::new();
            random_notes(rng, 6, &mut start);
            bundle.splice(0..0, start);
        }
    }
    maker.branch(rng, 0);
    random_notes(rng, maker.notes, &mut maker.proof);
    let [a, b] = bundles;
    Table {
        k,
        a,
        b,
        proof: maker.proof,
    }
}

/// Appends a note or two, `share` times out of 8.
fn random_notes(rng: &mut Rng, share: usize, out: &mut Vec<u8>) {
    while share > 0 && rng.chance(share, 8) {
        let length = rng.below(5);
        let contents = rng.bytes(length);
        build::push_field(out, 0x80 | rng.byte(), &contents);
    }
}

struct Maker {
    k: usize,
    /// How many lines are A's constraints.
    own: usize,
    lines: Vec<Line>,
    /// The rows of the proof's edition, and the most lines of it.
    rows: Layout,
    most: usize,
    proof: Vec<u8>,
    /// Branches that steps may still add.
    branches: usize,
    derivations: usize,
    /// What most multipliers are at most.
    multiplier: i64,
    /// Whether rows whose numbers are out of range are put in too.
    careless: bool,
    /// How often, out of 8, a new line is claimed and a note is put in.
    claims: usize,
    notes: usize,
    plans: Vec<Built>,
}

impl Maker {
    /// Writes the rows of a branch up to its end. The caller drops its lines.
    fn branch(&mut self, rng: &mut Rng, depth: usize) {
        for _ in 0..rng.below(self.derivations + 1) {
            if self.has_room() {
                self.derive(rng);
            }
        }
        let room = depth < 24 && self.has_room();
        if self.branches >= 2 && room && rng.chance(6, 8) {
            if rng.chance(1, 3) {
                if let Some(line) = self.line_to_split(rng) {
                    return self.split(rng, depth, line);
                }
            }
            if rng.chance(1, 2) {
                if let Some((line, g, by)) = self.line_to_round(rng) {
                    return self.round(rng, depth, line, g, by);
                }
            }
            if let Some(line) = self.line_to_strengthen(rng) {
                return self.strengthen(rng, depth, line);
            }
        }
        self.finish(rng);
    }

    /// Whether there are lines left beside those kept free.
    fn has_room(&self) -> bool {
        self.lines.len() + RESERVE < self.most
    }

    /// A step of its own that adds one branch counts like a strengthen.
    fn split(&mut self, rng: &mut Rng, depth: usize, line: usize) {
        self.branches -= 2;
        self.emit(rng, &self.rows.split(line));
        for part in 0..2 {
            let before = self.lines.len();
            self.enter_split(line, part);
            self.branch(rng, depth + 1);
            self.lines.truncate(before);
        }
    }

    /// A disequality whose d may be raised both ways, if a few tries find one.
    fn line_to_split(&self, rng: &mut Rng) -> Option<usize> {
        (0..6).map(|_| rng.below(self.lines.len())).find(|&number| {
            let Line { kind, t, .. } = &self.lines[number];
            *kind == Disequality && t[self.k].abs() < MOST
        })
    }

    fn strengthen(&mut self, rng: &mut Rng, depth: usize, line: usize) {
        self.branches -= 2;
        self.emit(rng, &self.rows.strengthen(line));
        for part in 0..3 {
            let before = self.lines.len();
            self.enter(line, part);
            self.branch(rng, depth + 1);
            self.lines.truncate(before);
        }
    }

    fn round(&mut self, rng: &mut Rng, depth: usize, line: usize, g: i64, by: i64) {
        self.branches -= rounding_cost(by);
        self.emit(rng, &self.rows.rounding(line, g as u16, by as u16));
        for j in std::iter::once(by).chain(0..by) {
            let before = self.lines.len();
            self.enter_rounded(line, by, j);
            self.branch(rng, depth + 1);
            self.lines.truncate(before);
        }
    }

    /// An inequality, with a stride and an amount by which it may be rounded,
    /// if a few tries find one.
    fn line_to_round(&self, rng: &mut Rng) -> Option<(usize, i64, i64)> {
        for _ in 0..6 {
            let number = rng.below(self.lines.len());
            let line = &self.lines[number];
            let common = line.t[..self.k].iter().fold(0, |common, &c| gcd(common, c));
            let g = match rng.below(2) {
                // Every stride divides a form without constants.
                0 if common != 0 => common,
                _ => rng.within(2, 40),
            };
            let d = line.t[self.k];
            // As far as the next multiple of g.
            let far = (-d).rem_euclid(g).min(random_by(rng) as i64);
            let far = far.min(self.branches as i64);
            let highest = d.max(line.partial[self.k]);
            let fits = (2..=65_535).contains(&g) && common % g == 0;
            if line.kind == Inequality && fits && far > 0 && highest + far <= MOST {
                return Some((number, g, far));
            }
        }
        None
    }

    /// An inequality whose d may be raised, if a few tries find one.
    fn line_to_strengthen(&self, rng: &mut Rng) -> Option<usize> {
        for _ in 0..4 {
            let number = rng.below(self.lines.len());
            let line = &self.lines[number];
            if line.kind == Inequality && line.t[self.k] < MOST && line.partial[self.k] < MOST {
                return Some(number);
            }
        }
        None
    }

    /// Adds the new line of a strengthen's first, second or third branch.
    fn enter(&mut self, line: usize, part: usize) {
        let Line { t, partial, .. } = self.lines[line];
        self.lines.push(match part {
            0 => Line {
                kind: Inequality,
                t: raised(&t, self.k, 1),
                partial: raised(&partial, self.k, 1),
            },
            1 => Line {
                kind: Equality,
                t,
                partial,
            },
            _ => Line {
                kind: Inequality,
                t: raised(&t, self.k, 1),
                partial,
            },
        });
    }

    /// Adds the new line of the branch of a rounding that raises tA by j.
    fn enter_rounded(&mut self, line: usize, by: i64, j: i64) {
        let Line { t, partial, .. } = self.lines[line];
        self.lines.push(Line {
            kind: Inequality,
            t: raised(&t, self.k, by),
            partial: raised(&partial, self.k, j),
        });
    }

    /// Adds the new line of a split's first or second branch.
    fn enter_split(&mut self, line: usize, part: usize) {
        let sign = if part == 0 { 1 } else { -1 };
        let t = self.lines[line].t;
        let t = raised(&sum(sign, &t, 0, &t), self.k, 1);
        let partial = if line < self.own { t } else { [0; 17] };
        self.lines.push(Line {
            kind: Inequality,
            t,
            partial,
        });
    }

    fn emit(&mut self, rng: &mut Rng, row: &[u8]) {
        random_notes(rng, self.notes, &mut self.proof);
        self.proof.extend_from_slice(row);
    }

    /// Adds a line and its row, if the numbers allow it.
    fn add(&mut self, rng: &mut Rng, line: Line, row: &[u8]) -> bool {
        if !in_range(&line.t) || !in_range(&line.partial) {
            // Refused with 13; what comes after it does not matter.
            if self.careless {
                self.emit(rng, row);
            }
            return false;
        }
        self.emit(rng, row);
        self.lines.push(line);
        if rng.chance(self.claims, 8) {
            let numbers =
                |form: &Form| -> Vec<i32> { form[..=self.k].iter().map(|&n| n as i32).collect() };
            let claim = build::claim(&numbers(&line.t), &numbers(&line.partial));
            self.emit(rng, &claim);
        }
        true
    }

    fn combine(&mut self, rng: &mut Rng, s: usize, t: usize, alpha: i64, beta: i64) -> bool {
        let (first, second) = (self.lines[s], self.lines[t]);
        let line = Line {
            kind: Inequality,
            t: sum(alpha, &first.t, beta, &second.t),
            partial: sum(alpha, &first.partial, beta, &second.partial),
        };
        let row = self.rows.combine(s, t, alpha as u16, beta as u16);
        self.add(rng, line, &row)
    }

    fn reduce(&mut self, rng: &mut Rng, s: usize, t: usize, alpha: i64) -> bool {
        let (first, second) = (self.lines[s], self.lines[t]);
        let line = Line {
            kind: first.kind,
            t: sum(1, &first.t, alpha, &second.t),
            partial: sum(1, &first.partial, alpha, &second.partial),
        };
        let row = self.rows.reduce(s, t, alpha as i16);
        self.add(rng, line, &row)
    }

    fn scale(&mut self, rng: &mut Rng, t: usize, alpha: i64) -> bool {
        let old = self.lines[t];
        let line = Line {
            kind: old.kind,
            t: sum(alpha, &old.t, 0, &old.t),
            partial: sum(alpha, &old.partial, 0, &old.partial),
        };
        let row = self.rows.scale(t, alpha as u16);
        self.add(rng, line, &row)
    }

    /// One row 0x10 to 0x12 on random lines, where their kinds allow it.
    fn derive(&mut self, rng: &mut Rng) {
        let s = rng.below(self.lines.len());
        let t = rng.below(self.lines.len());
        let largest = self.multiplier;
        let multiplier = |rng: &mut Rng| match rng.below(10) {
            0..=7 => rng.within(1, largest),
            8 => rng.within(1, 300),
            _ => rng.within(1, 65_535),
        };
        let (alpha, beta) = (multiplier(rng), multiplier(rng));
        match (self.lines[s].kind, self.lines[t].kind) {
            (Disequality, _) => false,
            _ if rng.chance(1, 5) => self.scale(rng, s, alpha),
            (_, Equality) => {
                let signed = (if rng.chance(1, 2) { alpha } else { -alpha }).clamp(-32_768, 32_767);
                self.reduce(rng, s, t, signed)
            }
            (Inequality, Inequality) => self.combine(rng, s, t, alpha, beta),
            _ => self.scale(rng, s, alpha),
        };
    }

    /// Closes the branch: by a line as it stands, by two lines that fit, or
    /// by a contradiction that was built in.
    fn finish(&mut self, rng: &mut Rng) {
        if rng.chance(2, 3) {
            if let Some(row) = self.closing_line(rng) {
                self.emit(rng, &row);
                return;
            }
        }
        if rng.chance(2, 3) && self.has_room() && self.close_by_two(rng) {
            return;
        }
        let number = rng.below(self.plans.len());
        let cost = self.plans[number].cost();
        if cost > self.branches {
            return self.follow(rng, 0);
        }
        self.branches -= cost;
        self.follow(rng, number);
    }

    /// A close row for a line that already allows one.
    fn closing_line(&mut self, rng: &mut Rng) -> Option<Vec<u8>> {
        let start = rng.below(self.lines.len());
        for offset in 0..self.lines.len() {
            let line = (start + offset) % self.lines.len();
            let Line { kind, t, .. } = &self.lines[line];
            if let Some(closing) = closing(rng, self.k, *kind, t) {
                return Some(closing.row(self.rows, line));
            }
        }
        None
    }

    /// Looks for two lines that can be combined or reduced to a closing one;
    /// with many lines not all pairs are tried, as that would be slow.
    fn close_by_two(&mut self, rng: &mut Rng) -> bool {
        let count = self.lines.len();
        let start = rng.below(count * count);
        for offset in 0..(count * count).min(150) {
            let pair = (start + offset) % (count * count);
            let (s, t) = (pair / count, pair % count);
            let (first, second) = (self.lines[s], self.lines[t]);
            if first.kind == Disequality {
                continue;
            }
            if second.kind == Equality {
                let alpha = *rng.pick(&[1, -1, 2, -2, 3, -3]);
                let new = sum(1, &first.t, alpha, &second.t);
                if let Some(closing) = closing(rng, self.k, first.kind, &new) {
                    if self.reduce(rng, s, t, alpha) {
                        let row = closing.row(self.rows, self.lines.len() - 1);
                        self.emit(rng, &row);
                        return true;
                    }
                }
            } else if (first.kind, second.kind) == (Inequality, Inequality) {
                let Some(place) = (0..self.k).find(|&i| first.t[i] != 0) else {
                    continue;
                };
                let (x, y) = (first.t[place], second.t[place]);
                if x.signum() * y.signum() != -1 {
                    continue;
                }
                let common = gcd(x, y);
                let (alpha, beta) = (y.abs() / common, x.abs() / common);
                if alpha > 65_535 || beta > 65_535 {
                    continue;
                }
                let new = sum(alpha, &first.t, beta, &second.t);
                if let Some(closing) = closing(rng, self.k, Inequality, &new) {
                    if self.combine(rng, s, t, alpha, beta) {
                        let row = closing.row(self.rows, self.lines.len() - 1);
                        self.emit(rng, &row);
                        return true;
                    }
                }
            }
        }
        false
    }

    /// The rows of a contradiction that was built in. Their numbers are inside
    /// the range, as the multipliers are at most 3 and what they come to in all
    /// is at most 27 times a constraint's.
    fn follow(&mut self, rng: &mut Rng, number: usize) {
        let made = self.lines.len();
        for index in 0..self.plans[number].plan.len() {
            let Built { lines, plan } = &self.plans[number];
            let line = |of: Of| match of {
                Of::Given(place) => lines[place],
                Of::Made(place) => made + place,
            };
            match plan[index] {
                Row::Combine(s, t, alpha, beta) => {
                    let (s, t) = (line(s), line(t));
                    self.combine(rng, s, t, alpha, beta);
                }
                Row::Reduce(s, t, alpha) => {
                    let (s, t) = (line(s), line(t));
                    self.reduce(rng, s, t, alpha);
                }
                Row::Scale(t, alpha) => {
                    let t = line(t);
                    self.scale(rng, t, alpha);
                }
                Row::Close(t) => {
                    let row = self.rows.close(line(t));
                    self.emit(rng, &row);
                }
                Row::Stride(t, g) => {
                    let row = self.rows.stride(line(t), g as u16);
                    self.emit(rng, &row);
                }
                Row::Round(t, minus, g) => {
                    let (t, minus) = (line(t), line(minus));
                    self.emit(rng, &self.rows.strengthen(t));
                    for part in 0..3 {
                        self.lines.truncate(made);
                        self.enter(t, part);
                        if part == 1 {
                            self.emit(rng, &self.rows.stride(made, g as u16));
                        } else {
                            self.combine(rng, made, minus, 1, 1);
                            self.emit(rng, &self.rows.close(made + 1));
                        }
                    }
                }
                Row::Split(t, minus, plus) => {
                    let t = line(t);
                    let others = [minus, plus].map(|(of, times)| (line(of), times));
                    self.emit(rng, &self.rows.split(t));
                    for (part, (other, times)) in others.into_iter().enumerate() {
                        self.lines.truncate(made);
                        self.enter_split(t, part);
                        self.combine(rng, made, other, times, 1);
                        self.emit(rng, &self.rows.close(made + 1));
                    }
                }
                Row::SplitEqual(t, equal) => {
                    let (t, equal) = (line(t), line(equal));
                    self.emit(rng, &self.rows.split(t));
                    for (part, alpha) in [-1, 1].into_iter().enumerate() {
                        self.lines.truncate(made);
                        self.enter_split(t, part);
                        self.reduce(rng, made, equal, alpha);
                        self.emit(rng, &self.rows.close(made + 1));
                    }
                }
                Row::RoundBy(t, minus, g, by) => {
                    let (t, minus) = (line(t), line(minus));
                    let start = self.lines.len();
                    self.emit(rng, &self.rows.rounding(t, g as u16, by as u16));
                    for j in std::iter::once(by).chain(0..by) {
                        self.lines.truncate(start);
                        self.enter_rounded(t, by, j);
                        self.combine(rng, start, minus, 1, 1);
                        self.emit(rng, &self.rows.close(start + 1));
                    }
                }
            }
        }
    }
}

enum Closing {
    Number,
    Stride(u16),
}

impl Closing {
    fn row(&self, rows: Layout, line: usize) -> Vec<u8> {
        match *self {
            Closing::Number => rows.close(line),
            Closing::Stride(g) => rows.stride(line, g),
        }
    }
}

/// How a line closes a branch, if it does.
fn closing(rng: &mut Rng, k: usize, kind: Kind, t: &Form) -> Option<Closing> {
    if kind == Disequality {
        return None;
    }
    let equality = kind == Equality;
    let d = t[k];
    let common = t[..k].iter().fold(0, |common, &c| gcd(common, c));
    if common == 0 {
        let by_number = if equality { d != 0 } else { d > 0 };
        if !by_number {
            return None;
        }
        let g = rng.within(2, 9);
        if equality && d % g != 0 && rng.chance(1, 2) {
            return Some(Closing::Stride(g as u16));
        }
        return Some(Closing::Number);
    }
    if !equality {
        return None;
    }
    // The common divisor itself, or a small divisor of it.
    let small = rng.within(2, 9);
    [small, common]
        .into_iter()
        .find(|&g| (2..=65_535).contains(&g) && common % g == 0 && d % g != 0)
        .map(|g| Closing::Stride(g as u16))
}
