//! Guards for a whole run of stages: document 02's point 7.
//!
//! All cuts are followed at once: each line has one t, and a tA for every cut;
//! each cut has its own formula, which grows with the rows. In cut c the stages
//! 1 to c are A, and the others B.

use crate::answer::*;
use crate::bundle::{length_within, Bundle, Kind, WriteResult};
use crate::check::{
    is_known, push_reduced, CLAIM, CLOSE_BY_NUMBER, CLOSE_BY_STRIDE, COMBINE, REDUCE, ROUND, SCALE,
    SPLIT, STRENGTHEN,
};
use crate::edition::Edition;
use crate::field::{line_number, unsigned, Field, Fields, Unfinished};
use crate::formula::{push_comparison, push_junction, TAG_AND, TAG_OR};
use crate::header::{
    header_bytes, read_constants, read_edition, HeaderFault, TAG_CONSTANTS, TAG_EDITION,
};
use crate::limits;

/// Writes the guards of a run of stages, one file behind the other, and their
/// sizes. The stages stand end to end in the buffer, each as long as `lengths`
/// says. `written` is the bytes of all guards.
pub fn guards(
    buffer: &[u8],
    lengths: &[usize],
    proof: &[u8],
    out: &mut [u8],
    sizes: &mut [usize],
) -> WriteResult {
    let guards = match guard_files(buffer, lengths, proof) {
        Ok(guards) => guards,
        Err(answer) => return WriteResult::refused(answer),
    };
    let all = guards.concat();
    let output = |number| WriteResult::refused(Answer::refused(number, FILE_OUTPUT, all.len()));
    if guards.iter().any(|file| file.len() > limits::FORMULA_BYTES) {
        return output(TOO_LONG);
    }
    match (out.get_mut(..all.len()), sizes.get_mut(..guards.len())) {
        (Some(out), Some(sizes)) => {
            out.copy_from_slice(&all);
            for (size, file) in sizes.iter_mut().zip(&guards) {
                *size = file.len();
            }
            WriteResult::accepted(all.len())
        }
        _ => output(OUTPUT_TOO_SHORT),
    }
}

/// The guard files of the cuts 0 to n, however long.
fn guard_files(buffer: &[u8], lengths: &[usize], proof: &[u8]) -> Result<Vec<Vec<u8>>, Answer> {
    let stages =
        cut_apart(buffer, lengths).ok_or(Answer::refused(WRONG_LENGTHS, FILE_OUTPUT, 0))?;
    for (stage, file) in stages.iter().enumerate() {
        length_within(file, limits::BUNDLE_BYTES, file_of(stage))?;
    }
    length_within(proof, limits::PROOF_BYTES, FILE_PROOF)?;
    let mut bundles: Vec<Bundle> = Vec::new();
    for (stage, file) in stages.iter().enumerate() {
        let k = bundles.first().map(|first| first.k);
        bundles.push(Bundle::read(file, file_of(stage), k)?);
    }
    let constraints: usize = bundles.iter().map(Bundle::count).sum();
    if constraints > limits::RUN_CONSTRAINTS {
        return Err(Answer::refused(TOO_MANY_IN_A_RUN, FILE_OUTPUT, 0));
    }
    let k = bundles[0].k;
    let header_fault =
        |HeaderFault(number, place): HeaderFault| Answer::refused(number, FILE_PROOF, place);
    let mut fields = Fields::of(proof);
    let edition = read_edition(&mut fields, is_known, &Edition::ALL).map_err(header_fault)?;
    read_constants(&mut fields, is_known, Some(k)).map_err(header_fault)?;
    let mut run = Run::over(&bundles, edition);
    loop {
        let field = match fields.take() {
            Ok(Some(field)) => field,
            Ok(None) => break,
            Err(Unfinished(place)) => return Err(run.refuse(NOT_WHOLE, NONE, place)),
        };
        run.take(&field)?;
    }
    if !run.root_closed {
        return Err(run.refuse(STILL_OPEN, NONE, proof.len()));
    }
    Ok(run.guards)
}

/// The stages of a buffer, if there are 1 to 16 and their lengths add up to it.
fn cut_apart<'a>(buffer: &'a [u8], lengths: &[usize]) -> Option<Vec<&'a [u8]>> {
    if !(1..=limits::STAGES).contains(&lengths.len()) {
        return None;
    }
    let mut rest = buffer;
    let mut stages = Vec::new();
    for &length in lengths {
        let stage;
        (stage, rest) = rest.split_at_checked(length)?;
        stages.push(stage);
    }
    rest.is_empty().then_some(stages)
}

/// The file number of a stage; the first stage, here 0, is file 11.
fn file_of(stage: usize) -> u8 {
    11 + stage as u8
}

/// A line of the current branch.
#[derive(Clone)]
struct Line {
    kind: Kind,
    /// K coefficients and d.
    t: Vec<i64>,
    /// tA in each cut.
    partials: Vec<Vec<i64>>,
    /// The stage whose constraint it is, from 0; none for a line that rows made.
    stage: Option<usize>,
}

/// Whether a line may hold these numbers.
fn within(form: &[i64]) -> bool {
    form.iter().all(|number| number.abs() <= limits::NUMBER)
}

/// α times one form plus β times another.
fn sum(alpha: i64, s: &[i64], beta: i64, t: &[i64]) -> Vec<i64> {
    s.iter().zip(t).map(|(s, t)| alpha * s + beta * t).collect()
}

/// A form times a number, with something added to its d.
fn raised(form: &[i64], times: i64, by: i64) -> Vec<i64> {
    let mut form: Vec<i64> = form.iter().map(|number| times * number).collect();
    if let Some(d) = form.last_mut() {
        *d += by;
    }
    form
}

/// The numbers of a line that is in range, as a formula holds them.
fn narrow(form: &[i64]) -> Vec<i32> {
    form.iter().map(|&number| number as i32).collect()
}

impl Line {
    fn coefficients(&self) -> &[i64] {
        &self.t[..self.t.len() - 1]
    }

    fn d(&self) -> i64 {
        self.t[self.t.len() - 1]
    }

    /// Whether g divides every coefficient.
    fn divided_by(&self, g: i64) -> bool {
        self.coefficients().iter().all(|number| number % g == 0)
    }

    /// α times this line plus β times another, of this one's kind.
    fn plus(&self, alpha: i64, other: &Line, beta: i64) -> Line {
        let cuts = self.partials.iter().zip(&other.partials);
        Line {
            kind: self.kind,
            t: sum(alpha, &self.t, beta, &other.t),
            partials: cuts.map(|(s, t)| sum(alpha, s, beta, t)).collect(),
            stage: None,
        }
    }

    /// t + `by` with tA + `by_partial`, of a kind.
    fn raised(&self, kind: Kind, by: i64, by_partial: i64) -> Line {
        let partials = self.partials.iter();
        Line {
            kind,
            t: raised(&self.t, 1, by),
            partials: partials
                .map(|partial| raised(partial, 1, by_partial))
                .collect(),
            stage: None,
        }
    }

    /// One side of a disequality: `sign` times t, plus 1, is at most 0. In a cut
    /// where the line is A's that is its tA too, else its tA is 0.
    fn side(&self, sign: i64) -> Line {
        let t = raised(&self.t, sign, 1);
        let nothing = vec![0; t.len()];
        let partial = |cut| if self.is_own(cut) { &t } else { &nothing };
        Line {
            kind: Kind::Inequality,
            partials: (0..self.partials.len())
                .map(|cut| partial(cut).clone())
                .collect(),
            t,
            stage: None,
        }
    }

    /// Whether it is a constraint of A in a cut.
    fn is_own(&self, cut: usize) -> bool {
        self.stage.is_some_and(|stage| stage < cut)
    }

    fn in_range(&self) -> bool {
        within(&self.t) && self.partials.iter().all(|partial| within(partial))
    }
}

/// A branching row whose last branch is not yet closed.
struct Open {
    /// Its own row number.
    row: usize,
    tag: u8,
    /// The line that it names.
    line: Line,
    /// Stride and amount of a rounding; else 0.
    g: u16,
    k: u16,
    /// How many lines stand before it.
    lines: usize,
    /// The number of the first row of each branch that it has reached.
    starts: Vec<usize>,
}

impl Open {
    /// The branch that it has reached, from 0.
    fn branch(&self) -> usize {
        self.starts.len() - 1
    }

    /// How many branches it has in all.
    fn branches(&self) -> usize {
        match self.tag {
            STRENGTHEN => 3,
            ROUND => usize::from(self.k) + 1,
            _ => 2,
        }
    }

    fn in_last_branch(&self) -> bool {
        self.branch() + 1 == self.branches()
    }

    /// What tA is raised by in a branch of a rounding: k, then 0 to k - 1.
    fn j(&self, branch: usize) -> i64 {
        match branch {
            0 => i64::from(self.k),
            _ => branch as i64 - 1,
        }
    }

    /// The line that a branch starts with.
    fn new_line(&self, branch: usize) -> Line {
        let k = i64::from(self.k);
        match (self.tag, branch) {
            (STRENGTHEN, 0) => self.line.raised(Kind::Inequality, 1, 1),
            (STRENGTHEN, 1) => self.line.raised(Kind::Equality, 0, 0),
            (STRENGTHEN, _) => self.line.raised(Kind::Inequality, 1, 0),
            (ROUND, _) => self.line.raised(Kind::Inequality, k, self.j(branch)),
            (_, 0) => self.line.side(1),
            (_, _) => self.line.side(-1),
        }
    }

    /// Appends what stands before a branch's part in the guard of a cut.
    fn push_before(&self, branch: usize, cut: usize, in_b: u32, guard: &mut Vec<u8>) {
        match (self.tag, branch) {
            (STRENGTHEN, 0) => push_junction(guard, TAG_OR),
            (STRENGTHEN, 1) => push_junction(guard, TAG_AND),
            (ROUND, 0) => push_junction(guard, TAG_OR),
            (ROUND, _) => {
                // Another pair follows each but the last.
                if branch + 1 < self.branches() {
                    push_junction(guard, TAG_OR);
                }
                push_junction(guard, TAG_AND);
                let e = raised(&self.line.partials[cut], 1, self.j(branch));
                push_reduced(guard, self.g, &narrow(&e), in_b);
            }
            (SPLIT, 0) if self.line.is_own(cut) => push_junction(guard, TAG_OR),
            (SPLIT, 0) => push_junction(guard, TAG_AND),
            _ => {}
        }
    }

    /// Whether the branches that must be alike are, once the last one has ended
    /// with the last of these rows.
    fn alike(&self, rows: &[Row]) -> bool {
        let branch = |number: usize| {
            let end = self.starts.get(number + 1).copied();
            &rows[self.starts[number]..end.unwrap_or(rows.len())]
        };
        match self.tag {
            STRENGTHEN => branch(0) == branch(2),
            ROUND => (1..self.branches()).all(|number| branch(0) == branch(number)),
            _ => true,
        }
    }
}

/// Tag and contents of a row.
type Row<'a> = (u8, &'a [u8]);

/// The run as far as its proof has been read.
struct Run<'a> {
    k: usize,
    /// The proof's own.
    edition: Edition,
    /// The lines of the current branch.
    lines: Vec<Line>,
    /// The steps around the current branch, outermost first.
    open: Vec<Open>,
    /// The rows so far.
    rows: Vec<Row<'a>>,
    /// Whether the field before, notes aside, was a row 0x10 to 0x12.
    claim_in_place: bool,
    root_closed: bool,
    /// For each cut the constants that occur in B, a bit each.
    in_b: Vec<u32>,
    /// For each cut its guard's file so far.
    guards: Vec<Vec<u8>>,
}

impl<'a> Run<'a> {
    /// Before the first row.
    fn over(bundles: &[Bundle], edition: Edition) -> Run<'a> {
        let k = bundles[0].k;
        let cuts = bundles.len() + 1;
        let mut lines = Vec::new();
        let mut in_b = vec![0; cuts];
        for (stage, bundle) in bundles.iter().enumerate() {
            for constraint in bundle.constraints() {
                let mut numbers = Vec::new();
                constraint.push_to(&mut numbers);
                let t: Vec<i64> = numbers.into_iter().map(i64::from).collect();
                let mut partials = Vec::new();
                for (cut, in_b) in in_b.iter_mut().enumerate() {
                    if stage < cut {
                        partials.push(t.clone());
                    } else {
                        partials.push(vec![0; k + 1]);
                        for (constant, number) in t[..k].iter().enumerate() {
                            *in_b |= u32::from(*number != 0) << constant;
                        }
                    }
                }
                lines.push(Line {
                    kind: constraint.kind,
                    t,
                    partials,
                    stage: Some(stage),
                });
            }
        }
        Run {
            k,
            edition,
            lines,
            open: Vec::new(),
            rows: Vec::new(),
            claim_in_place: false,
            root_closed: false,
            in_b,
            // K is at most 16. Formulas are of the first edition.
            guards: vec![header_bytes(Edition::One, k as u8).to_vec(); cuts],
        }
    }

    /// The answer to a fault. A refused field opens and closes nothing, so the
    /// step that is open now is the one that it found.
    fn refuse(&self, number: u8, row: u16, place: usize) -> Answer {
        let (step, branch) = match self.open.last() {
            Some(step) => (step.row as u16, step.branch() as u16),
            None => (NONE, NONE),
        };
        Answer {
            row,
            step,
            branch,
            ..Answer::refused(number, FILE_PROOF, place)
        }
    }

    /// Takes a field behind the header.
    fn take(&mut self, field: &Field<'a>) -> Result<(), Answer> {
        if let Some(number) = self.misplaced(field) {
            return Err(self.refuse(number, NONE, field.place));
        }
        // The next row's number, at most 1,024.
        let row = self.rows.len() as u16;
        if field.tag == CLAIM {
            // It belongs to the row before it.
            return Err(self.refuse(CLAIM_IN_A_RUN, row - 1, field.place));
        }
        self.row(field.tag, field.contents)
            .map_err(|number| self.refuse(number, row, field.place))
    }

    /// What is wrong with a field before it is known what it says.
    fn misplaced(&self, field: &Field) -> Option<u8> {
        let line = self.edition.line_bytes();
        let length = match field.tag {
            COMBINE => Some(2 * line + 4),
            REDUCE => Some(2 * line + 2),
            SCALE | CLOSE_BY_STRIDE => Some(line + 2),
            STRENGTHEN | CLOSE_BY_NUMBER | SPLIT => Some(line),
            ROUND => Some(line + 4),
            CLAIM if self.claim_in_place => Some(2 * 4 * (self.k + 1)),
            CLAIM | TAG_EDITION | TAG_CONSTANTS => None,
            _ => return Some(UNKNOWN_TAG),
        };
        if self.root_closed {
            return Some(AFTER_THE_END);
        }
        match length {
            None => Some(OUT_OF_PLACE),
            Some(length) if length != field.contents.len() => Some(WRONG_LENGTH),
            Some(_) => None,
        }
    }

    /// Takes a row of the right length.
    fn row(&mut self, tag: u8, contents: &'a [u8]) -> Result<(), u8> {
        if self.rows.len() == limits::ROWS {
            return Err(TOO_MANY_ROWS);
        }
        self.rows.push((tag, contents));
        self.claim_in_place = matches!(tag, COMBINE | REDUCE | SCALE);
        let width = self.edition.line_bytes();
        let names = if matches!(tag, COMBINE | REDUCE) {
            2
        } else {
            1
        };
        let (lines, numbers) = contents.split_at(names * width);
        let mut named = Vec::new();
        for line in lines.chunks_exact(width) {
            named.push(self.line(line_number(line))?);
        }
        let numbers: Vec<u16> = numbers.chunks_exact(2).map(unsigned).collect();
        match (tag, &named[..], &numbers[..]) {
            (COMBINE, [s, t], &[alpha, beta]) => {
                asks(s.kind == Kind::Inequality && t.kind == Kind::Inequality)?;
                not_zero(&[alpha, beta])?;
                self.add(s.plus(i64::from(alpha), t, i64::from(beta)))
            }
            (REDUCE, [s, t], &[alpha]) => {
                asks(s.kind != Kind::Disequality && t.kind == Kind::Equality)?;
                not_zero(&[alpha])?;
                // The one multiplier with a sign.
                self.add(s.plus(1, t, i64::from(alpha as i16)))
            }
            (SCALE, [t], &[alpha]) => {
                asks(t.kind != Kind::Disequality)?;
                not_zero(&[alpha])?;
                self.add(t.plus(i64::from(alpha), t, 0))
            }
            (STRENGTHEN, [t], &[]) => {
                asks(t.kind == Kind::Inequality)?;
                self.open(tag, t, 0, 0)
            }
            (SPLIT, [t], &[]) => {
                asks(t.kind == Kind::Disequality)?;
                self.open(tag, t, 0, 0)
            }
            (ROUND, [t], &[g, k]) => {
                asks(t.kind == Kind::Inequality)?;
                if g < 2 || k == 0 || k > limits::ROUNDING {
                    return Err(WRONG_MULTIPLIER);
                }
                let stride = i64::from(g);
                let met = (0..i64::from(k)).all(|j| (t.d() + j) % stride != 0);
                if !met || !t.divided_by(stride) {
                    return Err(NOT_MET);
                }
                self.open(tag, t, g, k)
            }
            (CLOSE_BY_NUMBER, [t], &[]) => {
                asks(t.kind != Kind::Disequality)?;
                let equality = t.kind == Kind::Equality;
                let impossible = if equality { t.d() != 0 } else { t.d() > 0 };
                if !impossible || t.coefficients().iter().any(|&number| number != 0) {
                    return Err(NOT_MET);
                }
                self.close(t, |guard, partial, _| {
                    push_comparison(guard, equality, partial);
                })
            }
            (CLOSE_BY_STRIDE, [t], &[g]) => {
                asks(t.kind == Kind::Equality)?;
                if g < 2 {
                    return Err(WRONG_MULTIPLIER);
                }
                if !t.divided_by(i64::from(g)) || t.d() % i64::from(g) == 0 {
                    return Err(NOT_MET);
                }
                self.close(t, |guard, partial, in_b| {
                    push_reduced(guard, g, partial, in_b);
                })
            }
            // The length was right, so there is no other row.
            _ => Err(WRONG_LENGTH),
        }
    }

    fn line(&self, number: usize) -> Result<Line, u8> {
        self.lines.get(number).cloned().ok_or(NO_SUCH_LINE)
    }

    /// Adds a line that a row makes.
    fn add(&mut self, line: Line) -> Result<(), u8> {
        self.room_for_a_line()?;
        if !line.in_range() {
            return Err(OUT_OF_RANGE);
        }
        self.lines.push(line);
        Ok(())
    }

    /// Opens a step and enters its first branch.
    fn open(&mut self, tag: u8, line: &Line, g: u16, k: u16) -> Result<(), u8> {
        if self.open.len() == limits::STEPS {
            return Err(TOO_DEEP);
        }
        self.room_for_a_line()?;
        let step = Open {
            // It is counted already.
            row: self.rows.len() - 1,
            tag,
            line: line.clone(),
            g,
            k,
            lines: self.lines.len(),
            starts: Vec::new(),
        };
        if !(0..step.branches()).all(|branch| step.new_line(branch).in_range()) {
            return Err(OUT_OF_RANGE);
        }
        self.open.push(step);
        self.enter_branch();
        Ok(())
    }

    /// Enters the next branch of the innermost step.
    fn enter_branch(&mut self) {
        if let Some(step) = self.open.last_mut() {
            step.starts.push(self.rows.len());
            let branch = step.branch();
            for (cut, guard) in self.guards.iter_mut().enumerate() {
                step.push_before(branch, cut, self.in_b[cut], guard);
            }
            self.lines.truncate(step.lines);
            self.lines.push(step.new_line(branch));
        }
    }

    /// Closes the current branch by a line, whose tA `push` makes a formula of,
    /// and enters the next one, if any is open.
    fn close(&mut self, t: &Line, push: impl Fn(&mut Vec<u8>, &[i32], u32)) -> Result<(), u8> {
        // The steps that this row ends, with their last branch.
        let mut ended = self
            .open
            .iter()
            .rev()
            .take_while(|step| step.in_last_branch());
        if !ended.all(|step| step.alike(&self.rows)) {
            return Err(UNLIKE_BRANCHES);
        }
        for (cut, guard) in self.guards.iter_mut().enumerate() {
            push(guard, &narrow(&t.partials[cut]), self.in_b[cut]);
        }
        while self.open.last().is_some_and(Open::in_last_branch) {
            self.open.pop();
        }
        self.root_closed = self.open.is_empty();
        self.enter_branch();
        Ok(())
    }

    fn room_for_a_line(&self) -> Result<(), u8> {
        if self.lines.len() >= self.edition.lines() {
            return Err(TOO_MANY_LINES);
        }
        Ok(())
    }
}

/// Refuses a multiplier of 0.
fn not_zero(multipliers: &[u16]) -> Result<(), u8> {
    if multipliers.contains(&0) {
        Err(WRONG_MULTIPLIER)
    } else {
        Ok(())
    }
}

/// Refuses a line that is not of the kind asked for.
fn asks(met: bool) -> Result<(), u8> {
    if met {
        Ok(())
    } else {
        Err(WRONG_KIND)
    }
}
