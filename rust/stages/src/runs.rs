//! Runs of stages (document 02, point 7): bundles end to end, their lengths, and
//! one proof over all their lines.

use crate::build::{claim, file, fill, header_of, note, Layout};
use crate::case::{push, push_answer, push_bytes, push_list, Case};
use crate::damage::{damage, edition_of, fields, noise};
use crate::rng::Rng;
use crate::stream::near;
use crate::table::{careless_table, closed_table, Size, Table};
use crate::tree::branches;
use crate::unused::{constraints, Constraint};
use reference::Edition;

/// What is lent to the guards of a run, outputs aside.
#[derive(Clone, PartialEq, Eq, Debug)]
pub struct Run {
    pub buffer: Vec<u8>,
    pub lengths: Vec<usize>,
    pub proof: Vec<u8>,
}

impl Run {
    fn of(stages: &[Vec<u8>], proof: Vec<u8>) -> Run {
        Run {
            buffer: stages.concat(),
            lengths: stages.iter().map(Vec::len).collect(),
            proof,
        }
    }

    /// The stages, where the lengths add up to the buffer.
    pub fn stages(&self) -> Vec<&[u8]> {
        let mut rest = &self.buffer[..];
        let mut stages = Vec::new();
        for &length in &self.lengths {
            let Some((stage, more)) = rest.split_at_checked(length) else {
                break;
            };
            stages.push(stage);
            rest = more;
        }
        stages
    }

    /// The printed line of a call with more or less room than the guards need,
    /// with the reference's answer.
    pub fn print_call(&self, rng: &mut Rng) -> String {
        let call = |out: usize, sizes: usize| {
            let (mut out, mut sizes) = (vec![0; out], vec![0; sizes]);
            let (buffer, lengths, proof) = (&self.buffer, &self.lengths, &self.proof);
            let result = reference::guards(buffer, lengths, proof, &mut out, &mut sizes);
            let filled = if result.answer.number == 0 {
                lengths.len() + 1
            } else {
                0
            };
            out.truncate(result.written);
            sizes.truncate(filled);
            (result.answer, out, sizes)
        };
        let answer = call(0, 0).0;
        let needed = if (answer.number, answer.file) == (21, 4) {
            answer.place
        } else {
            0
        };
        let lent = near(rng, needed);
        let slots = near(rng, self.lengths.len() + 1);
        let (answer, out, sizes) = call(lent, slots);
        let mut text = "guards ".to_string();
        push_bytes(&mut text, &self.buffer);
        push_list(&mut text, &self.lengths);
        push_bytes(&mut text, &self.proof);
        push(&mut text, lent);
        push(&mut text, slots);
        push_answer(&mut text, answer);
        push_bytes(&mut text, &out);
        push_list(&mut text, &sizes);
        text.pop();
        text
    }

    /// One line for each file, in hexadecimal.
    pub fn print(&self) -> String {
        let hex = |bytes: &[u8]| -> String { bytes.iter().map(|b| format!("{b:02X}")).collect() };
        format!(
            "run {:?} {} {}",
            self.lengths,
            hex(&self.buffer),
            hex(&self.proof)
        )
    }
}

/// A branch of a proof: rows that make lines, and what ends it.
#[derive(Clone)]
struct Branch {
    rows: Vec<Vec<u8>>,
    /// The close or the step.
    end: Vec<u8>,
    /// The branches of that step.
    inside: Vec<Branch>,
}

/// No proof is made with more rows than this: more than are allowed.
const MOST_ROWS: usize = 1_200;

impl Branch {
    /// Reads a branch of a proof that is right, without claims and notes.
    fn read<'a>(fields: &mut impl Iterator<Item = &'a [u8]>) -> Branch {
        let mut rows = Vec::new();
        let mut end = Vec::new();
        for field in fields.by_ref() {
            match field[0] {
                0x10..=0x12 => rows.push(field.to_vec()),
                0x13..=0x17 => {
                    end = field.to_vec();
                    break;
                }
                _ => {}
            }
        }
        let inside = match end.first() {
            Some(_) => (0..branches(&end)).map(|_| Branch::read(fields)).collect(),
            None => Vec::new(),
        };
        Branch { rows, end, inside }
    }

    fn count(&self) -> usize {
        self.rows.len() + 1 + self.inside.iter().map(Branch::count).sum::<usize>()
    }

    /// The same branch with alike branches in every strengthen and rounding, but
    /// for `unlike` of 64 steps; none where it gets too long.
    fn alike(&self, rng: &mut Rng, unlike: usize) -> Option<Branch> {
        let mut inside = Vec::new();
        for (number, branch) in self.inside.iter().enumerate() {
            let same = match self.end[0] {
                0x13 => number == 2,
                0x16 => number > 0,
                _ => false,
            };
            let next = match inside.first().filter(|_| same && !rng.chance(unlike, 64)) {
                Some(first) => Branch::clone(first),
                None => branch.alike(rng, unlike)?,
            };
            inside.push(next);
        }
        let made = Branch {
            rows: self.rows.clone(),
            end: self.end.clone(),
            inside,
        };
        (made.count() <= MOST_ROWS).then_some(made)
    }

    fn push_to(&self, fields: &mut Vec<Vec<u8>>) {
        fields.extend(self.rows.iter().cloned());
        fields.push(self.end.clone());
        for branch in &self.inside {
            branch.push_to(fields);
        }
    }

    /// Some branch of some step inside, each as likely.
    fn pick(&mut self, rng: &mut Rng) -> Option<&mut Branch> {
        if self.inside.is_empty() {
            return None;
        }
        let number = rng.below(self.inside.len());
        let chosen = &mut self.inside[number];
        if chosen.inside.is_empty() || rng.chance(1, 2) {
            return Some(chosen);
        }
        chosen.pick(rng)
    }
}

/// The tree of a table's proof.
fn tree(proof: &[u8]) -> Branch {
    let parts = fields(proof);
    Branch::read(&mut parts.into_iter().map(|part| &proof[part]))
}

/// The proof of these fields, with notes put in now and then.
fn proof_of(rng: &mut Rng, edition: Edition, k: usize, fields: &[Vec<u8>]) -> Vec<u8> {
    let mut proof = header_of(edition, k as u8);
    let share = *rng.pick(&[0, 0, 1]);
    for field in fields {
        if rng.chance(share, 6) {
            proof.extend(note());
        }
        proof.extend_from_slice(field);
    }
    proof
}

/// A bundle of an edition that holds its numbers.
pub fn bundle(rng: &mut Rng, k: usize, constraints: &[Constraint]) -> Vec<u8> {
    let mut numbers = constraints.iter().flat_map(|(_, numbers)| numbers);
    let edition = if numbers.all(|&number| Edition::One.holds(number)) {
        *rng.pick(&Edition::ALL)
    } else {
        Edition::Two
    };
    let mut file = header_of(edition, k as u8);
    for (kind, numbers) in constraints {
        if rng.chance(1, 20) {
            file.extend(note());
        }
        file.extend(Layout(edition).constraint(*kind, numbers));
    }
    file
}

/// So many stages with these constraints in their order, some stages empty. No
/// stage has more than 32.
fn cut(rng: &mut Rng, k: usize, all: &[Constraint], stages: usize) -> Vec<Vec<u8>> {
    let mut cuts: Vec<usize> = (1..stages).map(|_| rng.below(all.len() + 1)).collect();
    cuts.push(0);
    cuts.push(all.len());
    cuts.sort_unstable();
    let parts: Vec<&[Constraint]> = cuts.windows(2).map(|pair| &all[pair[0]..pair[1]]).collect();
    parts.into_iter().map(|part| bundle(rng, k, part)).collect()
}

/// How many stages: mostly a few.
fn stage_count(rng: &mut Rng) -> usize {
    match rng.below(4) {
        0 => 1 + rng.below(16),
        _ => 1 + rng.below(4),
    }
}

/// A run of a table's constraints.
fn run(rng: &mut Rng, table: &Table, fields: &[Vec<u8>]) -> Run {
    let all = [constraints(&table.a), constraints(&table.b)].concat();
    let stages = stage_count(rng);
    let stages = cut(rng, table.k, &all, stages);
    let edition = edition_of(&table.proof);
    let proof = proof_of(rng, edition, table.k, fields);
    Run::of(&stages, proof)
}

/// A table and the tree of its proof with branches alike but for `unlike` of 64.
fn alike_table(rng: &mut Rng, size: &Size, careless: bool, unlike: usize) -> (Table, Branch) {
    loop {
        let table = if careless {
            careless_table(rng, size)
        } else {
            closed_table(rng, size)
        };
        if let Some(tree) = tree(&table.proof).alike(rng, unlike) {
            return (table, tree);
        }
    }
}

/// A run whose branches are alike; accepted unless a number is out of range for
/// some cut, or there are too many rows.
pub fn sound(rng: &mut Rng, size: &Size) -> Run {
    let (table, tree) = alike_table(rng, size, false, 0);
    let mut fields = Vec::new();
    tree.push_to(&mut fields);
    run(rng, &table, &fields)
}

/// A run in which some branches are not alike, among them such as may be.
pub fn unlike(rng: &mut Rng, size: &Size) -> Run {
    let share = *rng.pick(&[0, 0, 4, 32, 64]);
    let (table, mut tree) = alike_table(rng, size, false, share);
    if share == 0 {
        // A row more, that nothing uses, before the end of one branch; or
        // another multiplier there; or another order.
        let line = rng.below(2);
        let row = Layout(edition_of(&table.proof)).scale(line, 1);
        if let Some(branch) = tree.pick(rng) {
            match rng.below(4) {
                0 => branch.rows.reverse(),
                1 => {
                    if let Some(last) = branch.rows.last_mut().and_then(|row| row.last_mut()) {
                        *last = last.wrapping_add(1);
                    }
                }
                _ => branch.rows.push(row),
            }
        }
    }
    let mut fields = Vec::new();
    tree.push_to(&mut fields);
    run(rng, &table, &fields)
}

/// A run with a claim behind one of its rows, right or wrong, of the right
/// length or not, in its place or not.
pub fn claimed(rng: &mut Rng, size: &Size) -> Run {
    let (table, tree) = alike_table(rng, size, false, 0);
    let mut fields = Vec::new();
    tree.push_to(&mut fields);
    let place = rng.below(fields.len() + 1);
    let count = if rng.chance(1, 6) {
        rng.below(table.k + 3)
    } else {
        table.k + 1
    };
    let numbers = vec![rng.below(3) as i32 - 1; count];
    fields.insert(place, claim(&numbers, &numbers));
    run(rng, &table, &fields)
}

/// A run in which the multiplications of a careless table may leave the range.
pub fn careless(rng: &mut Rng, size: &Size) -> Run {
    let (table, tree) = alike_table(rng, size, true, 0);
    let mut fields = Vec::new();
    tree.push_to(&mut fields);
    run(rng, &table, &fields)
}

/// A run in which a number is out of range in some cuts only: two lines that
/// cancel each other but for a small rest, their sum times a large number. It is
/// out of range in the cuts between the two stages, of which there may be one
/// alone, and in none where both stand in one stage. The range is left by a row
/// that makes a line, or by a strengthen, rounding or split of it.
pub fn out_of_range(rng: &mut Rng) -> Run {
    let k = 1 + rng.below(3);
    let count = 1 + rng.below(6);
    let (i, j) = (rng.below(count), rng.below(count));
    let (i, j) = (i.min(j), i.max(j));
    let big = *rng.pick(&[2_147_483_647, 2_147_483_646, 2_000_000_000, 1_073_741_824]);
    let positive = rng.chance(1, 2);
    let place = rng.below(k + 1);
    let form = |number: i32, d: i32| {
        let mut form = vec![0; k + 1];
        form[place] = number;
        form[k] += d;
        form
    };
    // Their sum is 1 ≤ 0, or 1 = 0, with `big` in the cuts between them.
    let kind = rng.below(2) as u8;
    // The 1 goes where it brings a number towards 0.
    let (first, second) = if positive {
        (form(big, 0), form(-big, 1))
    } else {
        (form(-big, 1), form(big, 0))
    };
    let mut stages = vec![Vec::new(); count];
    stages[i].push((kind, first));
    stages[j].push((kind, second));
    let files: Vec<Vec<u8>> = stages.iter().map(|stage| bundle(rng, k, stage)).collect();
    let edition = *rng.pick(&Edition::ALL);
    let rows = Layout(edition);
    let sum = if kind == 0 {
        rows.combine(0, 1, 1, 1)
    } else {
        rows.reduce(0, 1, 1)
    };
    let mut fields = vec![sum];
    let last = match rng.below(4) {
        0 => 2,
        1 => {
            fields.push(rows.scale(2, 1 + rng.below(3) as u16));
            3
        }
        2 if kind == 0 => {
            // tA + 1 is out of range where it is the largest number.
            fields.push(rows.strengthen(2));
            fields.extend(vec![rows.close(2); 2]);
            2
        }
        _ => {
            let by = 1 + rng.below(4) as u16;
            if kind == 0 {
                fields.push(rows.rounding(2, 19, by));
                fields.extend(vec![rows.close(2); usize::from(by)]);
            }
            2
        }
    };
    fields.push(rows.close(last));
    let proof = proof_of(rng, edition, k, &fields);
    Run::of(&files, proof)
}

/// A run whose guards have some 65,536 bytes: roundings inside roundings, whose
/// branches are closes of one line.
pub fn long(rng: &mut Rng) -> Run {
    // From below that size to above it, as K grows.
    let k = 9 + rng.below(8);
    let edition = *rng.pick(&Edition::ALL);
    let rows = Layout(edition);
    let close = Branch {
        rows: Vec::new(),
        end: rows.close(0),
        inside: Vec::new(),
    };
    let step = |by: usize, inside: Branch| Branch {
        rows: Vec::new(),
        end: rows.rounding(0, 17, by as u16),
        inside: vec![inside; by + 1],
    };
    let inner = step(14 + rng.below(3), close.clone());
    let outer = step(16, inner);
    let tree = if rng.chance(1, 2) {
        Branch {
            rows: Vec::new(),
            end: rows.strengthen(0),
            inside: vec![outer.clone(), close, outer],
        }
    } else {
        step(1, outer)
    };
    let mut fields = Vec::new();
    tree.push_to(&mut fields);
    let mut form = vec![0; k + 1];
    form[k] = 1;
    let count = 1 + rng.below(3);
    let stages = cut(rng, k, &[(0, form)], count);
    Run::of(&stages, proof_of(rng, edition, k, &fields))
}

/// A run of 1,022 to 1,026 rows, all branches alike: scales on the root, then
/// two roundings by 16 inside one by 1.
pub fn full(rng: &mut Rng) -> Run {
    let rows = Layout(Edition::Two);
    let step = |by: usize, inside: Branch| Branch {
        rows: Vec::new(),
        end: rows.rounding(0, 17, by as u16),
        inside: vec![inside; by + 1],
    };
    let close = Branch {
        rows: Vec::new(),
        end: rows.close(0),
        inside: Vec::new(),
    };
    let mut tree = step(1, step(16, step(16, close)));
    let more = 1_022 + rng.below(5) - tree.count();
    tree.rows = vec![rows.scale(0, 1); more];
    let mut fields = Vec::new();
    tree.push_to(&mut fields);
    let count = 1 + rng.below(3);
    let stages = cut(rng, 1, &[(0, vec![0, 1])], count);
    Run::of(&stages, proof_of(rng, Edition::Two, 1, &fields))
}

/// A run of 60 to 66 constraints, on both sides of the limit; a stage may have a
/// 33rd.
pub fn crowded(rng: &mut Rng) -> Run {
    let k = 1 + rng.below(4);
    let mut form = vec![0; k + 1];
    form[k] = 1;
    let count = 60 + rng.below(7);
    let all: Vec<Constraint> = (0..count).map(|_| (0, form.clone())).collect();
    let number = 1 + rng.below(16);
    let stages = if rng.chance(1, 2) {
        // 32 at most in each.
        all.chunks(count.div_ceil(number.max(3)))
            .map(|part| bundle(rng, k, part))
            .collect()
    } else {
        cut(rng, k, &all, number)
    };
    let edition = *rng.pick(&Edition::ALL);
    let line = *rng.pick(&[0, 31, 32, 59, 63, 64]);
    let fields = [Layout(edition).close(line)];
    Run::of(&stages, proof_of(rng, edition, k, &fields))
}

/// A run whose number of stages or whose lengths are not right, or just so.
pub fn measured(rng: &mut Rng, size: &Size) -> Run {
    let mut run = sound(rng, size);
    let count = run.lengths.len();
    let last = count - 1;
    match rng.below(9) {
        0 => run.lengths.clear(),
        1 => {
            // Empty stages up to 15, 16 or 17.
            let k = run.proof[7];
            let wanted = 15 + rng.below(3);
            while run.lengths.len() < wanted {
                let empty = file(k, &[]);
                run.lengths.push(empty.len());
                run.buffer.extend(empty);
            }
        }
        2 => run.lengths[rng.below(count)] += 1,
        3 => run.lengths[last] = run.lengths[last].wrapping_sub(1),
        // Their sum wraps around to the buffer's length.
        4 => {
            run.lengths.push(usize::MAX);
            run.lengths.push(1);
        }
        5 => {
            let first = run.lengths[0];
            run.lengths[0] = usize::MAX;
            run.lengths.push(first.wrapping_add(1));
        }
        6 => {
            let half = 1 << 63;
            run.lengths.extend([half, half]);
        }
        // A stage of no bytes, which is no bundle.
        7 => run.lengths.insert(rng.below(count + 1), 0),
        _ => {
            run.buffer.push(0);
        }
    }
    run
}

/// A run with a file that is too long, or as long as may be: the proof, or a
/// stage of either edition.
pub fn lengthy(rng: &mut Rng, size: &Size) -> Run {
    let run = sound(rng, size);
    let mut stages: Vec<Vec<u8>> = run.stages().into_iter().map(<[u8]>::to_vec).collect();
    let mut proof = run.proof;
    for _ in 0..1 + rng.below(2) {
        let stage = rng.below(stages.len() + 1);
        match stages.get_mut(stage) {
            Some(stage) => {
                let length = *rng.pick(&[4_096, 4_097, 8_192, 8_193]);
                if stage.len() + 3 < length {
                    fill(stage, length);
                }
            }
            None => {
                let length = *rng.pick(&[65_535, 65_536]);
                if proof.len() + 3 < length {
                    fill(&mut proof, length);
                }
                if rng.chance(1, 2) {
                    proof.extend(note());
                }
            }
        }
    }
    Run::of(&stages, proof)
}

/// A run damaged in one or two places.
pub fn damaged(rng: &mut Rng, size: &Size) -> Run {
    let run = match rng.below(3) {
        0 => unlike(rng, size),
        _ => sound(rng, size),
    };
    let k = 1 + rng.below(size.constants);
    let mut stages: Vec<Vec<u8>> = run.stages().into_iter().map(<[u8]>::to_vec).collect();
    let mut proof = run.proof;
    for _ in 0..1 + rng.below(2) {
        match rng.below(5) {
            0 => {
                let stage = rng.below(stages.len());
                damage(rng, &mut stages[stage], k);
            }
            1 => rng.shuffle(&mut stages),
            _ => damage(rng, &mut proof, k),
        }
    }
    Run::of(&stages, proof)
}

/// Bytes without plan.
pub fn random(rng: &mut Rng) -> Run {
    let k = 1 + rng.below(3);
    let count = rng.below(4);
    let stages: Vec<Vec<u8>> = (0..count).map(|_| noise(rng, k)).collect();
    Run::of(&stages, noise(rng, k))
}

/// The run of the two bundles of a check, over its proof, now and then with an
/// empty stage before, between or behind them.
pub fn of_check(rng: &mut Rng, case: &Case) -> Option<Run> {
    let Case::Check { a, b, proof, .. } = case else {
        return None;
    };
    let mut stages = vec![a.clone(), b.clone()];
    if rng.chance(1, 4) {
        if let &[0x01, 0, 1, _, 0x02, 0, 1, k, ..] = &a[..] {
            stages.insert(rng.below(3), file(k, &[]));
        }
    }
    Some(Run::of(&stages, proof.clone()))
}

/// A run of any sort.
pub fn any(rng: &mut Rng, size: &Size) -> Run {
    match rng.below(32) {
        0..=9 => sound(rng, size),
        10..=14 => unlike(rng, size),
        15..=21 => damaged(rng, size),
        22..=23 => claimed(rng, size),
        24 => careless(rng, size),
        25..=27 => out_of_range(rng),
        28 => crowded(rng),
        29..=30 => measured(rng, size),
        _ => random(rng),
    }
}
