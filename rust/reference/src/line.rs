//! The lines of the current branch, in one flat list.

use crate::bundle::{Bundle, Kind};
use crate::field::signed_long;
use crate::limits;

/// A number of a new line is outside the range.
pub(crate) struct OutOfRange;

/// The lines of a branch. Line n has the numbers n*2w .. (n+1)*2w with
/// w = K+1: t's coefficients and d, then tA's.
pub(crate) struct Lines {
    width: usize,
    /// Most lines on a branch, by the proof's edition.
    most: usize,
    /// How many are A's constraints: they stand first.
    own: usize,
    kinds: Vec<Kind>,
    numbers: Vec<i32>,
}

impl Lines {
    /// A's constraints with tA = t, then B's with tA = 0. At most so many lines
    /// may stand on a branch; a proof that makes at most `more` lines needs no
    /// further room.
    pub fn of(a: &Bundle, b: &Bundle, most: usize, more: usize) -> Lines {
        let width = a.k + 1;
        let count = (a.count() + b.count() + more).min(most);
        let mut lines = Lines {
            width,
            most,
            own: a.count(),
            kinds: Vec::with_capacity(count),
            numbers: Vec::with_capacity(count * 2 * width),
        };
        for constraint in a.constraints() {
            let start = lines.numbers.len();
            constraint.push_to(&mut lines.numbers);
            lines.numbers.extend_from_within(start..);
            lines.kinds.push(constraint.kind);
        }
        for constraint in b.constraints() {
            constraint.push_to(&mut lines.numbers);
            let filled = lines.numbers.len();
            lines.numbers.resize(filled + width, 0);
            lines.kinds.push(constraint.kind);
        }
        lines
    }

    /// The constants to which a line that is not A's gives a non-zero
    /// coefficient, a bit each. Before the first row these lines are B's.
    pub fn occurring(&self) -> u32 {
        let mut found = 0;
        for line in self.own..self.count() {
            for (constant, &number) in self.coefficients(line).iter().enumerate() {
                found |= u32::from(number != 0) << constant;
            }
        }
        found
    }

    pub fn count(&self) -> usize {
        self.kinds.len()
    }

    pub fn is_full(&self) -> bool {
        self.count() >= self.most
    }

    pub fn has(&self, line: usize) -> bool {
        line < self.count()
    }

    /// What a line that is there says.
    pub fn kind(&self, line: usize) -> Kind {
        self.kinds[line]
    }

    /// Whether a line is a constraint of A. (tA does not tell: that of "0 ≠ 0"
    /// is 0 in either bundle.)
    pub fn is_own(&self, line: usize) -> bool {
        line < self.own
    }

    /// t and tA in one, t first.
    fn both(&self, line: usize) -> &[i32] {
        &self.numbers[line * 2 * self.width..(line + 1) * 2 * self.width]
    }

    /// t's coefficients.
    pub fn coefficients(&self, line: usize) -> &[i32] {
        &self.both(line)[..self.width - 1]
    }

    /// t's d.
    pub fn constant(&self, line: usize) -> i32 {
        self.both(line)[self.width - 1]
    }

    /// tA, coefficients and d.
    pub fn partial(&self, line: usize) -> &[i32] {
        &self.both(line)[self.width..]
    }

    /// Adds α times one line plus β times another, of the first one's kind,
    /// partial interpolants likewise. A row out of range ends the check, so
    /// what it leaves behind does not matter.
    ///
    /// Nothing overflows: α and β are within ±65,535 and the old numbers
    /// within ±(2^31 - 1), so each sum is within ±2^48.
    pub fn add_sum(&mut self, s: usize, alpha: i64, t: usize, beta: i64) -> Result<(), OutOfRange> {
        let (old, new) = self.room();
        let size = new.len();
        let s_numbers = &old[s * size..][..size];
        let t_numbers = &old[t * size..][..size];
        let mut all_within = true;
        for (slot, (&s, &t)) in new.iter_mut().zip(s_numbers.iter().zip(t_numbers)) {
            let number = alpha * i64::from(s) + beta * i64::from(t);
            all_within &= within(number);
            *slot = number as i32;
        }
        self.kinds.push(self.kinds[s]);
        if all_within {
            Ok(())
        } else {
            Err(OutOfRange)
        }
    }

    /// Adds α times a line, of the same kind. As above, nothing overflows.
    pub fn add_multiple(&mut self, t: usize, alpha: i64) -> Result<(), OutOfRange> {
        let (old, new) = self.room();
        let size = new.len();
        let mut all_within = true;
        for (slot, &number) in new.iter_mut().zip(&old[t * size..][..size]) {
            let number = alpha * i64::from(number);
            all_within &= within(number);
            *slot = number as i32;
        }
        self.kinds.push(self.kinds[t]);
        if all_within {
            Ok(())
        } else {
            Err(OutOfRange)
        }
    }

    /// Makes room for one more line; gives the numbers of the old ones and
    /// the place for the new ones.
    fn room(&mut self) -> (&[i32], &mut [i32]) {
        let filled = self.numbers.len();
        self.numbers.resize(filled + 2 * self.width, 0);
        let (old, new) = self.numbers.split_at_mut(filled);
        (old, new)
    }

    /// Adds the line that starts a branch of a step on line t:
    /// t + `raise` with tA + `raise_partial`.
    pub fn add_raised(
        &mut self,
        t: usize,
        kind: Kind,
        raise: i64,
        raise_partial: i64,
    ) -> Result<(), OutOfRange> {
        let size = 2 * self.width;
        let start = t * size;
        let constant = i64::from(self.constant(t)) + raise;
        let partial = i64::from(self.numbers[start + size - 1]) + raise_partial;
        if !within(constant) || !within(partial) {
            return Err(OutOfRange);
        }
        let new = self.numbers.len();
        self.numbers.extend_from_within(start..start + size);
        self.numbers[new + self.width - 1] = constant as i32;
        self.numbers[new + size - 1] = partial as i32;
        self.kinds.push(kind);
        Ok(())
    }

    /// Whether -t + `raise` and -tA + `raise_partial` are in range.
    pub fn opposite_in_range(
        &self,
        t: usize,
        raise: i64,
        raise_partial: i64,
    ) -> Result<(), OutOfRange> {
        let constant = raise - i64::from(self.constant(t));
        let partial = raise_partial - i64::from(self.partial(t)[self.width - 1]);
        if within(constant) && within(partial) {
            Ok(())
        } else {
            Err(OutOfRange)
        }
    }

    /// Adds -t + `raise` ≤ 0 with -tA + `raise_partial`. The range has a minus
    /// for every plus, so only the two raised numbers can leave it.
    pub fn add_opposite(
        &mut self,
        t: usize,
        raise: i64,
        raise_partial: i64,
    ) -> Result<(), OutOfRange> {
        self.opposite_in_range(t, raise, raise_partial)?;
        let (old, new) = self.room();
        let size = new.len();
        for (slot, &number) in new.iter_mut().zip(&old[t * size..][..size]) {
            *slot = -number;
        }
        new[size / 2 - 1] += raise as i32;
        new[size - 1] += raise_partial as i32;
        self.kinds.push(Kind::Inequality);
        Ok(())
    }

    /// Whether the newest line has exactly these numbers, four bytes each,
    /// t first. The bytes are as many as the line needs.
    pub fn newest_is(&self, stated: &[u8]) -> bool {
        let newest = &self.numbers[self.numbers.len() - 2 * self.width..];
        stated
            .chunks_exact(4)
            .map(signed_long)
            .eq(newest.iter().copied())
    }

    /// Drops the lines from `count` on, those that a closed branch made.
    pub fn fall_back_to(&mut self, count: usize) {
        self.kinds.truncate(count);
        self.numbers.truncate(count * 2 * self.width);
    }
}

/// Whether a line may hold the number. -2^31 is outside.
#[inline]
fn within(number: i64) -> bool {
    (-limits::NUMBER..=limits::NUMBER).contains(&number)
}
