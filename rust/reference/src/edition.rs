//! The editions of the file layout, and what differs between them.

/// The edition in which a file is written.
#[derive(Clone, Copy, PartialEq, Eq, PartialOrd, Ord, Debug)]
pub enum Edition {
    One,
    Two,
}

impl Edition {
    /// All editions, the oldest first. Formulas stay in the first.
    pub const ALL: [Edition; 2] = [Edition::One, Edition::Two];

    /// The edition that a file's first field tells, if there is one of that number.
    pub fn numbered(number: u8) -> Option<Edition> {
        match number {
            1 => Some(Edition::One),
            2 => Some(Edition::Two),
            _ => None,
        }
    }

    pub fn number(self) -> u8 {
        match self {
            Edition::One => 1,
            Edition::Two => 2,
        }
    }

    /// The one that a file of this edition is turned into.
    pub fn other(self) -> Edition {
        match self {
            Edition::One => Edition::Two,
            Edition::Two => Edition::One,
        }
    }

    /// The bytes of a number in a bundle.
    pub fn number_bytes(self) -> usize {
        match self {
            Edition::One => 2,
            Edition::Two => 4,
        }
    }

    /// The bytes of a line number in a proof.
    pub fn line_bytes(self) -> usize {
        match self {
            Edition::One => 1,
            Edition::Two => 2,
        }
    }

    /// Most bytes of a bundle.
    pub fn bundle_bytes(self) -> usize {
        match self {
            Edition::One => 4_096,
            Edition::Two => 8_192,
        }
    }

    /// Most lines on a branch of a proof.
    pub fn lines(self) -> usize {
        match self {
            Edition::One => 128,
            Edition::Two => 1_000,
        }
    }

    /// Whether a bundle may hold the number.
    pub fn holds(self, number: i32) -> bool {
        let (low, high) = self.range();
        low <= number && number <= high
    }

    /// The least and the largest number of a bundle. Four bytes could hold -2^31
    /// too, but no line may.
    fn range(self) -> (i32, i32) {
        match self {
            Edition::One => (-32_768, 32_767),
            Edition::Two => (-i32::MAX, i32::MAX),
        }
    }

    /// The first number that a bundle may not hold.
    pub(crate) fn first_outside(self, numbers: &[i32]) -> Option<usize> {
        let (low, high) = self.range();
        // Without a way out of the loop it goes over several at once.
        let all_within = numbers.iter().fold(true, |all, &number| {
            all & (low <= number) & (number <= high)
        });
        if all_within {
            return None;
        }
        numbers.iter().position(|&number| !self.holds(number))
    }
}
