//! The edition of a file.

/// The edition of a bundle or proof.
#[derive(Clone, Copy, PartialEq, Eq, PartialOrd, Ord, Hash, Debug)]
pub enum Edition {
    /// Bundles with numbers of two bytes, 4,096 bytes at most; proofs with line numbers of one.
    One,
    /// Bundles with numbers of four bytes, 8,192 bytes at most; proofs with line numbers of two.
    Two,
}

impl Edition {
    /// The number that a file's first field has for it.
    ///
    /// ```
    /// use dulgaverk::Edition;
    /// assert_eq!(Edition::Two.number(), 2);
    /// ```
    pub const fn number(self) -> u8 {
        match self {
            Edition::One => 1,
            Edition::Two => 2,
        }
    }

    /// The edition that a number stands for, if it stands for one.
    ///
    /// ```
    /// use dulgaverk::Edition;
    /// for number in 1..3 {
    ///     assert_eq!(Edition::numbered(number).map(Edition::number), Some(number));
    /// }
    /// assert_eq!(Edition::numbered(0), None);
    /// assert_eq!(Edition::numbered(3), None);
    /// ```
    pub const fn numbered(number: u8) -> Option<Edition> {
        match number {
            1 => Some(Edition::One),
            2 => Some(Edition::Two),
            _ => None,
        }
    }
}
