//! What a constraint says.

/// What a constraint says of its form t.
#[derive(Clone, Copy, PartialEq, Eq, Hash, Debug)]
pub enum Kind {
    /// t ≤ 0
    Inequality,
    /// t = 0
    Equality,
    /// t ≠ 0
    Disequality,
}

impl Kind {
    /// The number that stands for it in lent lists, as in C.
    ///
    /// ```
    /// use dulgaverk::Kind;
    /// assert_eq!(Kind::Disequality.number(), 2);
    /// ```
    pub const fn number(self) -> u8 {
        match self {
            Kind::Inequality => 0,
            Kind::Equality => 1,
            Kind::Disequality => 2,
        }
    }

    /// The kind that a number stands for, if it stands for one.
    ///
    /// ```
    /// use dulgaverk::Kind;
    /// for number in 0..3 {
    ///     assert_eq!(Kind::numbered(number).map(Kind::number), Some(number));
    /// }
    /// assert_eq!(Kind::numbered(3), None);
    /// ```
    pub const fn numbered(number: u8) -> Option<Kind> {
        match number {
            0 => Some(Kind::Inequality),
            1 => Some(Kind::Equality),
            2 => Some(Kind::Disequality),
            _ => None,
        }
    }
}
