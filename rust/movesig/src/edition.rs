/// The editions of Move that a text may be written in. They differ in numbers alone. A wrong one is not
/// noticed: the value `65_535u16` read in edition 1 is `65`, followed by the name `_535u16`.
#[derive(Clone, Copy, Debug, PartialEq, Eq, Hash)]
#[repr(u8)]
pub enum Edition {
    /// Numbers as `1000` and `0x1f`, of the types `u8`, `u64` and `u128`.
    One = 1,
    /// Behind a number's first digit `_` may stand as a digit may, `1_000` and `0x1_f`, and the
    /// types may be `u16`, `u32` and `u256` too.
    Two = 2,
}

impl Edition {
    /// Both of them, by number.
    pub const ALL: [Edition; 2] = [Edition::One, Edition::Two];

    /// Its number in `movesig.h`.
    #[inline]
    #[must_use]
    pub const fn number(self) -> u64 {
        self as u64
    }

    /// The edition with this number.
    ///
    /// ```
    /// use movesig::Edition;
    ///
    /// assert_eq!(Edition::from_number(2), Some(Edition::Two));
    /// assert_eq!(Edition::from_number(3), None);
    /// ```
    #[must_use]
    pub fn from_number(number: u64) -> Option<Edition> {
        let mut all = Edition::ALL.into_iter();
        all.find(|edition| edition.number() == number)
    }
}
