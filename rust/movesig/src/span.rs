use crate::boundary::Answer;
use std::{fmt, ops::Range};

/// A span of a text: the bytes from `start` to before `end`, counted from 0. Where the two are
/// equal it is the place before the byte `start`.
#[derive(Clone, Copy, Debug, PartialEq, Eq, Hash, PartialOrd, Ord, Default)]
pub struct Span {
    /// The first byte.
    pub start: usize,
    /// The first byte behind.
    pub end: usize,
}

impl Span {
    /// The bytes of the span in `text`; none where it is not a span of that text.
    ///
    /// ```
    /// let span = movesig::Span { start: 1, end: 3 };
    /// assert_eq!(span.of(b"(u8)"), b"u8");
    /// assert_eq!(span.of(b""), b"");
    /// ```
    #[inline]
    #[must_use]
    pub fn of(self, text: &[u8]) -> &[u8] {
        text.get(self.range()).unwrap_or(&[])
    }

    /// The same as a range.
    #[inline]
    #[must_use]
    pub fn range(self) -> Range<usize> {
        self.start..self.end
    }

    /// Of the numbers of an answer, from the index on.
    #[inline]
    pub(crate) fn new(answer: Answer<'_>, index: usize) -> Span {
        Span {
            start: answer.number(index),
            end: answer.number(index + 1),
        }
    }
}

/// As `3..5`.
impl fmt::Display for Span {
    fn fmt(&self, to: &mut fmt::Formatter<'_>) -> fmt::Result {
        write!(to, "{}..{}", self.start, self.end)
    }
}
