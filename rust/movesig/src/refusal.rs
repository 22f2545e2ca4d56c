use crate::{boundary::Answer, Span};
use std::{error::Error, fmt};

/// Why a call was refused, and where. Each has a number, which never changes.
#[derive(Clone, Copy, Debug, PartialEq, Eq, Hash)]
#[non_exhaustive]
pub enum Refusal {
    /// 1: the text is longer than [`LONGEST`](crate::LONGEST).
    TextTooLong,
    /// 2: the offset is past the text's end.
    StartPastEnd,
    /// 3: the number is no kind of item. No [`Kind`](crate::Kind) leads here.
    NoSuchKind,
    /// 4: the item is accepted, but its tree or its line is longer than the buffer, or the line
    /// than [`LONGEST_LINE`](crate::LONGEST_LINE).
    NoRoom,
    /// 5: no token starts with this byte.
    NoToken {
        /// At the byte, without length.
        at: Span,
    },
    /// 6: a block comment is not closed.
    CommentNotClosed {
        /// The innermost opener that is still open.
        opener: Span,
    },
    /// 7: `x"` without a closing quote in its line.
    HexStringNotClosed {
        /// From the token to the end of its line.
        rest: Span,
    },
    /// 8: `b"` without a closing quote in its line.
    ByteStringNotClosed {
        /// From the token to the end of its line.
        rest: Span,
    },
    /// 9: a byte of 128 or more in a closed string.
    StringNotAscii {
        /// The first such byte.
        byte: Span,
    },
    /// 10: another token was due.
    UnexpectedToken {
        /// The token that stands there.
        token: Span,
        /// Where a name begins with a number and no `::` follows: the number. Else the token
        /// again.
        number: Span,
    },
    /// 11: a comma where an item of a list was due.
    CommaForItem {
        /// At the comma, without length.
        at: Span,
    },
    /// 12: neither a comma nor the closing token behind an item of a list.
    ListNotClosed {
        /// At the token that stands there, without length.
        at: Span,
        /// At the list's first byte, without length.
        list: Span,
    },
    /// 13: no value.
    NoValue {
        /// The token.
        token: Span,
    },
    /// 14: more than [`LEVELS`](crate::LEVELS) levels.
    TooDeep {
        /// The first token of the item that is one level too deep.
        token: Span,
    },
    /// 18: a string that was to be displayed holds a byte below 32 or the byte 127, which a line
    /// cannot hold. The item can be read.
    LineUnprintable {
        /// The first such byte.
        byte: Span,
    },
    /// 19: the number is no edition. No [`Edition`](crate::Edition) leads here.
    NoSuchEdition,
    /// 21: no token starts or ends at the offset that a read or a display is asked from: it is inside a token,
    /// a comment or blanks. See [`read`](crate::read).
    NothingStarts {
        /// The offset, without length.
        at: Span,
    },
    /// A number that this version of the crate does not know. The library that it was written
    /// for gives none.
    Other {
        /// The number.
        number: u32,
        /// The place.
        place: Span,
        /// The second place.
        second: Span,
    },
}

use Refusal::*;

impl Refusal {
    // Inlined: as a function of its own it makes the iterator over tokens some 3 % slower, by bytes
    // that the compiler then moves in accepted calls too. See bench/wrapper.
    #[inline(always)]
    pub(crate) fn new(answer: Answer<'_>) -> Refusal {
        let place = Span::new(answer, 0);
        let second = Span::new(answer, 2);
        match answer.result {
            1 => TextTooLong,
            2 => StartPastEnd,
            3 => NoSuchKind,
            4 => NoRoom,
            5 => NoToken { at: place },
            6 => CommentNotClosed { opener: place },
            7 => HexStringNotClosed { rest: place },
            8 => ByteStringNotClosed { rest: place },
            9 => StringNotAscii { byte: place },
            10 => UnexpectedToken {
                token: place,
                number: second,
            },
            11 => CommaForItem { at: place },
            12 => ListNotClosed {
                at: place,
                list: second,
            },
            13 => NoValue { token: place },
            14 => TooDeep { token: place },
            18 => LineUnprintable { byte: place },
            19 => NoSuchEdition,
            21 => NothingStarts { at: place },
            number => Other {
                number,
                place,
                second,
            },
        }
    }

    /// Its number.
    #[must_use]
    pub fn number(&self) -> u32 {
        match *self {
            TextTooLong => 1,
            StartPastEnd => 2,
            NoSuchKind => 3,
            NoRoom => 4,
            NoToken { .. } => 5,
            CommentNotClosed { .. } => 6,
            HexStringNotClosed { .. } => 7,
            ByteStringNotClosed { .. } => 8,
            StringNotAscii { .. } => 9,
            UnexpectedToken { .. } => 10,
            CommaForItem { .. } => 11,
            ListNotClosed { .. } => 12,
            NoValue { .. } => 13,
            TooDeep { .. } => 14,
            LineUnprintable { .. } => 18,
            NoSuchEdition => 19,
            NothingStarts { .. } => 21,
            Other { number, .. } => number,
        }
    }

    /// The span that it is about: 0..0 where the caller caused it, by what was asked, but for 21, whose place is
    /// the offset.
    #[must_use]
    pub fn place(&self) -> Span {
        match *self {
            TextTooLong | StartPastEnd | NoSuchKind | NoRoom | NoSuchEdition => Span::default(),
            NoToken { at }
            | CommaForItem { at }
            | ListNotClosed { at, .. }
            | NothingStarts { at } => at,
            CommentNotClosed { opener } => opener,
            HexStringNotClosed { rest } | ByteStringNotClosed { rest } => rest,
            StringNotAscii { byte } | LineUnprintable { byte } => byte,
            UnexpectedToken { token, .. } | NoValue { token } | TooDeep { token } => token,
            Other { place, .. } => place,
        }
    }

    /// The second span: the list's opening for 12, the number for 10 where `::` was due, else
    /// the place again.
    #[must_use]
    pub fn second(&self) -> Span {
        match *self {
            UnexpectedToken { number, .. } => number,
            ListNotClosed { list, .. } => list,
            Other { second, .. } => second,
            _ => self.place(),
        }
    }

    /// Whether it was caused by what the caller asked (1 to 4, 19 and 21) and not by the text.
    #[must_use]
    pub fn is_by_caller(&self) -> bool {
        matches!(
            *self,
            TextTooLong | StartPastEnd | NoSuchKind | NoRoom | NoSuchEdition | NothingStarts { .. }
        )
    }

    /// What is wrong, without number and place.
    #[must_use]
    pub fn reason(&self) -> &'static str {
        match *self {
            TextTooLong => "text over 1,048,575 bytes",
            StartPastEnd => "start past the text's end",
            NoSuchKind => "no such kind of item",
            NoRoom => "answer longer than the buffer, or a line than 65,535 bytes",
            NoToken { .. } => "no token starts with this byte",
            CommentNotClosed { .. } => "block comment not closed",
            HexStringNotClosed { .. } => "hex string without closing quote in its line",
            ByteStringNotClosed { .. } => "byte string without closing quote in its line",
            StringNotAscii { .. } => "byte of 128 or more in a string",
            UnexpectedToken { .. } => "unexpected token",
            CommaForItem { .. } => "comma where a list item was due",
            ListNotClosed { .. } => "list neither continued nor closed",
            NoValue { .. } => "no value here",
            TooDeep { .. } => "more than 64 levels",
            LineUnprintable { .. } => "the line would hold a control byte",
            NoSuchEdition => "no such edition",
            NothingStarts { .. } => "no token starts or ends here",
            Other { .. } => "a refusal that this version does not know",
        }
    }
}

/// As `refused 12: list neither continued nor closed, at 3..3 (second place 0..0)`; without
/// places for 1 to 4 and 19, and without a second place that is the first again.
impl fmt::Display for Refusal {
    fn fmt(&self, to: &mut fmt::Formatter<'_>) -> fmt::Result {
        write!(to, "refused {}: {}", self.number(), self.reason())?;
        if !self.is_by_caller() || matches!(self, NothingStarts { .. }) {
            write!(to, ", at {}", self.place())?;
        }
        if self.second() != self.place() {
            write!(to, " (second place {})", self.second())?;
        }
        Ok(())
    }
}

impl Error for Refusal {}
