use crate::{
    boundary::{self, Numbers},
    Refusal,
};
use std::{error::Error, fmt};

/// The most notes that [`carry`] moves.
pub const MOST_NOTES: usize = 256;

/// Why no note was carried.
#[derive(Clone, Copy, Debug, PartialEq, Eq, Hash)]
pub enum CarryRefusal {
    /// 1 and 5 to 9: the text is refused, in edition 1 or in edition 2.
    Text(Refusal),
    /// 20: the note starts no token of edition 1, or it is past the [`MOST_NOTES`] that are allowed. This is
    /// no place of the text.
    Note {
        /// The note's index in the list, counted from 0: the lowest of all that are bad.
        index: usize,
    },
}

impl CarryRefusal {
    /// Its number.
    #[must_use]
    pub fn number(&self) -> u32 {
        match self {
            CarryRefusal::Text(refusal) => refusal.number(),
            CarryRefusal::Note { .. } => 20,
        }
    }

    /// What is wrong, without number, place and index.
    #[must_use]
    pub fn reason(&self) -> &'static str {
        match self {
            CarryRefusal::Text(refusal) => refusal.reason(),
            CarryRefusal::Note { .. } => {
                "no token of edition 1 starts at the note, or it is past the 256th"
            }
        }
    }
}

/// As `refused 20: no token of edition 1 starts at the note, or it is past the 256th: the note with index 3`; a
/// refusal of the text as [`Refusal`] writes it.
impl fmt::Display for CarryRefusal {
    fn fmt(&self, to: &mut fmt::Formatter<'_>) -> fmt::Result {
        match self {
            CarryRefusal::Text(refusal) => refusal.fmt(to),
            CarryRefusal::Note { index } => {
                let (number, reason) = (self.number(), self.reason());
                write!(
                    to,
                    "refused {number}: {reason}: the note with index {index}"
                )
            }
        }
    }
}

impl Error for CarryRefusal {}

impl From<Refusal> for CarryRefusal {
    fn from(refusal: Refusal) -> CarryRefusal {
        CarryRefusal::Text(refusal)
    }
}

/// Carries notes from edition 1 to edition 2. A note is an offset at which a token of edition 1 starts, EOF
/// counted, whose start is the text's length. Each becomes the start of the token of edition 2 that covers it;
/// the text's length stays what it is. Each keeps its place in the list, whose order is free; two may become
/// equal, and both are kept. No note moves forward, and notes in order stay in order.
///
/// It takes neither an edition, since it names both itself, nor an offset: the whole text is read, some four
/// times, whatever the notes are.
///
/// # Errors
///
/// Refused with 1, 5 to 9 and, where the text is read to its end, 20. Then no note is moved. Edition 2 reads
/// every text that edition 1 reads to its end, so the text's refusals are those of edition 1.
///
/// ```
/// use movesig::{carry, CarryRefusal};
///
/// // In edition 1 `1` and `_000` are two tokens, in edition 2 they are one.
/// let mut notes = [1, 0, 7, 6];
/// carry(b"1_000 a", &mut notes)?;
/// assert_eq!(notes, [0, 0, 7, 6]);
///
/// // All are moved, or none: no token starts at 5.
/// let mut notes = [1, 5, 9];
/// assert_eq!(carry(b"1_0", &mut notes), Err(CarryRefusal::Note { index: 1 }));
/// assert_eq!(notes, [1, 5, 9]);
///
/// // The text is looked at first.
/// let refused = carry(b"a $", &mut notes).unwrap_err();
/// assert_eq!(refused.to_string(), "refused 5: no token starts with this byte, at 2..2");
/// # Ok::<(), CarryRefusal>(())
/// ```
#[inline]
pub fn carry(text: &[u8], notes: &mut [usize]) -> Result<(), CarryRefusal> {
    let mut numbers = Numbers::new();
    let answer = boundary::carry(text, notes, &mut numbers);
    match answer.result {
        0 => Ok(()),
        20 => Err(CarryRefusal::Note {
            index: answer.number(0),
        }),
        _ => Err(CarryRefusal::Text(Refusal::new(answer))),
    }
}
