use crate::{
    boundary::{self, Answer, Numbers},
    RecordKind, Span, Tree,
};
use std::{error::Error, fmt};

/// Why bytes are not a tree over a text. Each has a number, as a [`Refusal`](crate::Refusal) has, and never the same
/// as one with another meaning; but its place is a byte of the tree and no place of the text.
#[derive(Clone, Copy, Debug, PartialEq, Eq, Hash)]
#[non_exhaustive]
pub enum Damage {
    /// 1: the text is longer than [`LONGEST`](crate::LONGEST). The tree is not looked at.
    TextTooLong,
    /// 14: more than [`LEVELS`](crate::LEVELS) levels of types and fields.
    TooDeep {
        /// Where the record at the level too deep begins in the tree.
        record: usize,
    },
    /// 15: a record does not fit: fewer bytes are left for it than a head has, its length is less than that or runs
    /// past its parent, or the outermost record is not all the bytes.
    RecordUnfit {
        /// Where it begins in the tree.
        record: usize,
    },
    /// 16: a number that is no kind of record.
    NoRecordKind {
        /// Where the record begins in the tree.
        record: usize,
    },
    /// 17: a record may not stand where it stands, its end is before its start, its span is not inside its parent's
    /// or inside the text, or one of its children is missing.
    NotAllowed {
        /// Where the record begins in the tree; of a missing child, the parent.
        record: usize,
    },
    /// A number that this version of the crate does not know. The library that it was written for gives none.
    Other {
        /// The number.
        number: u32,
        /// The place.
        record: usize,
    },
}

use Damage::*;

impl Damage {
    fn new(answer: Answer<'_>) -> Damage {
        let record = answer.number(0);
        match answer.result {
            1 => TextTooLong,
            14 => TooDeep { record },
            15 => RecordUnfit { record },
            16 => NoRecordKind { record },
            17 => NotAllowed { record },
            number => Other { number, record },
        }
    }

    /// Its number.
    #[must_use]
    pub fn number(&self) -> u32 {
        match *self {
            TextTooLong => 1,
            TooDeep { .. } => 14,
            RecordUnfit { .. } => 15,
            NoRecordKind { .. } => 16,
            NotAllowed { .. } => 17,
            Other { number, .. } => number,
        }
    }

    /// Where the record that is blamed begins, in bytes of the tree, those in front of a wide one counted. It may be
    /// the tree's end, where a record is due and no byte is left. None where the text is at fault.
    #[must_use]
    pub fn record(&self) -> Option<usize> {
        match *self {
            TextTooLong => None,
            TooDeep { record }
            | RecordUnfit { record }
            | NoRecordKind { record }
            | NotAllowed { record }
            | Other { record, .. } => Some(record),
        }
    }

    /// What is wrong, without number and place.
    #[must_use]
    pub fn reason(&self) -> &'static str {
        match *self {
            TextTooLong => "text over 1,048,575 bytes",
            TooDeep { .. } => "more than 64 levels",
            RecordUnfit { .. } => "record that does not fit its bytes",
            NoRecordKind { .. } => "no such kind of record",
            NotAllowed { .. } => "child or span not allowed",
            Other { .. } => "a refusal that this version does not know",
        }
    }
}

/// As `refused 17: child or span not allowed, at byte 16 of the tree`; of 1 without a place.
impl fmt::Display for Damage {
    fn fmt(&self, to: &mut fmt::Formatter<'_>) -> fmt::Result {
        write!(to, "refused {}: {}", self.number(), self.reason())?;
        match self.record() {
            Some(record) => write!(to, ", at byte {record} of the tree"),
            None => Ok(()),
        }
    }
}

impl Error for Damage {}

/// Opens a tree that was saved over its text: the bytes of [`Tree::as_bytes`] of a whole item, as
/// [`read`](crate::read) gave it. What a read gives opens as the tree that it was, also one that an earlier version
/// wrote, over the text that was lent to the read: a part of a text where a part was lent.
///
/// Bytes are accepted exactly where they are one record with children that may stand where they stand, none missing,
/// in at most [`LEVELS`](crate::LEVELS) levels, each span inside its parent's and the outermost one inside the text.
/// The outermost record may be of any kind. The text's own bytes are not looked at: over another text that is long
/// enough the tree opens too.
///
/// Each record is looked at once; nothing is allocated, and no stack is taken for a level.
///
/// # Errors
///
/// Refused with 1 and 14 to 17: the first record from the front that is at fault.
///
/// ```
/// use movesig::{open, read, Damage, Edition, Kind};
///
/// let text = b"a<u8>";
/// let mut buffer = [0; 100];
/// let item = read(Kind::Type, Edition::One, text, 0, &mut buffer).expect("a type");
/// let mut saved = item.tree.as_bytes().to_vec();
///
/// let tree = open(&saved, text)?;
/// let parts: Vec<&[u8]> = tree.children().map(|child| child.text()).collect();
/// assert_eq!(parts, [&b"a"[..], b"u8"]);
///
/// // Over a shorter text the outermost record, at byte 0, does not lie in it.
/// assert_eq!(open(&saved, b"a<u8").unwrap_err(), Damage::NotAllowed { record: 0 });
///
/// // Of the record at byte 16 of the tree the end is damaged.
/// saved[22] = 9;
/// let damage = open(&saved, text).unwrap_err();
/// assert_eq!(damage, Damage::NotAllowed { record: 16 });
/// assert_eq!(
///     damage.to_string(),
///     "refused 17: child or span not allowed, at byte 16 of the tree"
/// );
/// # Ok::<(), Damage>(())
/// ```
#[inline]
pub fn open<'t, 'b>(tree: &'b [u8], text: &'t [u8]) -> Result<Tree<'t, 'b>, Damage> {
    let mut numbers = Numbers::new();
    let answer = boundary::open(tree, text, &mut numbers);
    match answer.result {
        0 => Ok(Tree::new(text, tree)),
        _ => Err(Damage::new(answer)),
    }
}

/// A record of a saved tree, told by where it begins in the tree.
#[derive(Clone, Copy, Debug, PartialEq, Eq, Hash)]
pub struct SavedRecord {
    /// Where it begins, in bytes of the tree.
    pub offset: usize,
    /// What it is.
    pub kind: RecordKind,
    /// Where it stands in the text.
    pub span: Span,
}

impl SavedRecord {
    /// None where the first number says so.
    #[inline]
    fn new(answer: Answer<'_>) -> Option<SavedRecord> {
        (answer.number(0) == 1).then(|| SavedRecord {
            offset: answer.number(1),
            kind: RecordKind::new(answer.number(2) as u16),
            span: Span::new(answer, 3),
        })
    }
}

/// The child of an index, counted from 0, of the record at an offset of a saved tree: who keeps offsets of records
/// asks so. The outermost record is at 0, or at 4 where the tree is wide. None past the last child, and where no
/// record begins, whatever the numbers are.
///
/// The whole tree is opened each time: who asks for many children opens it once, and asks [`opened_child`], or walks
/// by [`Tree::children`] or [`Tree::records`].
///
/// # Errors
///
/// Refused as [`open`] is.
#[inline]
pub fn child(
    tree: &[u8],
    text: &[u8],
    record: u64,
    index: u64,
) -> Result<Option<SavedRecord>, Damage> {
    let mut numbers = Numbers::new();
    let answer = boundary::child(tree, text, record, index, &mut numbers);
    match answer.result {
        0 => Ok(SavedRecord::new(answer)),
        _ => Err(Damage::new(answer)),
    }
}

/// As [`child`] in a tree that [`open`] accepted. Nothing is tested, and it takes as many steps as the index. Of bytes
/// that were not opened it gives some record that their lengths lead to, or none.
///
/// ```
/// use movesig::{open, opened_child, read, Edition, Kind, RecordKind, Span};
///
/// let text = b"a<b, c>";
/// let mut buffer = [0; 100];
/// let item = read(Kind::Type, Edition::One, text, 0, &mut buffer).expect("a type");
/// let saved = item.tree.as_bytes();
/// open(saved, text)?;
///
/// let third = opened_child(saved, 0, 2).expect("chain, type, type");
/// assert_eq!((third.offset, third.kind), (32, RecordKind::Type));
/// assert_eq!(third.span, Span { start: 5, end: 6 });
/// assert_eq!(opened_child(saved, 0, 3), None);
/// assert_eq!(opened_child(saved, 4, 0), None);
/// # Ok::<(), movesig::Damage>(())
/// ```
#[inline]
#[must_use]
pub fn opened_child(tree: &[u8], record: u64, index: u64) -> Option<SavedRecord> {
    let mut numbers = Numbers::new();
    let answer = boundary::opened_child(tree, record, index, &mut numbers);
    SavedRecord::new(answer)
}
