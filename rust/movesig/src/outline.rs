use crate::{
    boundary::{self, Answer, Numbers},
    Edition, Refusal, Span, TokenKind, LONGEST,
};
use std::{fmt, iter::FusedIterator, slice::ChunksExact};

/// The keywords behind which a name is declared.
#[derive(Clone, Copy, Debug, PartialEq, Eq, Hash)]
#[repr(u8)]
pub enum Keyword {
    /// `struct`
    Struct = TokenKind::STRUCT.number(),
    /// `fun`
    Fun = TokenKind::FUN.number(),
    /// `const`
    Const = TokenKind::CONST.number(),
}

impl Keyword {
    /// All of them, by number.
    pub const ALL: [Keyword; 3] = [Keyword::Struct, Keyword::Fun, Keyword::Const];

    /// The number of its token's kind.
    #[inline]
    #[must_use]
    pub const fn number(self) -> u8 {
        self as u8
    }

    /// The keyword whose token's kind has this number.
    ///
    /// ```
    /// use movesig::{Keyword, TokenKind};
    ///
    /// assert_eq!(Keyword::from_number(62), Some(Keyword::Fun));
    /// assert_eq!(Keyword::from_number(TokenKind::USE.number().into()), None);
    /// ```
    #[must_use]
    pub fn from_number(number: u64) -> Option<Keyword> {
        let mut all = Keyword::ALL.into_iter();
        all.find(|keyword| u64::from(keyword.number()) == number)
    }

    /// As it is spelled: `struct`, `fun` or `const`.
    #[must_use]
    pub const fn name(self) -> &'static str {
        match self {
            Keyword::Struct => "struct",
            Keyword::Fun => "fun",
            Keyword::Const => "const",
        }
    }
}

/// As it is spelled.
impl fmt::Display for Keyword {
    fn fmt(&self, to: &mut fmt::Formatter<'_>) -> fmt::Result {
        to.pad(self.name())
    }
}

/// What is pending between two tokens: with it [`outline`] goes on there. At the start of a file nothing is,
/// which is the default.
#[derive(Clone, Copy, Debug, PartialEq, Eq, Hash, Default)]
pub struct Pending {
    /// The keyword right before.
    pub keyword: Option<Keyword>,
    /// The last doc comment since the last `;`, `{` or `}`. One that is handed in is taken as it is, and as none
    /// where it is 0..0 or a number of it passes the text's end.
    pub comment: Option<Span>,
}

impl Pending {
    fn numbers(self) -> [u64; 3] {
        let keyword = self.keyword.map_or(0, Keyword::number);
        let Span { start, end } = self.comment.unwrap_or_default();
        [keyword.into(), start as u64, end as u64]
    }

    fn new([keyword, start, end]: [u64; 3]) -> Pending {
        Pending {
            keyword: Keyword::from_number(keyword),
            comment: comment_of(start as usize, end as usize),
        }
    }
}

/// No comment ends at 0.
fn comment_of(start: usize, end: usize) -> Option<Span> {
    let comment = Span { start, end };
    (comment != Span::default()).then_some(comment)
}

/// The bytes of each record of the outline of a text of `len` bytes: 12, and 22 where it has more than 65,535.
/// A portion of so many tokens has at most half as many records, rounded up.
///
/// ```
/// use movesig::entry_size;
///
/// assert_eq!((entry_size(65_535), entry_size(65_536)), (12, 22));
/// ```
#[must_use]
pub const fn entry_size(len: usize) -> usize {
    if len <= 65_535 {
        NARROW
    } else {
        22
    }
}

/// The bytes of a record whose numbers have two bytes each.
const NARROW: usize = 12;

/// A portion of an outline that was read.
#[derive(Clone, Copy, Debug)]
pub struct Portion<'b> {
    /// Whether the call stopped before a name whose record did not fit the buffer.
    pub full: bool,
    /// How many tokens it read, EOF not counted.
    pub tokens: usize,
    /// The end of the last of them, from which to go on; the call's offset where it read none.
    pub end: usize,
    /// What is pending there.
    pub pending: Pending,
    records: &'b [u8],
    size: usize,
}

impl<'b> Portion<'b> {
    fn new(answer: Answer<'_>, pending: [u64; 3], len: usize, buffer: &'b [u8]) -> Portion<'b> {
        Portion {
            full: answer.number(0) != 0,
            tokens: answer.number(1),
            end: answer.number(3),
            pending: Pending::new(pending),
            records: buffer.get(..answer.number(2)).unwrap_or(&[]),
            size: entry_size(len),
        }
    }

    /// What it declares, in order.
    #[inline]
    #[must_use]
    pub fn entries(&self) -> Entries<'b> {
        Entries(self.records.chunks_exact(self.size))
    }

    /// The bytes that were written: the records, [`entry_size`] bytes each, as `movesig.h` lays them out.
    #[inline]
    #[must_use]
    pub fn as_bytes(&self) -> &'b [u8] {
        self.records
    }
}

/// The iterator that [`Portion::entries`] gives.
#[derive(Clone, Debug)]
pub struct Entries<'b>(ChunksExact<'b, u8>);

impl Iterator for Entries<'_> {
    type Item = Entry;

    #[inline]
    fn next(&mut self) -> Option<Entry> {
        Entry::new(self.0.next()?)
    }
}

impl FusedIterator for Entries<'_> {}

/// A name that is declared. It is the same whichever layout its record has.
#[derive(Clone, Copy, Debug, PartialEq, Eq, Hash)]
pub struct Entry {
    keyword: Keyword,
    name: Span,
    comment: Option<Span>,
}

impl Entry {
    /// What a record says, in either layout. Records of no other keyword are written.
    fn new(record: &[u8]) -> Option<Entry> {
        let width = if record.len() == NARROW { 2 } else { 4 };
        let number = |from: usize, bytes: usize| {
            let bytes = record.get(from..from + bytes)?;
            let low_first = bytes.iter().rev();
            Some(low_first.fold(0, |high, &low| high << 8 | usize::from(low)))
        };
        let at = |index: usize| number(width + 2 + index * width, width);
        Some(Entry {
            keyword: Keyword::from_number(number(width, 2)? as u64)?,
            name: Span {
                start: at(0)?,
                end: at(1)?,
            },
            comment: comment_of(at(2)?, at(3)?),
        })
    }

    /// The keyword right before the name.
    #[inline]
    #[must_use]
    pub fn keyword(&self) -> Keyword {
        self.keyword
    }

    /// The name.
    #[inline]
    #[must_use]
    pub fn name(&self) -> Span {
        self.name
    }

    /// The last doc comment before the name since the offset or the last `;`, `{` or `}`, all of it; none where
    /// there is none. [`next_comment`](crate::next_comment) from its start gives its text.
    #[inline]
    #[must_use]
    pub fn comment(&self) -> Option<Span> {
        self.comment
    }
}

/// The outline of at most `limit` tokens from `at` on, EOF not counted: what they declare by `struct`, `fun` and
/// `const` with a name right behind. The records take the first bytes of the buffer; the others stay as they are,
/// and all of them where the call is refused.
///
/// To go on, ask again from [`Portion::end`] with [`Portion::pending`]: however a file is divided, the entries are
/// the same. The file ends where a portion is not full and has read fewer tokens than the limit. [`portions`] does
/// all of this.
///
/// A name whose record does not fit is not read: the portion says so ([`Portion::full`]), and the next one, with
/// more room, begins with it. [`entry_size`] tells how long a record is.
///
/// # Errors
///
/// Refused with 1, 2 and 5 to 9. A refusal met within the limit is the whole answer.
///
/// ```
/// use movesig::{outline, Edition, Keyword, Pending, Span};
///
/// let text = b"/// Pays.\npublic fun pay() { } const MOST: u8 = 7;";
/// let mut buffer = [0; 24];
/// let all = outline(Edition::One, text, 0, 100, Pending::default(), &mut buffer)?;
/// let names: Vec<&[u8]> = all.entries().map(|entry| entry.name().of(text)).collect();
/// assert_eq!(names, [&b"pay"[..], b"MOST"]);
/// assert_eq!((all.tokens, all.full, all.end), (14, false, text.len()));
/// let pay = all.entries().next().expect("an entry");
/// assert_eq!(pay.keyword(), Keyword::Fun);
/// assert_eq!(pay.comment(), Some(Span { start: 0, end: 9 }));
///
/// // Two tokens, and the others behind them.
/// let first = outline(Edition::One, text, 0, 2, Pending::default(), &mut buffer)?;
/// assert_eq!((first.entries().count(), first.tokens), (0, 2));
/// assert_eq!(first.pending.keyword, Some(Keyword::Fun));
/// let (end, pending) = (first.end, first.pending);
/// let rest = outline(Edition::One, text, end, 100, pending, &mut buffer)?;
/// assert_eq!(rest.entries().next(), Some(pay));
/// # Ok::<(), movesig::Refusal>(())
/// ```
#[inline]
pub fn outline<'b>(
    edition: Edition,
    text: &[u8],
    at: usize,
    limit: usize,
    pending: Pending,
    buffer: &'b mut [u8],
) -> Result<Portion<'b>, Refusal> {
    let mut numbers = Numbers::new();
    let mut left = pending.numbers();
    let (edition, limit) = (edition.number(), limit as u64);
    let answer = boundary::outline(edition, text, at, limit, &mut left, buffer, &mut numbers);
    if answer.result != 0 {
        return Err(Refusal::new(answer));
    }
    Ok(Portion::new(answer, left, text.len(), buffer))
}

/// The outline of a text from `at` on in portions of `limit` tokens, each going on where the last one ended: the
/// entries of each. A refusal is the last thing given. With a limit of 0, which reads nothing, there is no portion.
///
/// The calls are lent a buffer of the iterator's own, with room for every record of a portion, so that none is
/// full. This one allocates.
///
/// ```
/// use movesig::{portions, Edition, Entry, Refusal};
///
/// let text = b"struct S {} fun f() {} const C: u8 = 1;";
/// let all: Vec<Vec<Entry>> =
///     portions(Edition::One, text, 0, 5).collect::<Result<_, Refusal>>()?;
/// assert_eq!(all.iter().map(Vec::len).collect::<Vec<_>>(), [1, 1, 1, 0]);
///
/// // However it is divided, the entries are the same.
/// let once: Vec<Vec<Entry>> =
///     portions(Edition::One, text, 0, usize::MAX).collect::<Result<_, Refusal>>()?;
/// assert_eq!(all.concat(), once.concat());
/// # Ok::<(), Refusal>(())
/// ```
#[must_use]
pub fn portions(edition: Edition, text: &[u8], at: usize, limit: usize) -> Portions<'_> {
    // a token has a byte at least, and no two names stand side by side
    let names = limit.min(text.len()).min(LONGEST).div_ceil(2).max(1);
    Portions {
        edition,
        text,
        limit,
        at,
        pending: Pending::default(),
        ended: limit == 0,
        buffer: vec![0; names * entry_size(text.len())],
    }
}

/// The iterator that [`portions`] gives.
#[derive(Clone, Debug)]
pub struct Portions<'t> {
    edition: Edition,
    text: &'t [u8],
    limit: usize,
    at: usize,
    pending: Pending,
    ended: bool,
    buffer: Vec<u8>,
}

impl Portions<'_> {
    /// How far it has read: the end of the last token, or the offset where there was none. A refused portion
    /// leaves it where it was.
    #[must_use]
    pub fn at(&self) -> usize {
        self.at
    }

    /// What is pending there.
    #[must_use]
    pub fn pending(&self) -> Pending {
        self.pending
    }
}

impl Iterator for Portions<'_> {
    type Item = Result<Vec<Entry>, Refusal>;

    fn next(&mut self) -> Option<Self::Item> {
        if self.ended {
            return None;
        }
        let (text, at, pending) = (self.text, self.at, self.pending);
        let read = outline(
            self.edition,
            text,
            at,
            self.limit,
            pending,
            &mut self.buffer,
        );
        Some(match read {
            Ok(portion) => {
                self.ended = !portion.full && portion.tokens < self.limit;
                (self.at, self.pending) = (portion.end, portion.pending);
                Ok(portion.entries().collect())
            }
            Err(refusal) => {
                self.ended = true;
                Err(refusal)
            }
        })
    }
}

impl FusedIterator for Portions<'_> {}
