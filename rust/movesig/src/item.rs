use crate::{
    boundary::{self, Numbers},
    Edition, Following, Refusal, Tree, LONGEST_LINE,
};
use std::fmt;

/// The kinds of items.
#[derive(Clone, Copy, Debug, PartialEq, Eq, Hash)]
#[repr(u8)]
pub enum Kind {
    /// `a`, `a::b`, `a::b::c`; the first part may be a number.
    Name = 1,
    /// `@0x1`, `@a`, `1`, `1u8`, `true`, `false`, `x"00"`, `b"text"`
    Value = 2,
    /// `a::b<T>`, `&T`, `&mut T`, `()`, `(T)`, `(T, U)`, `|T, U| V`
    Type = 3,
    /// `x`, or `(x, S {f: y})`
    BindList = 4,
    /// `|x, y|`
    LambdaBindList = 5,
}

impl Kind {
    /// All of them, by number.
    pub const ALL: [Kind; 5] = [
        Kind::Name,
        Kind::Value,
        Kind::Type,
        Kind::BindList,
        Kind::LambdaBindList,
    ];

    /// Its number in `movesig.h`.
    #[inline]
    #[must_use]
    pub const fn number(self) -> u64 {
        self as u64
    }

    /// Its short name: `name`, `value`, `type`, `binds` or `lambda`.
    #[must_use]
    pub const fn name(self) -> &'static str {
        match self {
            Kind::Name => "name",
            Kind::Value => "value",
            Kind::Type => "type",
            Kind::BindList => "binds",
            Kind::LambdaBindList => "lambda",
        }
    }

    /// The kind with this short name.
    ///
    /// ```
    /// use movesig::Kind;
    ///
    /// assert_eq!(Kind::from_name("type"), Some(Kind::Type));
    /// assert_eq!(Kind::from_name("Type"), None);
    /// ```
    #[must_use]
    pub fn from_name(name: &str) -> Option<Kind> {
        Kind::ALL.into_iter().find(|kind| kind.name() == name)
    }
}

/// Its short name.
impl fmt::Display for Kind {
    fn fmt(&self, to: &mut fmt::Formatter<'_>) -> fmt::Result {
        to.pad(self.name())
    }
}

/// An item that was read.
#[derive(Clone, Copy, Debug)]
pub struct Read<'t, 'b> {
    /// The item, in the buffer that was lent.
    pub tree: Tree<'t, 'b>,
    /// The token that follows it.
    pub next: Following,
}

/// Reads the item of the kind from `at` on into the buffer. Its tree takes the first bytes of
/// the buffer; the others stay as they are, and all of them where the read is refused. A buffer of
/// [`tree_room`](crate::tree_room) bytes has room for every tree of a text, one of
/// [`type_room`](crate::type_room) for that of a type.
///
/// The offset must be 0, the start or the end of a token in a walk from 0, the text's end, or the byte between the
/// two of a `>>`; also the start of the token at which that walk is refused. Start and end of all that
/// [`tokens`](crate::tokens) gives from 0 are allowed, and so is the start of [`Read::next`], from which to go on.
///
/// So a read takes the time of a walk over the tokens up to the offset, and then its own. Who reads often in a long
/// text lends it from a token's end on, `&text[at..]` with offset 0, and adds `at` to the places: it is the same
/// item. Its tree may be narrow where the whole text gives a wide one, which the views of [`Tree`] do not show.
///
/// # Errors
///
/// Refused with 1, 2, 4 to 14 and 21. A refusal by the text, 5 to 9, may stand before the offset: then nothing
/// can be read behind it.
///
/// ```
/// use movesig::{read, Edition, Kind, RecordKind};
///
/// let text = b"fun f(x: &Coin<u8>)";
/// let mut buffer = [0; 256];
/// let item = read(Kind::Type, Edition::One, text, 9, &mut buffer)?;
///
/// assert_eq!(item.tree.kind(), RecordKind::Ref);
/// let coin = item.tree.children().next().expect("what it refers to");
/// let parts: Vec<RecordKind> = coin.children().map(|child| child.kind()).collect();
/// assert_eq!(parts, [RecordKind::OnePart, RecordKind::Type]);
/// assert_eq!(item.next.kind, movesig::TokenKind::R_PAREN);
///
/// // Inside `Coin` nothing starts; from the colon's end on the item is the same, its places lower by 8.
/// let refused = read(Kind::Type, Edition::One, text, 12, &mut buffer);
/// assert_eq!(refused.map(|_| ()).unwrap_err().number(), 21);
/// let item = read(Kind::Type, Edition::One, &text[8..], 0, &mut buffer)?;
/// assert_eq!(item.tree.span(), movesig::Span { start: 1, end: 10 });
/// # Ok::<(), movesig::Refusal>(())
/// ```
#[inline]
pub fn read<'t, 'b>(
    kind: Kind,
    edition: Edition,
    text: &'t [u8],
    at: usize,
    buffer: &'b mut [u8],
) -> Result<Read<'t, 'b>, Refusal> {
    let mut numbers = Numbers::new();
    let (kind, edition) = (kind.number(), edition.number());
    let answer = boundary::read(kind, edition, text, at, buffer, &mut numbers);
    if answer.result != 0 {
        return Err(Refusal::new(answer));
    }
    Ok(Read {
        tree: Tree::new(text, first_bytes(buffer, answer.number(0))),
        next: Following::new(answer, 1),
    })
}

/// Writes the item of the kind from `at` on as one line into the buffer and gives its bytes,
/// which are printable ASCII, 32 to 126. The buffer's other bytes stay as they are, and all of
/// them where the display is refused.
///
/// It tells neither where the item ends nor what follows it: [`read`] from the same offset does, in
/// [`Read::next`], from whose start to go on.
///
/// # Errors
///
/// Refused as [`read`] is, but with 4 by the length of the line alone, and before that with 18
/// where a string holds a byte that a line cannot hold.
///
/// ```
/// use movesig::{display, Edition, Kind, Refusal, Span};
///
/// let mut buffer = [0; 80];
/// let line = display(Kind::BindList, Edition::One, b"( x,S{f} )", 0, &mut buffer)?;
/// assert_eq!(line, b"(x, S {f: f})");
///
/// let byte = Span { start: 3, end: 4 };
/// let refused = display(Kind::Value, Edition::One, b"b\"a\rb\"", 0, &mut buffer);
/// assert_eq!(refused, Err(Refusal::LineUnprintable { byte }));
/// # Ok::<(), Refusal>(())
/// ```
#[inline]
pub fn display<'b>(
    kind: Kind,
    edition: Edition,
    text: &[u8],
    at: usize,
    buffer: &'b mut [u8],
) -> Result<&'b [u8], Refusal> {
    let mut numbers = Numbers::new();
    let (kind, edition) = (kind.number(), edition.number());
    let answer = boundary::display(kind, edition, text, at, buffer, &mut numbers);
    if answer.result != 0 {
        return Err(Refusal::new(answer));
    }
    Ok(first_bytes(buffer, answer.number(0)))
}

/// As [`display`], into a string of its own, which holds each byte of the line. This one allocates.
///
/// # Errors
///
/// Refused as [`display`] is with a buffer of [`LONGEST_LINE`] bytes.
///
/// ```
/// use movesig::{display_to_string, Edition, Kind};
///
/// let line = display_to_string(Kind::Type, Edition::One, b"|u8,&T|()", 0)?;
/// assert_eq!(line, "|u8, & T| ()");
///
/// // What is one number in edition 2 is a number and a name in edition 1.
/// let value = |edition| display_to_string(Kind::Value, edition, b"1_000", 0);
/// assert_eq!(value(Edition::One)?, "1");
/// assert_eq!(value(Edition::Two)?, "1_000");
/// # Ok::<(), movesig::Refusal>(())
/// ```
pub fn display_to_string(
    kind: Kind,
    edition: Edition,
    text: &[u8],
    at: usize,
) -> Result<String, Refusal> {
    let mut buffer = vec![0; LONGEST_LINE];
    let line = display(kind, edition, text, at, &mut buffer)?;
    Ok(String::from_utf8_lossy(line).into_owned())
}

#[inline]
fn first_bytes(buffer: &[u8], length: usize) -> &[u8] {
    buffer.get(..length).unwrap_or(&[])
}
