//! The proved Move signature reader, for Rust: the nine calls of `movesig.h` over slices.
//!
//! A call that reads takes a text, any bytes at all, the [`Edition`] of Move that it is written in, and
//! an offset from which it reads; [`carry`] takes neither edition nor offset, nor do the calls on saved trees. It
//! gives an answer or a [`Refusal`] with a number and a place ([`carry`] a [`CarryRefusal`], [`open`] a [`Damage`]);
//! it neither panics nor fails in any other way, and it allocates nothing.
//!
//! | call | gives |
//! |---|---|
//! | [`next_token`] | the token at an offset; [`tokens`] walks over all of them |
//! | [`next_comment`] | the first doc comment before the next token; [`comments`] walks over all of them |
//! | [`read`] | an item as a [`Tree`], stored in a buffer of yours |
//! | [`display`] | an item as one line, in a buffer of yours |
//! | [`carry`] | moves notes on token starts from edition 1 to edition 2 |
//! | [`outline`] | what a text declares, so many tokens a call; [`portions`] goes on by itself |
//! | [`open`] | a saved tree as a [`Tree`] again, or what is damaged; [`child`] and [`opened_child`] give children by the offsets of records |
//!
//! ```
//! use movesig::{display, read, tree_room, Edition, Kind, RecordKind, Refusal};
//!
//! let text = b"vector< u8 > {";
//! let mut buffer = vec![0; tree_room(text.len())];
//!
//! let item = read(Kind::Type, Edition::One, text, 0, &mut buffer)?;
//! assert_eq!(item.tree.kind(), RecordKind::Type);
//! assert_eq!(item.tree.span().of(text), b"vector< u8 >");
//! assert_eq!(item.next.span.of(text), b"{");
//!
//! let line = display(Kind::Type, Edition::One, text, 0, &mut buffer)?;
//! assert_eq!(line, b"vector<u8>");
//!
//! let refused = read(Kind::Type, Edition::One, b"(u8", 0, &mut buffer).unwrap_err();
//! assert_eq!(refused.number(), 12);
//! assert_eq!(
//!     refused.to_string(),
//!     "refused 12: list neither continued nor closed, at 3..3 (second place 0..0)"
//! );
//! # Ok::<(), Refusal>(())
//! ```
//!
//! Offsets and spans count bytes from 0. Nothing is asked of the text: it need not be UTF-8.
//!
//! A call takes up to [`STACK`] bytes of stack. Keep the buffers elsewhere, as the `vec!` above does:
//! [`tree_room`] bytes are room for every tree of a text, [`LONGEST_LINE`] for every line. No file is too
//! long for that: [`tree_room`] grows no further than [`LONGEST`], and a longer text is refused. Who reads
//! a file that may be of any length reads at most `LONGEST + 1` of its bytes, which are refused as the whole
//! file would be. The tree of a type needs less: [`type_room`].
//!
//! All `unsafe` code stands in one module, `boundary`, which says why each call is sound.

#![deny(unsafe_op_in_unsafe_fn)]
#![deny(unsafe_code)]
#![warn(missing_docs)]

mod boundary;
mod carry;
mod comment;
mod edition;
mod item;
mod outline;
mod refusal;
mod saved;
mod span;
mod token;
mod tree;

pub use boundary::library_version;
pub use carry::{carry, CarryRefusal, MOST_NOTES};
pub use comment::{comments, next_comment, Comment, Comments};
pub use edition::Edition;
pub use item::{display, display_to_string, read, Kind, Read};
pub use outline::{
    entry_size, outline, portions, Entries, Entry, Keyword, Pending, Portion, Portions,
};
pub use refusal::Refusal;
pub use saved::{child, open, opened_child, Damage, SavedRecord};
pub use span::Span;
pub use token::{next_token, tokens, Following, Token, TokenKind, Tokens};
pub use tree::{Children, RecordKind, Records, Tree};

/// The most bytes of a text.
pub const LONGEST: usize = 1_048_575;

/// The most bytes of a line. A buffer for a line that is longer than this never changes an answer.
pub const LONGEST_LINE: usize = 65_535;

/// Room for every tree of a text of so many bytes: at most three records of 14 bytes for each byte,
/// and four in front. It grows up to the longest text, for which it is 44,040,154 bytes, and no further:
/// a longer text is refused, with any room. Most trees have far less.
///
/// ```
/// use movesig::{tree_room, LONGEST};
///
/// assert_eq!(tree_room(5), 214);
/// assert_eq!(tree_room(usize::MAX), tree_room(LONGEST));
/// ```
#[must_use]
pub const fn tree_room(len: usize) -> usize {
    4 + 42 * if len < LONGEST { len } else { LONGEST }
}

/// Room for the tree of a type that spans so many bytes, from its first to its last, or fewer, in a text
/// of `len` bytes; who does not know how many takes all from the offset on, `len - at`. At most one record
/// more than the type has bytes: of 8 bytes where it has at most 8,190 and the text at most 65,535, else of
/// 14 bytes, and four in front. It grows up to the longest text, for which it is 14,680,068 bytes, and no
/// further. The other kinds of items need [`tree_room`].
///
/// ```
/// use movesig::{read, type_room, Edition, Kind, Refusal};
///
/// let text = b"f: |a,a|a;"; // six bytes from 3 on, and seven records
/// let mut buffer = vec![0; type_room(6, text.len())];
/// assert_eq!(buffer.len(), 56);
///
/// let item = read(Kind::Type, Edition::One, text, 3, &mut buffer)?;
/// assert_eq!(item.tree.span().of(text), b"|a,a|a");
/// assert_eq!(item.tree.records().count(), 7);
///
/// let less = read(Kind::Type, Edition::One, text, 3, &mut buffer[..55]);
/// assert_eq!(less.unwrap_err(), Refusal::NoRoom);
/// # Ok::<(), Refusal>(())
/// ```
#[must_use]
pub const fn type_room(bytes: usize, len: usize) -> usize {
    let bytes = if bytes < LONGEST { bytes } else { LONGEST };
    if len <= 65_535 && bytes <= 8_190 {
        8 * (bytes + 1)
    } else {
        4 + 14 * (bytes + 1)
    }
}

/// The most levels of an item.
pub const LEVELS: usize = 64;

/// Bytes of stack that are enough for any call: what was measured and at least a fortieth more, as
/// `MOVESIG_STACK` of `movesig.h`. It is measured, not proved.
pub const STACK: usize = 49_152;
