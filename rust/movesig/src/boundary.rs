//! The unsafe boundary: the C calls of `include/movesig.h`, declared in `calls`, and one safe function for
//! each.
//!
//! Why they are sound. What the header asks of a caller is what Rust's references promise:
//!
//! - A slice's pointer is not null, also where the slice is empty, and its length's bytes can
//!   be read; through `&mut` they can be written too, and they hold some value already. Of a list of notes it is
//!   aligned, and a `usize` is C's `size_t`.
//! - Nobody writes the text or a saved tree during the call, since they are lent as `&[u8]`. The two may overlap:
//!   they are read and not written.
//! - Text, buffer or notes, the three numbers that are pending and the six of the answer do not overlap, since a
//!   `&mut` shuts out every other reference to the same bytes.
//!
//! And what the calls do is proved (crates/station): for every text, offset, limit, kind number, edition number,
//! buffer, list of notes, numbers that are pending and bytes in the place of a tree they return, read no byte outside
//! the text, the tree, the list and those numbers, write no byte outside the buffer or the list, those numbers and
//! the six, write all six, and keep no pointer. So no further test is needed here, and none is made. That the library
//! is the one whose calls take these arguments is told by a symbol with the version in its name, which every program
//! refers to.

#![allow(unsafe_code)]

mod calls;
#[cfg(test)]
mod fuzz;

use calls::{
    movesig_carry, movesig_child, movesig_display, movesig_next_comment, movesig_next_token,
    movesig_open, movesig_opened_child, movesig_outline, movesig_read,
};
use std::mem::MaybeUninit;

/// Room for the six numbers of an answer. Every call writes them all, so nothing is there before.
pub(crate) struct Numbers(MaybeUninit<[u64; 6]>);

impl Numbers {
    #[inline]
    pub(crate) fn new() -> Numbers {
        Numbers(MaybeUninit::uninit())
    }

    /// What a call answered that has written the numbers.
    ///
    /// # Safety
    ///
    /// A call has written all six.
    #[inline]
    unsafe fn answer(&self, result: u32) -> Answer<'_> {
        Answer {
            result,
            // SAFETY: all six are written, as this function asks.
            numbers: unsafe { self.0.assume_init_ref() },
        }
    }
}

/// What a call answered.
#[derive(Clone, Copy)]
pub(crate) struct Answer<'n> {
    /// 0, or the number of a refusal.
    pub(crate) result: u32,
    numbers: &'n [u64; 6],
}

impl Answer<'_> {
    /// The number at the index, below 6.
    #[inline]
    pub(crate) fn number(self, index: usize) -> usize {
        self.numbers[index] as usize
    }
}

// What the library has beside its calls.
unsafe extern "C" {
    /// The version of the library, in a symbol that has it in its name too: a library of another
    /// minor version does not have it.
    #[link_name = concat!(
        "movesig_version_",
        env!("CARGO_PKG_VERSION_MAJOR"),
        "_",
        env!("CARGO_PKG_VERSION_MINOR")
    )]
    safe static VERSION: u32;
}

/// Kept in every program, so that none is linked with a library of another version, whose calls may
/// take other arguments: the linker then misses the symbol. The build script looks for it before.
#[used]
static LINKED: &u32 = &VERSION;

/// The version of the library that is linked: major and minor, which are this crate's too.
#[must_use]
pub fn library_version() -> (u32, u32) {
    (VERSION >> 16, VERSION & 0xffff)
}

#[inline]
pub(crate) fn next_token<'n>(
    edition: u64,
    text: &[u8],
    at: usize,
    numbers: &'n mut Numbers,
) -> Answer<'n> {
    let answer = numbers.0.as_mut_ptr();
    // SAFETY: pointer and length are one slice's, and `answer` points to six aligned numbers;
    // both are lent for the call. Any edition and any offset may be asked for. The call writes all six numbers.
    unsafe {
        let result = movesig_next_token(edition, text.as_ptr(), text.len(), at, answer);
        numbers.answer(result)
    }
}

#[inline]
pub(crate) fn next_comment<'n>(
    edition: u64,
    text: &[u8],
    at: usize,
    numbers: &'n mut Numbers,
) -> Answer<'n> {
    let answer = numbers.0.as_mut_ptr();
    // SAFETY: as for `next_token`.
    unsafe {
        let result = movesig_next_comment(edition, text.as_ptr(), text.len(), at, answer);
        numbers.answer(result)
    }
}

#[inline]
pub(crate) fn read<'n>(
    kind: u64,
    edition: u64,
    text: &[u8],
    at: usize,
    out: &mut [u8],
    numbers: &'n mut Numbers,
) -> Answer<'n> {
    let answer = numbers.0.as_mut_ptr();
    let (start, room) = (out.as_mut_ptr(), out.len());
    // SAFETY: each pointer stands with the length of its own slice, and all are lent for the call;
    // `out` and `numbers` are `&mut`, so they overlap neither `text` nor each other. Any kind,
    // edition and offset may be asked for. Every byte that is written is a valid `u8`, and the call writes
    // all six numbers.
    unsafe {
        let (text, len) = (text.as_ptr(), text.len());
        let result = movesig_read(kind, edition, text, len, at, start, room, answer);
        numbers.answer(result)
    }
}

#[inline]
pub(crate) fn display<'n>(
    kind: u64,
    edition: u64,
    text: &[u8],
    at: usize,
    line: &mut [u8],
    numbers: &'n mut Numbers,
) -> Answer<'n> {
    let answer = numbers.0.as_mut_ptr();
    let (start, room) = (line.as_mut_ptr(), line.len());
    // SAFETY: as for `read`, with `line` in the place of `out`.
    unsafe {
        let (text, len) = (text.as_ptr(), text.len());
        let result = movesig_display(kind, edition, text, len, at, start, room, answer);
        numbers.answer(result)
    }
}

#[inline]
pub(crate) fn carry<'n>(text: &[u8], notes: &mut [usize], numbers: &'n mut Numbers) -> Answer<'n> {
    let answer = numbers.0.as_mut_ptr();
    let (start, count) = (notes.as_mut_ptr(), notes.len());
    // SAFETY: each pointer stands with the length of its own slice, and all are lent for the call;
    // `notes` and `numbers` are `&mut`, so they overlap neither `text` nor each other. Any list may be lent.
    // Every number is a valid `usize`, and the call writes all six numbers of the answer.
    unsafe {
        let result = movesig_carry(text.as_ptr(), text.len(), start, count, answer);
        numbers.answer(result)
    }
}

#[inline]
pub(crate) fn outline<'n>(
    edition: u64,
    text: &[u8],
    at: usize,
    limit: u64,
    pending: &mut [u64; 3],
    out: &mut [u8],
    numbers: &'n mut Numbers,
) -> Answer<'n> {
    let answer = numbers.0.as_mut_ptr();
    let (start, room) = (out.as_mut_ptr(), out.len());
    // SAFETY: each pointer stands with the length of its own slice, or points to three numbers or six, and all
    // are lent for the call; `pending`, `out` and `numbers` are `&mut`, so they overlap neither `text` nor one
    // another. Any edition, offset, limit and three numbers may be handed in. Every byte and every number that is
    // written is a valid one, and the call writes all six numbers of the answer.
    unsafe {
        let (text, len) = (text.as_ptr(), text.len());
        let result = movesig_outline(edition, text, len, at, limit, pending, start, room, answer);
        numbers.answer(result)
    }
}

#[inline]
pub(crate) fn open<'n>(tree: &[u8], text: &[u8], numbers: &'n mut Numbers) -> Answer<'n> {
    let answer = numbers.0.as_mut_ptr();
    // SAFETY: each pointer stands with the length of its own slice, and all are lent for the call; `numbers` is
    // `&mut`, so it overlaps neither of the others. Any bytes may be lent as a tree. The call writes all six numbers.
    unsafe {
        let (tree, tree_len) = (tree.as_ptr(), tree.len());
        let result = movesig_open(tree, tree_len, text.as_ptr(), text.len(), answer);
        numbers.answer(result)
    }
}

#[inline]
pub(crate) fn child<'n>(
    tree: &[u8],
    text: &[u8],
    record: u64,
    index: u64,
    numbers: &'n mut Numbers,
) -> Answer<'n> {
    let answer = numbers.0.as_mut_ptr();
    // SAFETY: as for `open`. Any offset and any index may be asked for.
    unsafe {
        let (tree, tree_len) = (tree.as_ptr(), tree.len());
        let (text, len) = (text.as_ptr(), text.len());
        let result = movesig_child(tree, tree_len, text, len, record, index, answer);
        numbers.answer(result)
    }
}

#[inline]
pub(crate) fn opened_child<'n>(
    tree: &[u8],
    record: u64,
    index: u64,
    numbers: &'n mut Numbers,
) -> Answer<'n> {
    let answer = numbers.0.as_mut_ptr();
    // SAFETY: as for `child`, without a text. The tree need not have been opened: the call looks at no byte outside
    // of it, whatever its bytes are.
    unsafe {
        let (tree, tree_len) = (tree.as_ptr(), tree.len());
        let result = movesig_opened_child(tree, tree_len, record, index, answer);
        numbers.answer(result)
    }
}
