//! The port's calls on items, read and display, through its C interface. Programs that
//! link the static library include this file, and station.rs with it, as a module.

use crate::station::calls::{movesig_display, movesig_read};
use oracle::answer::ItemCall;

/// Makes the call, lending it the room.
pub fn ask(
    call: ItemCall,
    kind: u64,
    edition: u64,
    text: &[u8],
    at: usize,
    room: &mut [u8],
    answer: &mut [u64; 6],
) -> u32 {
    let ask = match call {
        ItemCall::Read => movesig_read,
        ItemCall::Display => movesig_display,
    };
    // A text of no bytes may lie anywhere: here something to read lies there.
    let place = if text.is_empty() { b"a" } else { text };
    unsafe {
        ask(
            kind,
            edition,
            place.as_ptr(),
            text.len(),
            at,
            room.as_mut_ptr(),
            room.len(),
            answer,
        )
    }
}
