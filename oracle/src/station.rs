//! The port, through its C interface (include/movesig.h). Programs that link the
//! static library include this file as a module.

#[allow(dead_code)] // each program makes some of the calls
#[path = "../../rust/movesig/src/boundary/calls.rs"]
pub mod calls;

use calls::{movesig_next_comment, movesig_next_token};
use oracle::answer::{Answer, Call};

#[link(name = "station", kind = "static")]
extern "C" {}

/// A number that no call answers: it shows what was not written.
const UNWRITTEN: u64 = 0xa5a5_a5a5_a5a5_a5a5;

/// Asks the port. The lent numbers are filled first, and have a neighbour on each
/// side that must stay as it is.
pub fn ask(call: Call, edition: u64, text: &[u8], at: usize) -> Answer {
    let mut lent = [UNWRITTEN; 8];
    let ask = match call {
        Call::Token => movesig_next_token,
        Call::Comment => movesig_next_comment,
    };
    let (start, length) = (text.as_ptr(), text.len());
    let result = unsafe { ask(edition, start, length, at, lent.as_mut_ptr().add(1).cast()) };
    assert!(
        lent[0] == UNWRITTEN && lent[7] == UNWRITTEN,
        "the port wrote beside the six numbers: {call:?} at {at} of '{}'",
        text.escape_ascii()
    );
    Answer {
        result,
        numbers: [lent[1], lent[2], lent[3], lent[4], lent[5], lent[6]],
    }
}
