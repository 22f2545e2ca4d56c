//! A buffer that is lent to the calls on items, and what they may do to it.

use crate::{
    answer::{Answer, ItemCall},
    random::Random,
    reads::{Expected, Lent},
};

/// How a call is made: the item kind, the edition, the text, the start offset, the room lent and the
/// six numbers. Gives the result.
pub type Ask = fn(ItemCall, u64, u64, &[u8], usize, &mut [u8], &mut [u64; 6]) -> u32;

/// A number that no call answers: it shows what was not written.
const UNWRITTEN: u64 = 0xa5a5_a5a5_a5a5_a5a5;

/// How many bytes on each side of a lent buffer are watched.
const GUARD: usize = 32;

/// So many different fillings follow one another.
const FILLINGS: usize = 251;

/// How much room is lent, told by how much the tree or line needs. A call that is
/// refused counts as one that needs 64 bytes.
#[derive(Clone, Copy, PartialEq, Debug)]
pub enum Room {
    None,
    OneLess,
    Exact,
    More(usize),
    /// So many, whatever is needed.
    Bytes(usize),
}

impl Room {
    pub fn of(self, expected: &Expected) -> usize {
        let needed = match expected.written.len() {
            0 => 64,
            length => length,
        };
        match self {
            Room::None => 0,
            Room::OneLess => needed - 1,
            Room::Exact => needed,
            Room::More(bytes) => needed + bytes,
            Room::Bytes(bytes) => bytes,
        }
    }
}

/// A buffer to lend, filled anew before each call.
pub struct Buffer {
    ask: Ask,
    bytes: Vec<u8>,
    pattern: Vec<u8>,
    calls: usize,
}

/// A call: kind, edition, text and start offset.
pub type ItemAt<'t> = (u64, u64, &'t [u8], usize);

/// What a call answered and wrote, and what it did to the buffer that it should not have.
#[derive(Clone, Debug)]
pub struct Wrong {
    pub found: Answer,
    pub written: Vec<u8>,
    pub buffer: Option<String>,
}

impl Buffer {
    pub fn new(ask: Ask) -> Buffer {
        Buffer {
            ask,
            bytes: vec![],
            pattern: vec![],
            calls: 0,
        }
    }

    /// Makes the call with `room` bytes; what is wrong with it, if this is due.
    pub fn wrong(&mut self, call: ItemCall, item: ItemAt, room: usize, due: Lent) -> Option<Wrong> {
        let found = self.asked(call, item, room);
        let buffer = self.fault(due.written);
        if due.answer == Some(found) && buffer.is_none() {
            return None;
        }
        let written = match found.result {
            0 => &self.bytes[GUARD..GUARD + room.min(found.numbers[0] as usize)],
            _ => &[],
        };
        Some(Wrong {
            found,
            written: written.to_vec(),
            buffer,
        })
    }

    /// Makes the call, lending it `room` bytes.
    pub fn asked(&mut self, call: ItemCall, item: ItemAt, room: usize) -> Answer {
        let (kind, edition, text, at) = item;
        self.fill(GUARD + room + GUARD);
        let mut guarded = [[UNWRITTEN; 6]; 3];
        let [before, numbers, behind] = &mut guarded;
        let lent = &mut self.bytes[GUARD..GUARD + room];
        let result = (self.ask)(call, kind, edition, text, at, lent, numbers);
        assert!(
            *before == [UNWRITTEN; 6] && *behind == [UNWRITTEN; 6],
            "the port wrote beside the six numbers: {call:?}, kind {kind} at {at} of '{}'",
            text.escape_ascii()
        );
        Answer {
            result,
            numbers: *numbers,
        }
    }

    fn fill(&mut self, length: usize) {
        if self.pattern.len() < length + FILLINGS {
            let mut random = Random::new(length as u64);
            self.pattern = (0..length + FILLINGS).map(|_| random.byte()).collect();
        }
        self.calls += 1;
        let filling = &self.pattern[self.calls % FILLINGS..][..length];
        self.bytes.clear();
        self.bytes.extend_from_slice(filling);
    }

    /// What is wrong with the buffer after a call that had to write these bytes.
    pub fn fault(&self, due: &[u8]) -> Option<String> {
        let filling = &self.pattern[self.calls % FILLINGS..][..self.bytes.len()];
        let room_end = self.bytes.len() - GUARD;
        let due_end = GUARD + due.len();
        if due_end > room_end {
            return Some("what is due does not fit the buffer".to_string());
        }
        if self.bytes[..GUARD] == filling[..GUARD]
            && self.bytes[GUARD..due_end] == *due
            && self.bytes[due_end..] == filling[due_end..]
        {
            return None;
        }
        let whole = [&filling[..GUARD], due, &filling[due_end..]].concat();
        let at = (0..whole.len()).find(|at| self.bytes[*at] != whole[*at])?;
        Some(if at < GUARD {
            format!("byte {} before it was changed", GUARD - at)
        } else if at >= room_end {
            format!("byte {} behind it was changed", at - room_end)
        } else if at >= due_end {
            format!("byte {} of it was changed", at - GUARD)
        } else {
            let hex: String = self.bytes[GUARD..due_end]
                .iter()
                .map(|byte| format!("{byte:02x}"))
                .collect();
            format!("byte {} is wrong: {hex:.400}", at - GUARD)
        })
    }
}
