//! Calls and their answers, in the numbers of the C interface.

use std::fmt;

#[derive(Clone, Copy, PartialEq, Eq, Debug)]
pub enum Call {
    Token,
    Comment,
}

/// The calls that take the kind of an item and a buffer.
#[derive(Clone, Copy, PartialEq, Eq, Debug)]
pub enum ItemCall {
    Read,
    Display,
}

/// What a call returns and the six numbers that it writes.
#[derive(Clone, Copy, PartialEq, Eq, Debug)]
pub struct Answer {
    pub result: u32,
    pub numbers: [u64; 6],
}

impl Answer {
    pub fn token(kind: u64, start: usize, end: usize, line_feed: bool) -> Answer {
        Answer {
            result: 0,
            numbers: [kind, start as u64, end as u64, line_feed.into(), 0, 0],
        }
    }

    pub fn comment(span: (usize, usize), text: (usize, usize)) -> Answer {
        let (start, end) = span;
        let (text_start, text_end) = text;
        Answer {
            result: 0,
            numbers: [
                1,
                start as u64,
                end as u64,
                text_start as u64,
                text_end as u64,
                0,
            ],
        }
    }

    pub fn no_comment() -> Answer {
        Answer {
            result: 0,
            numbers: [0; 6],
        }
    }

    /// A read that is accepted: the length of its tree, and the token that follows.
    pub fn read(length: usize, kind: u64, start: usize, end: usize) -> Answer {
        Answer {
            result: 0,
            numbers: [length as u64, kind, start as u64, end as u64, 0, 0],
        }
    }

    /// A display that is accepted: the length of its line.
    pub fn display(length: usize) -> Answer {
        Answer {
            result: 0,
            numbers: [length as u64, 0, 0, 0, 0, 0],
        }
    }

    /// Notes that are carried: how many.
    pub fn carried(count: usize) -> Answer {
        Answer {
            result: 0,
            numbers: [count as u64, 0, 0, 0, 0, 0],
        }
    }

    /// A refusal whose second place is its place, as all refusals of the lexer are.
    pub fn refused(number: u32, start: usize, end: usize) -> Answer {
        Answer::refused_at_two(number, (start, end), (start, end))
    }

    pub fn refused_at_two(number: u32, place: (usize, usize), second: (usize, usize)) -> Answer {
        let [start, end] = [place.0 as u64, place.1 as u64];
        let [second_start, second_end] = [second.0 as u64, second.1 as u64];
        Answer {
            result: number,
            numbers: [start, end, second_start, second_end, 0, 0],
        }
    }
}

impl fmt::Display for Answer {
    fn fmt(&self, formatter: &mut fmt::Formatter<'_>) -> fmt::Result {
        write!(formatter, "{}", self.result)?;
        for number in self.numbers {
            write!(formatter, " {number}")?;
        }
        Ok(())
    }
}
