//! Where a read or a display may begin. The Rust's own lexer, walked from 0, gives the starts and the ends of
//! the tokens, and where it is refused; the specification makes of these the offsets that are allowed. The
//! text is one of edition 1; edition 2 is judged on another text (editions.rs).

use crate::{
    answer::Answer,
    expected::{block_length, token_of, Text},
    parser::lexer::Tok,
    reading::{Outcome, Reading},
    reads::without_empty_blocks,
};

/// What is said of an offset.
#[derive(Clone, Copy, PartialEq, Eq, Debug)]
pub enum Beginning {
    Allowed,
    /// Nothing starts or ends there.
    Nowhere,
    /// The walk is refused so, at a token or comment that starts before the offset.
    Refused(Answer),
}

/// What a walk from 0 says of all offsets of a text.
#[derive(Debug)]
pub struct Starts {
    /// Of each offset, the text's end too, whether reading may begin there.
    allowed: Vec<bool>,
    /// Where the token or comment starts that is refused, and how it is.
    refused: Option<(usize, Answer)>,
}

impl Starts {
    pub fn new(text: &Text) -> Starts {
        walked(text).unwrap_or_else(|| {
            let copy = without_empty_blocks(text, 0).expect("the Rust panics at `/**/` alone");
            walked(&Text::new(&copy)).expect("no `/**/` is left")
        })
    }

    /// What is said of an offset, which is not past the text's end.
    pub fn at(&self, offset: usize) -> Beginning {
        match self.refused {
            Some((start, answer)) if start < offset => Beginning::Refused(answer),
            _ if self.allowed[offset] => Beginning::Allowed,
            _ => Beginning::Nowhere,
        }
    }

    /// All offsets that are allowed.
    pub fn offsets(&self) -> impl Iterator<Item = usize> + '_ {
        (0..self.allowed.len()).filter(|offset| self.at(*offset) == Beginning::Allowed)
    }
}

/// The walk; None where the Rust panics.
fn walked(text: &Text) -> Option<Starts> {
    let mut starts = Starts {
        allowed: vec![false; text.bytes.len() + 1],
        refused: None,
    };
    starts.allowed[0] = true;
    let mut reading = Reading::new(text.for_the_rust(0), 0);
    let mut before = 0;
    loop {
        let outcome = reading.advance();
        let answer = match outcome {
            Outcome::Panicked => return None,
            _ => token_of(text, before, outcome).answer?,
        };
        let start = match outcome {
            Outcome::Token { start, .. } => start,
            // the place is the comment's innermost opener that is open
            Outcome::Refused { number: 6, .. } => open_comment(text.bytes, before),
            Outcome::Refused { start, .. } => start,
            Outcome::Panicked => return None,
        };
        if answer.result != 0 {
            // a comment is no token
            starts.allowed[start] |= answer.result != 6;
            starts.refused = Some((start, answer));
            return Some(starts);
        }
        let [kind, _, end, ..] = answer.numbers;
        let end = end as usize;
        starts.allowed[start] = true;
        starts.allowed[end] = true;
        if kind == Tok::GreaterGreater as u64 {
            starts.allowed[start + 1] = true;
        }
        if kind == Tok::EOF as u64 {
            return Some(starts);
        }
        before = end;
    }
}

/// Where the comment starts that is not closed, among the blanks and comments from `at` on.
fn open_comment(text: &[u8], mut at: usize) -> usize {
    loop {
        let rest = &text[at..];
        at += if rest.starts_with(b"//") {
            rest.iter().take_while(|byte| **byte != b'\n').count()
        } else if rest.starts_with(b"/*") {
            match block_length(rest) {
                Some(length) => length,
                None => return at,
            }
        } else {
            1
        };
    }
}

#[cfg(test)]
mod tests {
    use super::*;
    use crate::{editions, reading::silence_the_rust};

    fn said(edition: u64, text: &[u8], at: usize) -> Beginning {
        editions::judging(edition, &Text::new(text), 0, usize::MAX, |text| {
            Starts::new(text).at(at)
        })
    }

    #[test]
    fn where_reading_may_begin() {
        silence_the_rust();
        let refused = |number, start, end| Beginning::Refused(Answer::refused(number, start, end));
        let (allowed, nowhere) = (Beginning::Allowed, Beginning::Nowhere);
        for (text, at, due) in [
            (&b""[..], 0, allowed),
            (b"/* a */ b", 0, allowed),
            (b"/* a */ b", 3, nowhere),
            (b"/* a */ b", 7, nowhere),
            (b"/* a */ b", 8, allowed),
            (b"/**/a", 1, nowhere),
            (b"/**/a", 4, allowed),
            (b"a/**/$a", 5, allowed),
            (b"a/**/$a", 6, refused(5, 5, 5)),
            (b"abc", 1, nowhere),
            (b"abc", 3, allowed),
            (b"a  b", 1, allowed),
            (b"a  b", 2, nowhere),
            (b"a  ", 3, allowed),
            (b">>a", 1, allowed),
            (b">>>a", 2, allowed),
            (b">=a", 1, nowhere),
            (b"&mut a", 4, nowhere),
            (b"&mut a", 5, allowed),
            (b"a  $b", 3, allowed),
            (b"a  $b", 4, refused(5, 3, 3)),
            (b"b\"\xe9\" a", 0, allowed),
            (b"b\"\xe9\" a", 1, refused(9, 2, 3)),
            (b"b\"\xe9\" a", 3, refused(9, 2, 3)),
            (b" b\"a\r", 1, allowed),
            (b" b\"a\r", 3, refused(8, 1, 5)),
            (b" /*", 1, nowhere),
            (b" /*", 2, refused(6, 1, 3)),
            (b"a /* /*", 1, allowed),
            (b"a /* /*", 2, nowhere),
            (b"a /* /*", 3, refused(6, 5, 7)),
            (b"// /*\n/* */ /*/*\n", 12, nowhere),
            (b"// /*\n/* */ /*/*\n", 13, refused(6, 14, 16)),
            (b"a\r\nb\r", 1, allowed),
            (b"a\r\nb\r", 2, nowhere),
            (b"a\r\nb\r", 4, allowed),
            (b"a\r\nb\r", 5, refused(5, 4, 4)),
            (b"a<b>>==c", 4, allowed),
            (b"a<b>>==c", 6, nowhere),
        ] {
            assert_eq!(said(1, text, at), due, "{} at {at}", text.escape_ascii());
        }
        assert_eq!(said(1, b"1_0", 1), allowed);
        assert_eq!(said(2, b"1_0", 1), nowhere);
        assert_eq!(said(2, b"a1_0 0x1_fu32 b", 13), allowed);
    }
}
