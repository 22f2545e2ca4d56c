//! Notes carried from edition 1 to edition 2. The Rust carries none: what must come of a call is found by plain
//! loops over the tokens of the Rust's walk in edition 1, and of its walk in edition 2, which is the Rust's on
//! another text (editions.rs).

use crate::{
    answer::Answer,
    editions,
    expected::{token_of, Text, LONGEST},
    parser::lexer::Tok,
    reading::{Outcome, Reading},
    reads::without_empty_blocks,
};

/// The most notes that are carried.
pub const MOST_NOTES: usize = 256;

/// A walk over the tokens from 0.
pub struct Walk {
    /// Start and end of each, EOF's last.
    pub tokens: Vec<(usize, usize)>,
    pub refused: Option<Answer>,
}

/// The walks over a text in both editions.
pub struct Walks {
    pub old: Walk,
    pub new: Walk,
    length: usize,
}

/// What must come of a call: its answer, and the list of notes behind it.
#[derive(Clone, PartialEq, Eq, Debug)]
pub struct Carried {
    pub answer: Answer,
    pub notes: Vec<usize>,
}

impl Walks {
    pub fn new(bytes: &[u8]) -> Walks {
        let text = Text::new(bytes);
        Walks {
            old: walk(&text),
            new: editions::judging(2, &text, 0, usize::MAX, walk),
            length: bytes.len(),
        }
    }

    /// Whether both come to the text's end.
    pub fn read(&self) -> bool {
        self.old.refused.is_none() && self.new.refused.is_none()
    }

    /// The starts of the tokens of edition 1, EOF's last.
    pub fn starts(&self) -> Vec<usize> {
        self.old.tokens.iter().map(|&(start, _)| start).collect()
    }

    pub fn is_start(&self, offset: usize) -> bool {
        self.old.tokens.iter().any(|&(start, _)| start == offset)
    }

    pub fn carried(&self, notes: &[usize]) -> Carried {
        let refused = self.old.refused.or(self.new.refused);
        match refused.or_else(|| self.bad(notes)) {
            Some(answer) => Carried {
                answer,
                notes: notes.to_vec(),
            },
            None => Carried {
                answer: Answer::carried(notes.len()),
                notes: notes.iter().map(|&note| self.covering(note)).collect(),
            },
        }
    }

    /// The refusal for the lowest bad index.
    fn bad(&self, notes: &[usize]) -> Option<Answer> {
        let bad = |(index, &note): (usize, &usize)| index >= MOST_NOTES || !self.is_start(note);
        let index = notes.iter().enumerate().position(bad)?;
        Some(Answer::refused(20, index, index))
    }

    /// The start of the one token that covers the byte, by a search over all tokens; the text's end stays.
    fn covering(&self, byte: usize) -> usize {
        let covers = |&&(start, end): &&(usize, usize)| start <= byte && byte < end;
        let mut covering = self.new.tokens.iter().filter(covers);
        match (covering.next(), covering.next()) {
            (Some(&(start, _)), None) => start,
            (None, _) if byte == self.length => byte,
            _ => panic!("the byte {byte} does not lie in exactly one token of edition 2"),
        }
    }
}

fn walk(text: &Text) -> Walk {
    if text.bytes.len() > LONGEST {
        return Walk {
            tokens: vec![],
            refused: Some(Answer::refused(1, 0, 0)),
        };
    }
    walked(text).unwrap_or_else(|| {
        let copy = without_empty_blocks(text, 0).expect("the Rust panics at `/**/` alone");
        walked(&Text::new(&copy)).expect("no `/**/` is left")
    })
}

/// The walk; None where the Rust panics.
fn walked(text: &Text) -> Option<Walk> {
    let mut tokens = vec![];
    let mut reading = Reading::new(text.for_the_rust(0), 0);
    let mut before = 0;
    loop {
        let outcome = reading.advance();
        if outcome == Outcome::Panicked {
            return None;
        }
        let answer = token_of(text, before, outcome).answer?;
        if answer.result != 0 {
            let refused = Some(answer);
            return Some(Walk { tokens, refused });
        }
        let [kind, start, end, ..] = answer.numbers;
        tokens.push((start as usize, end as usize));
        before = end as usize;
        if kind == Tok::EOF as u64 {
            let refused = None;
            return Some(Walk { tokens, refused });
        }
    }
}

#[cfg(test)]
mod tests {
    use super::*;
    use crate::reading::silence_the_rust;

    fn carried(text: &[u8], notes: &[usize]) -> (u32, usize, Vec<usize>) {
        let Carried { answer, notes } = Walks::new(text).carried(notes);
        (answer.result, answer.numbers[0] as usize, notes)
    }

    #[test]
    fn what_is_decided() {
        silence_the_rust();
        let same = |number, place, notes: &[usize]| (number, place, notes.to_vec());
        let due = |notes: &[usize]| same(0, notes.len(), notes);
        assert_eq!(carried(b"1_000 a", &[1, 0, 7, 6]), due(&[0, 0, 7, 6]));
        assert_eq!(carried(b"1u168 b", &[1]), due(&[0]));
        assert_eq!(carried(b"1u8x\"00\"", &[0, 3]), due(&[0, 3]));
        assert_eq!(carried(b"a", &[0, 5, 9]), same(20, 1, &[0, 5, 9]));
        assert_eq!(carried(b"a", &[0; 256]), due(&[0; 256]));
        assert_eq!(carried(b"a", &[0; 257]), same(20, 256, &[0; 257]));
        assert_eq!(carried(b"a $", &[9]), same(5, 2, &[9]));
        assert_eq!(carried(b"1_x\"a\"", &[9]), same(5, 3, &[9]));
        assert_eq!(carried(b"1_ /*", &[0]), same(6, 3, &[0]));
        assert_eq!(carried(b"", &[0]), due(&[0]));
        assert_eq!(carried(b"", &[1]), same(20, 0, &[1]));
        assert_eq!(carried(b"a b", &[1]), same(20, 0, &[1]));
        assert_eq!(carried(b"/**/1_0/**/", &[5, 11]), due(&[4, 11]));
        let long = [&[b' '; 70_000][..], b"1_0"].concat();
        assert_eq!(
            carried(&long, &[70_001, 70_000, 70_003]),
            due(&[70_000, 70_000, 70_003])
        );
        let longer = vec![b' '; LONGEST + 1];
        assert_eq!(carried(&longer, &[0]), same(1, 0, &[0]));
    }
}
