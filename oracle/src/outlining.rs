//! Outlines. The Rust has none: what must come of a call is told by the tokens and the doc comments of the Rust's own
//! walk from the offset on; in edition 2 by its walk over another text (editions.rs). It is written down as the request
//! has it, each name and each comment by itself, and not as a walk that keeps what is pending.

use crate::{
    answer::Answer,
    editions,
    expected::{token_of, Text, LONGEST},
    parser::lexer::Tok,
    reading::{Outcome, Reading},
    reads::without_empty_blocks,
};

/// The longest text whose records have two bytes a number.
const NARROW: usize = 65_535;

/// A span, 0 and 0 for no comment.
pub type Span = (usize, usize);

/// A token, and the doc comments of the gap before it.
#[derive(Clone, Debug)]
pub struct Step {
    pub kind: u64,
    pub span: Span,
    pub docs: Vec<Span>,
}

impl Step {
    pub fn declares(&self) -> bool {
        declares(self.kind)
    }

    /// Whether no comment before it holds behind it.
    pub fn separates(&self) -> bool {
        [Tok::Semicolon, Tok::LBrace, Tok::RBrace]
            .map(|kind| kind as u64)
            .contains(&self.kind)
    }

    pub fn is_name(&self) -> bool {
        self.kind == Tok::Identifier as u64
    }
}

/// Whether it is the kind of a keyword behind which a name is declared.
pub fn declares(kind: u64) -> bool {
    [Tok::Struct, Tok::Fun, Tok::Const]
        .map(|kind| kind as u64)
        .contains(&kind)
}

/// How a walk ends.
#[derive(Clone, Debug)]
pub enum End {
    /// At EOF, with the doc comments of the gap before it.
    Eof(Vec<Span>),
    Refused(Answer),
    /// It does not begin: the call is refused for what is asked, whatever the limit.
    Never(Answer),
}

/// A walk over the tokens from an offset on.
pub struct Walk {
    pub length: usize,
    pub at: usize,
    pub steps: Vec<Step>,
    pub end: End,
    /// Of each step the last doc comment before it since the offset.
    comments: Vec<Option<Span>>,
    /// Of so many steps the end of the last that separates.
    separated: Vec<Option<usize>>,
}

/// What must come of a call: its answer, what is pending behind it, and the bytes that it writes.
#[derive(Clone, PartialEq, Eq, Debug)]
pub struct Outlined {
    pub answer: Answer,
    pub pending: [u64; 3],
    pub written: Vec<u8>,
}

impl Walk {
    pub fn new(edition: u64, bytes: &[u8], at: usize) -> Walk {
        let (steps, end) = match refused_to_the_caller(edition, bytes, at) {
            Some(answer) => (vec![], End::Never(answer)),
            None => editions::judging(edition, &Text::new(bytes), at, usize::MAX, |text| {
                walk(text, at)
            }),
        };
        let last = |last: &mut Option<Span>, step: &Step| {
            *last = step.docs.last().copied().or(*last);
            Some(*last)
        };
        let comments = steps.iter().scan(None, last).collect();
        let mut separated = vec![None];
        for step in &steps {
            let before = separated[separated.len() - 1];
            separated.push(if step.separates() {
                Some(step.span.1)
            } else {
                before
            });
        }
        Walk {
            length: bytes.len(),
            at,
            steps,
            end,
            comments,
            separated,
        }
    }

    /// The bytes of a number in a record, and of a record.
    pub fn width(&self) -> usize {
        if self.length > NARROW {
            4
        } else {
            2
        }
    }

    pub fn size(&self) -> usize {
        2 + 5 * self.width()
    }

    pub fn outlined(&self, limit: u64, handed: [u64; 3], room: usize) -> Outlined {
        let refused = |answer| Outlined {
            answer,
            pending: handed,
            written: vec![],
        };
        if let End::Never(answer) = self.end {
            return refused(answer);
        }
        let most = self.steps.len().min(limit.try_into().unwrap_or(usize::MAX));
        let names = (0..most).filter(|index| self.is_declared(*index, handed));
        let names: Vec<usize> = names.collect();
        let fitting = room / self.size();
        match (names.get(fitting), &self.end) {
            (Some(index), _) => self.accepted(1, *index, &names[..fitting], handed),
            (None, End::Refused(answer)) if limit > most as u64 => refused(*answer),
            _ => self.accepted(0, most, &names, handed),
        }
    }

    fn accepted(&self, full: u64, count: usize, names: &[usize], handed: [u64; 3]) -> Outlined {
        let records = names.iter().map(|index| self.record(*index, handed));
        let written = records.collect::<Vec<_>>().concat();
        let end = match count {
            0 => self.at,
            _ => self.steps[count - 1].span.1,
        };
        Outlined {
            answer: Answer {
                result: 0,
                numbers: [full, count as u64, written.len() as u64, end as u64, 0, 0],
            },
            pending: self.pending(count, handed),
            written,
        }
    }

    /// The kind of the token right before the step: of the first it is the one that is handed in.
    fn before(&self, index: usize, handed: [u64; 3]) -> u64 {
        match index {
            0 => handed[0],
            _ => self.steps[index - 1].kind,
        }
    }

    fn is_declared(&self, index: usize, handed: [u64; 3]) -> bool {
        self.steps[index].is_name() && declares(self.before(index, handed))
    }

    /// The comment that holds where this is the last doc comment since the offset, and so many steps are before: one
    /// that stands before the last separating token does not. The handed-in one stands as if at the offset.
    fn holding(&self, comment: Option<Span>, steps: usize, handed: [u64; 3]) -> Span {
        let [_, start, end] = handed;
        let passes = start > self.length as u64 || end > self.length as u64;
        match (comment, self.separated[steps]) {
            (Some(comment), None) => comment,
            (Some(comment), Some(separator)) if comment.0 >= separator => comment,
            (None, None) if !passes => (start as usize, end as usize),
            _ => (0, 0),
        }
    }

    fn record(&self, index: usize, handed: [u64; 3]) -> Vec<u8> {
        let width = self.width();
        let (start, end) = self.steps[index].span;
        let comment = self.holding(self.comments[index], index, handed);
        let keyword = self.before(index, handed);
        let mut record = number(width, self.size());
        record.extend(number(2, keyword as usize));
        for value in [start, end, comment.0, comment.1] {
            record.extend(number(width, value));
        }
        record
    }

    /// What is pending behind so many steps.
    fn pending(&self, count: usize, handed: [u64; 3]) -> [u64; 3] {
        let before = self.before(count, handed);
        let comment = match count {
            0 => None,
            _ => self.comments[count - 1],
        };
        let (start, end) = self.holding(comment, count, handed);
        let keyword = if declares(before) { before } else { 0 };
        [keyword, start as u64, end as u64]
    }
}

/// So many bytes of a number, the low one first.
pub fn number(width: usize, value: usize) -> Vec<u8> {
    value.to_le_bytes()[..width].to_vec()
}

fn refused_to_the_caller(edition: u64, bytes: &[u8], at: usize) -> Option<Answer> {
    let number = match edition {
        _ if bytes.len() > LONGEST => 1,
        _ if at > bytes.len() => 2,
        1 | 2 => return None,
        _ => 19,
    };
    Some(Answer::refused(number, 0, 0))
}

fn walk(text: &Text, at: usize) -> (Vec<Step>, End) {
    walked(text, at).unwrap_or_else(|| {
        let copy = without_empty_blocks(text, at).expect("the Rust panics at `/**/` alone");
        walked(&Text::new(&copy), at).expect("no `/**/` is left")
    })
}

/// The walk; None where the Rust panics.
fn walked(text: &Text, at: usize) -> Option<(Vec<Step>, End)> {
    let mut steps = vec![];
    let mut reading = Reading::new(text.for_the_rust(at), at);
    let mut before = at;
    loop {
        let outcome = reading.advance();
        if outcome == Outcome::Panicked {
            return None;
        }
        let answer = token_of(text, before, outcome).answer?;
        if answer.result != 0 {
            return Some((steps, End::Refused(answer)));
        }
        let [kind, start, end, ..] = answer.numbers;
        let docs = reading.doc_comments_from(before);
        if kind == Tok::EOF as u64 {
            return Some((steps, End::Eof(docs)));
        }
        before = end as usize;
        let span = (start as usize, before);
        steps.push(Step { kind, span, docs });
    }
}

#[cfg(test)]
mod tests {
    use super::*;
    use crate::reading::silence_the_rust;

    const NONE: [u64; 3] = [0; 3];

    fn done(text: &[u8], limit: u64, handed: [u64; 3], room: usize) -> (u32, [u64; 4], [u64; 3]) {
        let due = Walk::new(1, text, 0).outlined(limit, handed, room);
        let [a, b, c, d, ..] = due.answer.numbers;
        (due.answer.result, [a, b, c, d], due.pending)
    }

    /// The readings of the request, each with an input that tells.
    #[test]
    fn what_is_decided() {
        silence_the_rust();
        let text = b"/// d\npublic fun f { struct S; const C }";
        assert_eq!(done(text, 100, NONE, 40), (0, [0, 10, 36, 40], NONE));
        let due = Walk::new(1, text, 0).outlined(100, NONE, 40);
        let record = [0x0c, 0, 0x3e, 0, 0x11, 0, 0x12, 0, 0, 0, 5, 0];
        assert_eq!(due.written[..12], record);
        assert_eq!(due.written[20..24], [0; 4]);
        assert_eq!(done(b"fun f $", 9, NONE, 0), (0, [1, 1, 0, 3], [62, 0, 0]));
        assert_eq!(done(b"fun f $", 9, NONE, 12), (5, [6, 6, 6, 6], NONE));
        assert_eq!(done(b"fun f $", 2, NONE, 12), (0, [0, 2, 12, 5], NONE));
        assert_eq!(done(b"a /** x */", 9, NONE, 0), (0, [0, 1, 0, 1], NONE));
        assert_eq!(done(b"a /*", 1, NONE, 0), (0, [0, 1, 0, 1], NONE));
        assert_eq!(done(b"a /*", 2, NONE, 0), (6, [2, 4, 2, 4], NONE));
        let text = b"fun /** x */ f";
        assert_eq!(done(text, 9, NONE, 11), (0, [1, 1, 0, 3], [62, 0, 0]));
        let due = Walk::new(1, text, 0).outlined(9, NONE, 12);
        assert_eq!(due.written[8..], [4, 0, 12, 0]);
        let due = Walk::new(1, b"/** a */ fun f fun g", 0).outlined(9, NONE, 24);
        assert_eq!((due.written[10], due.written[22]), (8, 8));
        assert_eq!(done(b"abc", 0, [54, 3, 1], 0), (0, [0; 4], [54, 3, 1]));
        assert_eq!(done(b"abc", 0, [4, 1, 4], 0), (0, [0; 4], NONE));
        let none = Walk::new(0, b"$", 0).outlined(0, [7, 8, 9], 0);
        assert_eq!(
            (none.answer, none.pending),
            (Answer::refused(19, 0, 0), [7, 8, 9])
        );
        let first = Walk::new(1, b"1_0 fun f", 0).outlined(3, NONE, 12);
        assert_eq!(first.answer.numbers, [0, 3, 0, 7, 0, 0]);
        assert_eq!(first.pending, [62, 0, 0]);
        let later = Walk::new(2, b"1_0 fun f", 0).outlined(3, NONE, 12);
        assert_eq!(later.answer.numbers, [0, 3, 12, 9, 0, 0]);
    }

    #[test]
    fn the_whole_text_tells_the_layout() {
        silence_the_rust();
        let mut text = vec![b' '; 65_530];
        text.extend(b"fun f");
        let narrow = Walk::new(1, &text, 0).outlined(9, NONE, 30);
        let record = [12, 0, 62, 0, 0xfe, 0xff, 0xff, 0xff, 0, 0, 0, 0];
        assert_eq!(narrow.written, record);
        text.push(b' ');
        for at in [0, 65_530] {
            let wide = Walk::new(1, &text, at).outlined(9, NONE, 30);
            let front = [22, 0, 0, 0, 62, 0, 0xfe, 0xff, 0, 0, 0xff, 0xff, 0, 0];
            assert_eq!(wide.written, [&front[..], &[0; 8]].concat());
        }
    }

    #[test]
    fn an_empty_block_is_a_plain_comment() {
        silence_the_rust();
        let due = Walk::new(1, b"/** a *//**/fun/**/f", 0).outlined(9, NONE, 12);
        assert_eq!(due.written, [12, 0, 62, 0, 19, 0, 20, 0, 0, 0, 8, 0]);
    }
}
