//! What a call must answer: the Rust's answer or, where docs/DIFFERENCES.md lists
//! that the specification departs from it, the answer of the specification.

use crate::{
    answer::{Answer, Call},
    memo::{self, Memo},
    parser::lexer::Tok,
    reading::{Outcome, Reading},
    starts::{Beginning, Starts},
    tree::NARROW,
};
use std::{cell::OnceCell, rc::Rc};

/// The longest text that is not refused.
pub const LONGEST: usize = 1_048_575;

/// Why the specification, and not the Rust, decides an answer.
#[derive(Clone, Copy, PartialEq, Eq, Debug)]
pub enum Cause {
    EmptyBlock,
    HighByteInString,
    LastCarriageReturn,
    TextTooLong,
    StartPastEnd,
}

impl Cause {
    pub const ALL: [Cause; 5] = [
        Cause::EmptyBlock,
        Cause::HighByteInString,
        Cause::LastCarriageReturn,
        Cause::TextTooLong,
        Cause::StartPastEnd,
    ];

    pub fn words(self) -> &'static str {
        match self {
            Cause::EmptyBlock => "top-level /**/ (the Rust panics; here a plain comment)",
            Cause::HighByteInString => "byte of 128 or more in a closed string (here refusal 9)",
            Cause::LastCarriageReturn => "unclosed string, CR ends the text (Rust versions differ)",
            Cause::TextTooLong => "text over 1,048,575 bytes (here refusal 1)",
            Cause::StartPastEnd => "start past the end (refusal 2; the Rust cannot be asked)",
        }
    }
}

#[derive(Clone, Copy, PartialEq, Eq, Debug)]
pub struct Expected {
    /// None where the Rust panicked and no listed difference explains it.
    pub answer: Option<Answer>,
    pub cause: Option<Cause>,
}

/// A text as the calls take it, and as the Rust can take it.
pub struct Text<'t> {
    pub bytes: &'t [u8],
    utf8: Option<&'t str>,
    replaced: OnceCell<String>,
    starts: OnceCell<Rc<Starts>>,
}

impl<'t> Text<'t> {
    pub fn new(bytes: &'t [u8]) -> Text<'t> {
        Text {
            bytes,
            utf8: std::str::from_utf8(bytes).ok(),
            replaced: OnceCell::new(),
            starts: OnceCell::new(),
        }
    }

    /// Where reading may begin, by one walk over the whole text.
    pub fn starts(&self) -> &Starts {
        thread_local! {
            static LAST: Memo<Starts> = const { Memo::new(None) };
        }
        self.starts
            .get_or_init(|| memo::made(&LAST, self.bytes, || Starts::new(self)))
    }

    /// Whether reading may begin at an offset, which is not past the end. At 0 it may.
    pub fn beginning(&self, at: usize) -> Beginning {
        match at {
            0 => Beginning::Allowed,
            _ => self.starts().at(at),
        }
    }

    /// Whether a tree of it is wide for its length alone. Texts that are refused are none of these.
    pub fn is_long(&self) -> bool {
        (NARROW + 1..=LONGEST).contains(&self.bytes.len())
    }

    /// The text from `at` on. Where that is not UTF-8, each byte of 128 or more is
    /// replaced by 1, which decides the same: neither starts a token or ends a
    /// comment, a string or a line, and strings that hold one are looked at apart.
    pub fn for_the_rust(&self, at: usize) -> &str {
        match self.utf8 {
            Some(text) if text.is_char_boundary(at) => &text[at..],
            _ => &self.in_ascii()[at..],
        }
    }

    /// The text with each byte of 128 or more replaced by 1.
    pub fn in_ascii(&self) -> &str {
        self.replaced.get_or_init(|| ascii(self.bytes))
    }
}

fn ascii(bytes: &[u8]) -> String {
    bytes
        .iter()
        .map(|byte| {
            if byte.is_ascii() {
                *byte as char
            } else {
                '\x01'
            }
        })
        .collect()
}

pub fn answer(call: Call, text: &Text, at: usize) -> Expected {
    match call {
        Call::Token => token(text, at),
        Call::Comment => comment(text, at),
    }
}

pub fn token(text: &Text, at: usize) -> Expected {
    refused_to_the_caller(text, at).unwrap_or_else(|| {
        let outcome = Reading::new(text.for_the_rust(at), at).advance();
        token_of(text, at, outcome)
    })
}

pub fn comment(text: &Text, at: usize) -> Expected {
    refused_to_the_caller(text, at).unwrap_or_else(|| {
        let mut reading = Reading::new(text.for_the_rust(at), at);
        match (reading.advance(), reading.first_doc_comment()) {
            (Outcome::Panicked, _) => after_a_panic(Call::Comment, text, at),
            (_, Some((span, inner))) => from_the_rust(Answer::comment(span, inner)),
            (
                Outcome::Refused {
                    number: 6,
                    start,
                    end,
                },
                None,
            ) => from_the_rust(Answer::refused(6, start, end)),
            _ => from_the_rust(Answer::no_comment()),
        }
    })
}

/// The token at `at`, for which the Rust gave `outcome`.
pub fn token_of(text: &Text, at: usize, outcome: Outcome) -> Expected {
    match outcome {
        Outcome::Panicked => after_a_panic(Call::Token, text, at),
        Outcome::Token { kind, start, end } => {
            if let Some(high) = high_byte_in_token(text, kind, start) {
                let refusal = Answer::refused(9, high, high + 1);
                return by_document_01(Cause::HighByteInString, refusal);
            }
            // The Rust keeps no such flag: it follows from the token's start and the text.
            let line_feed = text.bytes[at..start].contains(&b'\n');
            from_the_rust(Answer::token(kind, start, end, line_feed))
        }
        Outcome::Refused { number, start, end } => {
            if let Some(refusal) = whole_last_line(text, number, start, end) {
                return by_document_01(Cause::LastCarriageReturn, refusal);
            }
            from_the_rust(Answer::refused(number, start, end))
        }
    }
}

/// Some versions of Rust end the last line before a CR that no LF follows. For such
/// a refusal, the one whose place takes in the CR.
pub fn whole_last_line(text: &Text, number: u32, start: usize, end: usize) -> Option<Answer> {
    let length = text.bytes.len();
    let unclosed = number == 7 || number == 8;
    (unclosed && end + 1 == length && text.bytes[end] == b'\r')
        .then(|| Answer::refused(number, start, length))
}

/// The first byte of 128 or more in a token that is a string.
pub fn high_byte_in_token(text: &Text, kind: u64, start: usize) -> Option<usize> {
    if kind == Tok::ByteStringValue as u64 {
        high_byte_in_string(text.bytes, start)
    } else {
        None
    }
}

fn from_the_rust(answer: Answer) -> Expected {
    Expected {
        answer: Some(answer),
        cause: None,
    }
}

fn by_document_01(cause: Cause, answer: Answer) -> Expected {
    Expected {
        answer: Some(answer),
        cause: Some(cause),
    }
}

fn refused_to_the_caller(text: &Text, at: usize) -> Option<Expected> {
    if text.bytes.len() > LONGEST {
        Some(by_document_01(Cause::TextTooLong, Answer::refused(1, 0, 0)))
    } else if at > text.bytes.len() {
        Some(by_document_01(
            Cause::StartPastEnd,
            Answer::refused(2, 0, 0),
        ))
    } else {
        None
    }
}

/// The Rust panics on a top-level `/**/`. With four blanks in place of each, it
/// reads on as if they were plain comments.
fn after_a_panic(call: Call, text: &Text, at: usize) -> Expected {
    let blocks = empty_blocks(text.bytes, at);
    if blocks.is_empty() {
        return Expected {
            answer: None,
            cause: None,
        };
    }
    let mut blanked = text.bytes.to_vec();
    for block in blocks {
        blanked[block..block + 4].fill(b' ');
    }
    Expected {
        cause: Some(Cause::EmptyBlock),
        ..answer(call, &Text::new(&blanked), at)
    }
}

/// Where each top-level `/**/` of the gap at `at` starts.
pub fn empty_blocks(text: &[u8], mut at: usize) -> Vec<usize> {
    let mut found = vec![];
    loop {
        let rest = &text[at..];
        if rest.starts_with(b"/**/") {
            found.push(at);
            at += 4;
        } else if rest.starts_with(b"/*") {
            match block_length(rest) {
                Some(length) => at += length,
                None => return found,
            }
        } else if rest.starts_with(b"//") {
            at += rest.iter().take_while(|byte| **byte != b'\n').count();
        } else if rest.starts_with(b"\r\n") {
            at += 2;
        } else if rest.starts_with(b" ") || rest.starts_with(b"\t") || rest.starts_with(b"\n") {
            at += 1;
        } else {
            return found;
        }
    }
}

/// The length of the block comment at the start of `rest`, None if it is not closed.
pub fn block_length(rest: &[u8]) -> Option<usize> {
    let mut depth = 0;
    let mut at = 0;
    while at < rest.len() {
        if rest[at..].starts_with(b"/*") {
            depth += 1;
            at += 2;
        } else if rest[at..].starts_with(b"*/") {
            depth -= 1;
            at += 2;
        } else {
            at += 1;
        }
        if depth == 0 {
            return Some(at);
        }
    }
    None
}

/// The first byte of 128 or more before the closing quote of the string at `start`.
/// That there is a closing quote, the Rust has found.
fn high_byte_in_string(text: &[u8], start: usize) -> Option<usize> {
    let mut escaped = false;
    for (at, byte) in text.iter().enumerate().skip(start + 2) {
        match byte {
            128.. => return Some(at),
            b'"' if !escaped => return None,
            _ => escaped = *byte == b'\\' && !escaped,
        }
    }
    None
}

#[cfg(test)]
mod tests {
    use super::*;

    fn token_at(text: &[u8], at: usize) -> (Answer, Option<Cause>) {
        let given = token(&Text::new(text), at);
        (given.answer.expect("a listed cause"), given.cause)
    }

    #[test]
    fn document_01_where_it_departs() {
        let empty_block = Some(Cause::EmptyBlock);
        let high_byte = Some(Cause::HighByteInString);
        for (text, answer, cause) in [
            (&b"/**/a"[..], Answer::token(4, 4, 5, false), empty_block),
            (b"//\n /**/ /**/$", Answer::refused(5, 13, 13), empty_block),
            (b"/**/b\"\xff\"", Answer::refused(9, 6, 7), empty_block),
            (b"b\"a\\\xc3\xa9\"", Answer::refused(9, 4, 5), high_byte),
            (b"x\"\x80\"", Answer::refused(9, 2, 3), high_byte),
            (b"x\"\x80", Answer::refused(7, 0, 3), None),
            (b"x\"\"\x80\"", Answer::token(3, 0, 3, false), None),
            (b"/* /**/ */a", Answer::token(4, 10, 11, false), None),
            (b"/*\n*/a", Answer::token(4, 5, 6, true), None),
            (b"//\n/**/a", Answer::token(4, 7, 8, true), empty_block),
        ] {
            assert_eq!(
                token_at(text, 0),
                (answer, cause),
                "{}",
                text.escape_ascii()
            );
        }
    }

    #[test]
    fn a_doc_comment_before_an_empty_block() {
        let given = comment(&Text::new(b"/**/ ///a\r\n/**/b"), 0);
        assert_eq!(given.answer, Some(Answer::comment((5, 10), (8, 9))));
        assert_eq!(given.cause, Some(Cause::EmptyBlock));
    }

    #[test]
    fn the_last_carriage_return_belongs_to_its_line() {
        let text = Text::new(b"b\"a\r");
        let whole = Answer::refused(8, 0, 4);
        assert_eq!(token(&text, 0).answer, Some(whole));
        // What a version of Rust gives that ends the line before the CR.
        let short = Outcome::Refused {
            number: 8,
            start: 0,
            end: 3,
        };
        let given = token_of(&text, 0, short);
        assert_eq!(given.answer, Some(whole));
        assert_eq!(given.cause, Some(Cause::LastCarriageReturn));
    }

    #[test]
    fn what_the_caller_is_refused() {
        let long = vec![b'a'; LONGEST + 1];
        let refused = |number| Answer::refused(number, 0, 0);
        let too_long = (refused(1), Some(Cause::TextTooLong));
        assert_eq!(token_at(&long, 0), too_long);
        assert_eq!(token_at(&long, LONGEST + 2), too_long);
        assert_eq!(token_at(b"a", 2), (refused(2), Some(Cause::StartPastEnd)));
        assert_eq!(token_at(b"a", 1), (Answer::token(0, 1, 1, false), None));
    }
}
