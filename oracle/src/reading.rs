//! Asks the Rust: one lexer over one text, token after token, panics caught.

use crate::{
    diagnostics::{
        codes::{Code, Syntax},
        Diagnostic,
    },
    files::THE_FILE,
    parser::lexer::Lexer,
};
use std::{
    cell::Cell,
    panic::{catch_unwind, set_hook, take_hook, AssertUnwindSafe},
};

/// What one `advance` of the Rust gave.
#[derive(Clone, Copy, PartialEq, Eq, Debug)]
pub enum Outcome {
    Token {
        kind: u64,
        start: usize,
        end: usize,
    },
    Refused {
        number: u32,
        start: usize,
        end: usize,
    },
    Panicked,
}

/// A lexer of the Rust on the text from `base` on, all places raised by `base`.
pub struct Reading<'t> {
    lexer: Lexer<'t>,
    text: &'t str,
    base: usize,
}

impl<'t> Reading<'t> {
    pub fn new(text_from_base: &'t str, base: usize) -> Reading<'t> {
        Reading {
            lexer: Lexer::new(text_from_base, THE_FILE),
            text: text_from_base,
            base,
        }
    }

    pub fn advance(&mut self) -> Outcome {
        match caught(|| self.lexer.advance()) {
            None => Outcome::Panicked,
            Some(Ok(())) => Outcome::Token {
                kind: self.lexer.peek() as u64,
                start: self.base + self.lexer.start_loc(),
                end: self.base + self.lexer.end_loc(),
            },
            Some(Err(diagnostic)) => Outcome::Refused {
                number: refusal_number(&diagnostic),
                start: self.base + diagnostic.place.start() as usize,
                end: self.base + diagnostic.place.end() as usize,
            },
        }
    }

    /// The span of the first doc comment met so far, and that of its text.
    pub fn first_doc_comment(&self) -> Option<((usize, usize), (usize, usize))> {
        let ((start, end), comment) = self.lexer.doc_comments().first_key_value()?;
        let (start, end) = (*start as usize, *end as usize);
        let text_start = start + 3;
        let text_end = text_start + comment.len();
        assert_eq!(&self.text[text_start..text_end], comment);
        Some((
            (self.base + start, self.base + end),
            (self.base + text_start, self.base + text_end),
        ))
    }

    /// The spans of all doc comments met so far that start at the place or behind it, in order.
    pub fn doc_comments_from(&self, place: usize) -> Vec<(usize, usize)> {
        let from = ((place - self.base) as u32, 0);
        let comments = self.lexer.doc_comments().range(from..);
        let raised = |place: u32| self.base + place as usize;
        comments
            .map(|((start, end), _)| (raised(*start), raised(*end)))
            .collect()
    }
}

/// The number that the specification gives to a refusal of the lexer.
pub fn refusal_number(diagnostic: &Diagnostic) -> u32 {
    match diagnostic.code {
        Code::Syntax(Syntax::InvalidCharacter) => 5,
        Code::Syntax(Syntax::InvalidDocComment) => 6,
        Code::Syntax(Syntax::InvalidHexString) => 7,
        Code::Syntax(Syntax::InvalidByteString) => 8,
        other => panic!("the lexer gave the code {other:?}"),
    }
}

thread_local! {
    static ASKING: Cell<bool> = const { Cell::new(false) };
}

/// Runs `ask`; None where it panicked.
pub fn caught<T>(ask: impl FnOnce() -> T) -> Option<T> {
    ASKING.set(true);
    let given = catch_unwind(AssertUnwindSafe(ask));
    ASKING.set(false);
    given.ok()
}

/// From here on, panics of the Rust print nothing; all others still do.
pub fn silence_the_rust() {
    let usual = take_hook();
    set_hook(Box::new(move |panic| {
        if !ASKING.get() {
            usual(panic)
        }
    }));
}
