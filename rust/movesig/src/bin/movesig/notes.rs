//! What is noted beside an answer: `&mut` that is read as `&` and a type named `mut`; that an offset at which
//! nothing starts is inside a token or a comment; and what to do where an item has no line.

use crate::{
    starts::{self, Step},
    visible,
};
use movesig::{tokens, Edition, Refusal, Span, TokenKind};

/// A note and the byte that it is about.
pub struct Note {
    pub at: usize,
    pub words: String,
}

/// What is noted beside a refusal of the item at this offset.
pub fn refused(edition: Edition, text: &[u8], at: usize, refusal: &Refusal) -> Vec<Note> {
    let mut notes: Vec<_> = offset(edition, text, at).into_iter().collect();
    if let Refusal::LineUnprintable { byte } = refusal {
        notes.push(Note {
            at: byte.start,
            words: "`movesig read` shows the tree".to_string(),
        });
    }
    notes
}

/// Where the offset is inside a token or a comment of the text that is read from its start. None where
/// the text before it is refused.
fn offset(edition: Edition, text: &[u8], at: usize) -> Option<Note> {
    let Step { from, met } = starts::step_to(edition, text, at)?;
    match met {
        Ok(token) if token.span.start < at && at < token.span.end => {
            let Span { start, end } = token.span;
            let token = visible::cut(&text[start..end], 32);
            let words = format!("the offset is inside the token `{token}`");
            Some(Note { at, words })
        }
        Err(refusal) if refusal.is_by_caller() => None,
        _ => comment(text, from, at),
    }
}

/// Whether the offset is inside a closed comment of the gap that begins at `part`.
fn comment(text: &[u8], mut part: usize, at: usize) -> Option<Note> {
    while part < at {
        let end = starts::part_end(text, part)?;
        let is_comment = text[part] == b'/';
        if at < end && is_comment {
            let words = "the offset is inside a comment".to_string();
            return Some(Note { at, words });
        }
        part = end;
    }
    None
}

/// Each `&mut` between the two bytes that has no space behind it.
pub fn references(edition: Edition, text: &[u8], from: usize, to: usize) -> Vec<Note> {
    let mut notes = vec![];
    let mut amp = None;
    for token in tokens(edition, text, from).map_while(Result::ok) {
        if token.span.start >= to {
            break;
        }
        if token.span.of(text) == b"mut" && amp == Some(token.span.start) {
            notes.push(Note {
                at: token.span.start - 1,
                words: "`&mut` without a space behind it is `&` and a type named `mut`".to_string(),
            });
        }
        amp = (token.kind == TokenKind::AMP).then_some(token.span.end);
    }
    notes
}
