//! Where reading can begin near an offset at which nothing starts: by a walk over the tokens from 0.

use movesig::{tokens, Edition, Refusal, Token};

/// One step of the walk: the end of the token before, or 0, and what follows.
pub struct Step {
    pub from: usize,
    pub met: Result<Token, Refusal>,
}

/// The step that an offset is in: to the first token that ends behind it, to EOF, or to a refusal.
pub fn step_to(edition: Edition, text: &[u8], at: usize) -> Option<Step> {
    let mut from = 0;
    for met in tokens(edition, text, 0) {
        match met {
            Ok(token) if token.span.end <= at && !token.is_eof() => from = token.span.end,
            _ => return Some(Step { from, met }),
        }
    }
    None
}

/// The nearest bytes before and behind the offset at which reading can begin. Behind it there is none where a
/// comment is not closed.
pub fn nearest(edition: Edition, text: &[u8], at: usize) -> Vec<usize> {
    let Some(Step { from, met }) = step_to(edition, text, at) else {
        return vec![];
    };
    match met {
        Ok(token) if token.span.start < at => vec![token.span.start, token.span.end],
        Ok(token) => vec![from, token.span.start],
        Err(Refusal::CommentNotClosed { .. }) => vec![from],
        Err(_) => vec![from, gap_end(text, from)],
    }
}

/// The same for people.
pub fn words(edition: Edition, text: &[u8], at: usize) -> String {
    let places = nearest(edition, text, at);
    let places: Vec<String> = places.iter().map(|byte| format!("at {byte}")).collect();
    format!("reading can begin {}", places.join(" or "))
}

/// Where the blanks and the closed comments from `at` on end.
pub fn gap_end(text: &[u8], mut at: usize) -> usize {
    while let Some(end) = part_end(text, at) {
        at = end;
    }
    at
}

/// Where the blank or the closed comment at `at` ends; none where neither stands there.
pub fn part_end(text: &[u8], at: usize) -> Option<usize> {
    match &text[at..] {
        [b' ' | b'\t' | b'\n', ..] => Some(at + 1),
        [b'\r', b'\n', ..] => Some(at + 2),
        [b'/', b'/', rest @ ..] => {
            // its line feed does not belong to it
            let line_feed = rest.iter().position(|&byte| byte == b'\n');
            Some(line_feed.map_or(text.len(), |length| at + 2 + length))
        }
        [b'/', b'*', ..] => block_comment(text, at),
        _ => None,
    }
}

fn block_comment(text: &[u8], start: usize) -> Option<usize> {
    let (mut at, mut depth) = (start, 0);
    while let Some(two) = text.get(at..at + 2) {
        at += match two {
            b"/*" => {
                depth += 1;
                2
            }
            b"*/" => {
                depth -= 1;
                2
            }
            _ => 1,
        };
        if depth == 0 {
            return Some(at);
        }
    }
    None
}
