//! What was found where a text is refused, and what could have stood there. The second is told by
//! reading: the text up to that place is read again with one token behind it, and where the refusal
//! comes later, or not at all, that token could have stood there.

use crate::visible;
use movesig::{next_token, read, tokens, Edition, Kind, Refusal, Token, LONGEST};

/// An item that is read: of a kind, in an edition, from a byte on.
#[derive(Clone, Copy)]
pub struct Item {
    pub kind: Kind,
    pub edition: Edition,
    pub at: usize,
}

/// The token at the refusal's place; none where the refusal is about no token.
pub fn token_at(text: &[u8], item: Item, refusal: &Refusal) -> Option<Token> {
    let about = is_about_a_token(refusal);
    about.then(|| next_token(item.edition, text, refusal.place().start).ok())?
}

/// The same, for people.
pub fn found(text: &[u8], item: Item, refusal: &Refusal) -> Option<String> {
    let token = token_at(text, item, refusal)?;
    Some(if token.is_eof() {
        "the end of the text".to_string()
    } else {
        format!("`{}`", visible::cut(token.span.of(text), 32))
    })
}

/// What could have stood at the refusal's place, for people: `a type`, `` `,` ``. None where that is
/// not known.
pub fn due(text: &[u8], item: Item, refusal: &Refusal) -> Vec<String> {
    let place = refusal.place().start;
    match text.get(item.at..place) {
        _ if !is_about_a_token(refusal) => vec![],
        _ if refusal.number() == 10 && refusal.second() != refusal.place() => {
            vec!["`::` behind a number".to_string()]
        }
        Some(before) if before.len() + MARGIN <= LONGEST => {
            let mut fitting = fitting(item, before, refusal);
            words(item.edition, before, &mut fitting)
        }
        _ => vec![],
    }
}

/// As in: a type, a name or a number.
pub fn listed(words: &[String]) -> String {
    match words {
        [] => String::new(),
        [one] => one.clone(),
        [first @ .., last] => format!("{} or {last}", first.join(", ")),
    }
}

fn is_about_a_token(refusal: &Refusal) -> bool {
    matches!(refusal.number(), 10..=13)
}

/// One token of each sort that can stand somewhere in an item.
const TOKENS: [&str; 18] = [
    "x", "1", "1u8", "true", "b\"\"", "@", "&", "(", "|", "::", "{", "<", ":", ",", ")", ">", "}",
    "&mut ",
];

/// Each of them fits behind a text that is so much shorter than the longest.
const MARGIN: usize = 8;

/// Those that go on with a list or end it.
const LIST_TOKENS: [&str; 5] = [",", ")", ">", "|", "}"];

fn fitting(item: Item, before: &[u8], refusal: &Refusal) -> Vec<&'static str> {
    let tokens = match refusal {
        Refusal::ListNotClosed { .. } => &LIST_TOKENS[..],
        _ => &TOKENS,
    };
    let fits = |token: &&str| fits(item, before, token);
    tokens.iter().copied().filter(fits).collect()
}

/// Whether the token can follow what is read before it. A line feed stands between them, which joins
/// with neither.
fn fits(item: Item, before: &[u8], token: &str) -> bool {
    let text = [before, b"\n", token.as_bytes()].concat();
    // 4 comes last: where there is no room, all was read
    match read(item.kind, item.edition, &text, 0, &mut []) {
        Ok(_) | Err(Refusal::NoRoom) => true,
        Err(refusal) => refusal.place().start > before.len() + 1,
    }
}

/// Sorts of items in place of the tokens that begin them.
fn words(edition: Edition, before: &[u8], fitting: &mut Vec<&str>) -> Vec<String> {
    let mut words = vec![];
    let mut take = |tokens: &[&str], name: &str| {
        if tokens.iter().all(|token| fitting.contains(token)) {
            fitting.retain(|token| !tokens.contains(token));
            words.push(name.to_string());
        }
    };
    take(&["x", "1", "&", "&mut ", "(", "|"], "a type");
    take(&["1", "1u8", "true", "b\"\"", "@"], "a value");
    take(&["x", "1"], "a name");
    let last = tokens(edition, before, 0).map_while(Result::ok);
    let last = last.filter(|token| !token.is_eof()).last();
    if last.is_some_and(|token| token.span.of(before) == b"::") {
        take(&["x"], "a name behind `::`");
    }
    take(&["x"], "an identifier");
    take(&["1"], "a number");
    words.extend(
        fitting
            .iter()
            .map(|token| format!("`{}`", token.trim_end())),
    );
    words
}
