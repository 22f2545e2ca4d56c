//! What is accepted, as text for people: tokens, doc comments and records of a tree, one a line.

use crate::{places::Places, visible};
use movesig::{Comment, Following, Token, Tree};
use std::fmt::Write;

/// A spelling is shown up to so many bytes.
pub const MOST: usize = 100;

/// Records are indented up to so many levels below the first: more than an item of 64 levels has, which is
/// 130. Where a tree has more, a line for each record with blanks for each level would be as long as the
/// square of the text's length.
const INDENTED: usize = 136;

/// One line a token, in columns.
pub fn tokens(text: &[u8], tokens: &[Token], to: &mut String) {
    let places = Places::new(text);
    let spans = tokens.iter().map(|token| token.span.to_string().len());
    let spans = spans.max().unwrap_or(0);
    let names = tokens.iter().map(|token| token.kind.name().len());
    let names = names.max().unwrap_or(0);
    let lines = tokens.iter().enumerate().map(|(index, token)| {
        let first = index == 0 || token.line_feed;
        first.then(|| format!("{}:", places.of(token.span.start).0))
    });
    let lines: Vec<String> = lines.map(Option::unwrap_or_default).collect();
    let numbers = lines.iter().map(String::len).max().unwrap_or(0);
    for (token, line) in tokens.iter().zip(lines) {
        let (span, kind) = (token.span.to_string(), token.kind);
        let spelling = visible::cut(token.span.of(text), MOST);
        let line = format!("{line:numbers$}  {span:spans$}  {kind:names$}  {spelling}");
        put_line(to, line.trim_end());
    }
}

/// The span and the place of each doc comment and its text, one line for each of the text's lines.
pub fn comments(text: &[u8], comments: &[Comment], to: &mut String) {
    let places = Places::new(text);
    let heads = comments.iter().map(|comment| {
        let (line, column) = places.of(comment.span.start);
        (comment.span.to_string(), format!("{line}:{column}"))
    });
    let heads: Vec<(String, String)> = heads.collect();
    let spans = heads.iter().map(|(span, _)| span.len()).max().unwrap_or(0);
    let widths = heads.iter().map(|(_, place)| place.len());
    let widths = widths.max().unwrap_or(0);
    for ((span, place), comment) in heads.iter().zip(comments) {
        let (mut span, mut place) = (span.as_str(), place.as_str());
        for line in comment.text.of(text).split(|&byte| byte == b'\n') {
            let line = visible::source(line.strip_suffix(b"\r").unwrap_or(line));
            put_line(to, &format!("{span:spans$}  {place:widths$}  |{line}"));
            (span, place) = ("", "");
        }
    }
}

/// The tree, each record a step to the right of the one that it belongs to. Those that are too deep for that
/// stand at the left edge, with the number of their level. One loop, since a tree may be as deep as it is long.
pub fn tree(tree: Tree, to: &mut String) {
    for (level, record) in tree.records() {
        let mut line = match level {
            0..=INDENTED => "  ".repeat(level),
            _ => format!("level {level}: "),
        };
        line += &format!("{} {}", record.kind(), record.span());
        if let Some(spelling) = record.spelling() {
            line += "  ";
            line += &visible::cut(spelling, MOST);
        }
        put_line(to, &line);
    }
}

/// The token that follows an item.
pub fn following(text: &[u8], token: Following, to: &mut String) {
    let spelling = visible::cut(token.span.of(text), MOST);
    let line = format!("followed by {} {}  {spelling}", token.kind, token.span);
    put_line(to, line.trim_end());
}

pub fn put_line(to: &mut String, line: &str) {
    writeln!(to, "{line}").expect("a string takes what it is given");
}
