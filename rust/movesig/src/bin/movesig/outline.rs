//! What a file declares, read in portions of so many tokens: a line or an object for each name.

use crate::{
    listing::{put_line, MOST},
    visible,
};
use movesig::{
    entry_size, next_comment, outline, portions, Comment, Edition, Entry, Refusal, LONGEST,
};

/// A name that is declared, and its doc comment.
pub struct Declaration {
    pub entry: Entry,
    pub comment: Option<Comment>,
}

/// What is declared before a refusal, and the refusal, whatever the limit is: a portion that is refused is read again
/// token by token.
pub fn declared(
    edition: Edition,
    text: &[u8],
    limit: usize,
) -> (Vec<Declaration>, Result<(), Refusal>) {
    let mut entries = vec![];
    let mut done = Ok(());
    let mut read = portions(edition, text, 0, limit);
    while let Some(portion) = read.next() {
        match portion {
            Ok(more) => entries.extend(more),
            Err(refusal) => {
                entries.extend(token_by_token(edition, text, read.at(), read.pending()));
                done = Err(refusal);
            }
        }
    }
    let declaration = |entry: Entry| {
        let comment = entry.comment();
        let found = comment.and_then(|span| next_comment(edition, text, span.start).ok());
        let comment = found.flatten();
        Declaration { entry, comment }
    };
    (entries.into_iter().map(declaration).collect(), done)
}

/// What is declared from there on up to a refusal.
fn token_by_token(
    edition: Edition,
    text: &[u8],
    mut at: usize,
    mut pending: movesig::Pending,
) -> Vec<Entry> {
    let mut entries = vec![];
    let mut buffer = [0; entry_size(LONGEST)];
    while let Ok(portion) = outline(edition, text, at, 1, pending, &mut buffer) {
        entries.extend(portion.entries());
        (at, pending) = (portion.end, portion.pending);
        if portion.tokens == 0 {
            break;
        }
    }
    entries
}

/// Names are padded up to so many columns, so that one long name moves no comment off the screen.
const PADDED: usize = 24;

/// One line for each name, in columns: its span, the keyword, the name, and the first line of its comment, cut where
/// the screen ends.
pub fn list(text: &[u8], all: &[Declaration], screen: usize, to: &mut String) {
    let widest = |of: &dyn Fn(&Declaration) -> usize| all.iter().map(of).max().unwrap_or(0);
    let spans = widest(&|one| one.entry.name().to_string().len());
    let keywords = widest(&|one| one.entry.keyword().name().len());
    let names = widest(&|one| one.entry.name().of(text).len()).min(PADDED);
    for Declaration { entry, comment } in all {
        let (span, keyword) = (entry.name().to_string(), entry.keyword());
        let name = visible::cut(entry.name().of(text), MOST);
        let mut line = format!("{span:spans$}  {keyword:keywords$}  {name:names$}   ");
        let left = screen.saturating_sub(line.len() + 1);
        if let Some(comment) = comment {
            line += &visible::fitted(first_line(comment.text.of(text)), left);
        }
        put_line(to, line.trim_end());
    }
}

/// The first line of a comment's text that says something, without the blanks round it and, in all lines but the
/// first, without the star before it.
fn first_line(text: &[u8]) -> &[u8] {
    let lines = text.split(|&byte| byte == b'\n').enumerate();
    let mut said = lines.map(|(index, line)| match line.trim_ascii() {
        [b'*', rest @ ..] if index > 0 => rest.trim_ascii(),
        line => line,
    });
    said.find(|line| !line.is_empty()).unwrap_or_default()
}
