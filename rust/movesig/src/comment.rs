use crate::{
    boundary::{self, Numbers},
    next_token, Edition, Refusal, Span,
};
use std::iter::FusedIterator;

/// A doc comment: `/** ... */` or `/// ...`.
#[derive(Clone, Copy, Debug, PartialEq, Eq, Hash)]
pub struct Comment {
    /// All of it.
    pub span: Span,
    /// Its text, without the marks.
    pub text: Span,
}

/// The first doc comment among the blanks and comments from `at` on, up to the next token.
///
/// # Errors
///
/// Refused with 1, 2 and 6. Comments are the same in both editions.
///
/// ```
/// use movesig::{next_comment, Edition};
///
/// let text = b"// plain\n/// What it does.\nfun f()";
/// let comment = next_comment(Edition::One, text, 0)?.expect("there is one");
/// assert_eq!(comment.span.of(text), b"/// What it does.");
/// assert_eq!(comment.text.of(text), b" What it does.");
///
/// assert_eq!(next_comment(Edition::One, text, comment.span.end)?, None);
/// # Ok::<(), movesig::Refusal>(())
/// ```
#[inline]
pub fn next_comment(edition: Edition, text: &[u8], at: usize) -> Result<Option<Comment>, Refusal> {
    let mut numbers = Numbers::new();
    let answer = boundary::next_comment(edition.number(), text, at, &mut numbers);
    if answer.result != 0 {
        return Err(Refusal::new(answer));
    }
    let found = answer.number(0) != 0;
    Ok(found.then(|| Comment {
        span: Span::new(answer, 1),
        text: Span::new(answer, 3),
    }))
}

/// All doc comments from `at` on, between all tokens up to the end of the text. A refusal of a
/// comment or of a token is the last thing given.
///
/// ```
/// use movesig::{comments, Edition, Refusal};
///
/// let text = b"/// one\nfun f(/** two */ x: u8)";
/// let texts: Result<Vec<&[u8]>, Refusal> =
///     comments(Edition::One, text, 0).map(|comment| Ok(comment?.text.of(text))).collect();
/// assert_eq!(texts?, [&b" one"[..], b" two "]);
/// # Ok::<(), Refusal>(())
/// ```
#[inline]
#[must_use]
pub fn comments(edition: Edition, text: &[u8], at: usize) -> Comments<'_> {
    let at = Some(at);
    Comments { edition, text, at }
}

/// The iterator that [`comments`] gives.
#[derive(Clone, Debug)]
pub struct Comments<'t> {
    edition: Edition,
    text: &'t [u8],
    at: Option<usize>,
}

/// The first doc comment from `at` on, past any number of tokens.
fn find(edition: Edition, text: &[u8], mut at: usize) -> Result<Option<Comment>, Refusal> {
    loop {
        if let Some(comment) = next_comment(edition, text, at)? {
            return Ok(Some(comment));
        }
        let token = next_token(edition, text, at)?;
        if token.is_eof() {
            return Ok(None);
        }
        at = token.span.end;
    }
}

impl Iterator for Comments<'_> {
    type Item = Result<Comment, Refusal>;

    fn next(&mut self) -> Option<Self::Item> {
        let found = find(self.edition, self.text, self.at?);
        self.at = match found {
            Ok(Some(comment)) => Some(comment.span.end),
            _ => None,
        };
        found.transpose()
    }
}

impl FusedIterator for Comments<'_> {}
