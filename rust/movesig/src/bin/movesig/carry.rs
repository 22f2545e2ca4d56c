//! Notes on token starts, carried from edition 1 to edition 2.

use crate::{
    job::{self, Job, Place},
    json,
    listing::{self, MOST},
    paint::Paint,
    places::Places,
    text::{self, Text},
    visible, Said,
};
use movesig::{carry, next_token, CarryRefusal, Edition, Token, MOST_NOTES};
use std::io::{self, IsTerminal};

pub struct Carry {
    /// The file, in the job that lists its tokens: what that one refuses of the text is refused here too.
    pub job: Job,
    /// Where the notes are, at least one.
    pub notes: Vec<Place>,
}

/// A note: where it was, and the token that it is moved to.
pub struct Carried {
    pub old: usize,
    pub token: Token,
}

impl Carry {
    pub fn done(&self) -> Said {
        let (text, old) = match self.opened() {
            Ok(opened) => opened,
            Err(why) => return self.job.failed(&why),
        };
        let mut said = Said::default();
        let mut new = old.clone();
        match carry(&text.bytes, &mut new) {
            Ok(()) => self.moved(&text.bytes, &old, &new, &mut said),
            Err(refusal) => {
                said.status = 1;
                self.refused(&text, &old, &refusal, &mut said);
            }
        }
        said
    }

    /// The text, and the notes as offsets of it.
    fn opened(&self) -> Result<(Text, Vec<usize>), String> {
        let text = text::open(&self.job.file)?;
        let notes: Result<_, _> = self
            .notes
            .iter()
            .map(|&note| job::offset(&text.bytes, note))
            .collect();
        Ok((text, notes?))
    }

    fn moved(&self, text: &[u8], old: &[usize], new: &[usize], said: &mut Said) {
        let places = self.job.json.then(|| Places::new(text));
        for (&old, &new) in old.iter().zip(new) {
            // the walk has met a token there, so there is one
            let Ok(token) = next_token(Edition::Two, text, new) else {
                continue;
            };
            let note = Carried { old, token };
            match &places {
                Some(places) => {
                    said.output += &json::carried(self.job.file_bytes(), text, places, &note);
                }
                None => listing::put_line(&mut said.output, &note.line(text)),
            }
        }
    }

    fn refused(&self, text: &Text, old: &[usize], refusal: &CarryRefusal, said: &mut Said) {
        match *refusal {
            CarryRefusal::Text(ref refusal) => self.job.refused(text, None, refusal, said),
            CarryRefusal::Note { index } if self.job.json => {
                let file = self.job.file_bytes();
                said.output += &json::not_carried(file, refusal, index, old[index]);
            }
            CarryRefusal::Note { index } => {
                let paint = Paint::on(io::stderr().is_terminal());
                let name = paint.bold(&self.job.name());
                let refused = paint.red(&format!("refused {}", refusal.number()));
                let words = words(index, old);
                listing::put_line(&mut said.errors, &format!("{name}: {refused}: {words}"));
            }
        }
    }
}

/// What is wrong with the note, which people count from 1.
fn words(index: usize, old: &[usize]) -> String {
    let note = format!("note {} of {}, byte {}", index + 1, old.len(), old[index]);
    if index < MOST_NOTES {
        format!("no token of edition 1 starts at {note}")
    } else {
        format!("more than {MOST_NOTES} notes: {note}")
    }
}

impl Carried {
    /// As `1 -> 0  1_000`, and `EOF` at the text's end.
    fn line(&self, text: &[u8]) -> String {
        let Carried { old, token } = self;
        let spelling = match token.is_eof() {
            true => token.kind.name().to_string(),
            false => visible::cut(token.span.of(text), MOST),
        };
        format!("{old} -> {}  {spelling}", token.span.start)
    }
}
