//! What is done with one file.

use crate::{
    due::Item,
    json::{self, Answer, Beside},
    listing,
    notes::{self, Note},
    outline,
    paint::Paint,
    places::Places,
    report::Report,
    text::{self, Text},
    visible, Said,
};
use movesig::{
    comments, display, read, tokens, tree_room, Edition, Following, Kind, Refusal, LONGEST,
    LONGEST_LINE,
};
use std::{
    cell::OnceCell,
    env,
    ffi::{OsStr, OsString},
    io::{self, IsTerminal},
};

/// Where an item begins.
#[derive(Clone, Copy)]
pub enum Place {
    Byte(usize),
    LineColumn(usize, usize),
}

/// What is asked of a file.
#[derive(Clone, Copy)]
pub enum Work {
    Tokens,
    Comments,
    /// In portions of so many tokens.
    Outline(usize),
    Read(Kind),
    Line(Kind),
}

pub struct Job {
    pub work: Work,
    /// The edition that the file is written in.
    pub edition: Edition,
    pub file: OsString,
    /// Where the item begins, for a read and a line.
    pub place: Place,
    /// The file that a read saves its tree in, if any.
    pub save: Option<OsString>,
    pub json: bool,
    /// Whether it is one of several files.
    pub several: bool,
}

impl Job {
    pub fn done(&self) -> Said {
        let (text, item) = match self.opened() {
            Ok(opened) => opened,
            Err(why) => return self.failed(&why),
        };
        let mut said = Said::default();
        match self.work(&text, item, &mut said) {
            Ok(Some(tree)) => {
                if let Err(why) = self.saved(&tree) {
                    return why;
                }
            }
            Ok(None) => {}
            Err(refusal) => {
                said.status = 1;
                self.refused(&text, item, &refusal, &mut said);
            }
        }
        if self.several && !self.json {
            let lines: Vec<&str> = said.output.lines().collect();
            let mut named = String::new();
            for line in lines {
                listing::put_line(&mut named, &format!("{}: {line}", self.name()));
            }
            said.output = named;
        }
        said
    }

    pub fn refused(&self, text: &Text, item: Option<Item>, refusal: &Refusal, said: &mut Said) {
        if self.json {
            said.output += &json::refusal(self.file_bytes(), text, item, refusal);
            return;
        }
        let report = self.report(text, item);
        said.errors += &report.of(refusal);
        if let Some(item) = item {
            let notes = notes::refused(item.edition, &text.bytes, item.at, refusal);
            put_notes(&report, &notes, said);
        }
    }

    /// The text, and the item that is to be read.
    fn opened(&self) -> Result<(Text, Option<Item>), String> {
        let text = text::open(&self.file)?;
        let (Work::Read(kind) | Work::Line(kind)) = self.work else {
            return Ok((text, None));
        };
        let at = offset(&text.bytes, self.place)?;
        let edition = self.edition;
        Ok((text, Some(Item { kind, edition, at })))
    }

    pub fn failed(&self, why: &str) -> Said {
        failed(&self.file, self.json, why)
    }

    /// Saves a tree, or what is to be said where it cannot be.
    fn saved(&self, tree: &[u8]) -> Result<(), Said> {
        let Some(save) = &self.save else {
            return Ok(());
        };
        text::save(save, &self.file, tree).map_err(|why| failed(save, self.json, &why))
    }

    /// Does it, and gives the tree that is to be saved, if one is.
    fn work(
        &self,
        text: &Text,
        item: Option<Item>,
        said: &mut Said,
    ) -> Result<Option<Vec<u8>>, Refusal> {
        match (self.work, item) {
            (Work::Read(_), Some(item)) => return self.tree(text, item, said).map(Some),
            (Work::Line(_), Some(item)) => self.line(text, item, said)?,
            (Work::Comments, _) => self.comments(&text.bytes, said)?,
            (Work::Outline(limit), _) => self.outline(&text.bytes, limit, said)?,
            _ => self.tokens(&text.bytes, said)?,
        }
        Ok(None)
    }

    fn tokens(&self, text: &[u8], said: &mut Said) -> Result<(), Refusal> {
        let (tokens, done) = up_to_refusal(tokens(self.edition, text, 0));
        if self.json {
            let places = Places::new(text);
            let objects = tokens.iter();
            said.output = objects
                .map(|&token| json::token(self.file_bytes(), text, &places, token))
                .collect();
        } else {
            listing::tokens(text, &tokens, &mut said.output);
        }
        done
    }

    fn comments(&self, text: &[u8], said: &mut Said) -> Result<(), Refusal> {
        let (comments, done) = up_to_refusal(comments(self.edition, text, 0));
        if self.json {
            let places = Places::new(text);
            let objects = comments.iter();
            said.output = objects
                .map(|&comment| json::comment(self.file_bytes(), text, &places, comment))
                .collect();
        } else {
            listing::comments(text, &comments, &mut said.output);
            if done.is_ok() && comments.is_empty() {
                said.errors = format!("{}: no doc comments\n", self.name());
            }
        }
        done
    }

    fn outline(&self, text: &[u8], limit: usize, said: &mut Said) -> Result<(), Refusal> {
        let (all, done) = outline::declared(self.edition, text, limit);
        if self.json {
            let places = Places::new(text);
            let objects = all.iter();
            said.output = objects
                .map(|one| json::declaration(self.file_bytes(), text, &places, one))
                .collect();
            return done;
        }
        let before = match self.several {
            true => self.name().chars().count() + 2,
            false => 0,
        };
        let left = screen().saturating_sub(before);
        outline::list(text, &all, left, &mut said.output);
        if done.is_ok() && all.is_empty() {
            said.errors = format!("{}: no declarations\n", self.name());
        }
        done
    }

    /// Shows the tree, and gives its bytes.
    fn tree(&self, text: &Text, item: Item, said: &mut Said) -> Result<Vec<u8>, Refusal> {
        let mut buffer = vec![0; tree_room(text.bytes.len())];
        let found = read(item.kind, item.edition, &text.bytes, item.at, &mut buffer)?;
        let beside = Beside::new(&text.bytes, item, found.next);
        self.item(text, item, &Answer::Tree(found.tree), &beside, said);
        let length = found.tree.as_bytes().len();
        buffer.truncate(length);
        Ok(buffer)
    }

    fn line(&self, text: &Text, item: Item, said: &mut Said) -> Result<(), Refusal> {
        let mut buffer = vec![0; LONGEST_LINE];
        let line = display(item.kind, item.edition, &text.bytes, item.at, &mut buffer)?;
        let mut tree = vec![0; tree_room(text.bytes.len())];
        // which tells the token that follows
        let found = read(item.kind, item.edition, &text.bytes, item.at, &mut tree)?;
        let beside = Beside::new(&text.bytes, item, found.next);
        self.item(text, item, &Answer::Line(line), &beside, said);
        Ok(())
    }

    fn item(&self, text: &Text, item: Item, answer: &Answer, beside: &Beside, said: &mut Said) {
        if self.json {
            said.output = json::item(self.file_bytes(), &text.bytes, item, answer, beside);
            return;
        }
        let mut following = String::new();
        listing::following(&text.bytes, beside.next, &mut following);
        match answer {
            Answer::Tree(tree) => {
                listing::tree(*tree, &mut said.output);
                said.output += &following;
            }
            Answer::Line(line) => {
                listing::put_line(&mut said.output, &visible::line(line));
                let name = if self.several {
                    self.name() + ": "
                } else {
                    String::new()
                };
                said.errors += &(name + &following);
            }
        }
        put_notes(&self.report(text, Some(item)), &beside.notes, said);
    }

    fn report<'a>(&'a self, text: &'a Text, item: Option<Item>) -> Report<'a> {
        report(self.name(), text, item)
    }

    /// The file's name, safe to show.
    pub fn name(&self) -> String {
        shown(&self.file)
    }

    pub fn file_bytes(&self) -> &[u8] {
        self.file.as_encoded_bytes()
    }
}

impl Beside {
    fn new(text: &[u8], item: Item, next: Following) -> Beside {
        let end = next.span.start;
        let notes = notes::references(item.edition, text, item.at, end);
        Beside { next, notes }
    }
}

/// A report about a text, the file's name being safe to show.
pub fn report(name: String, text: &Text, item: Option<Item>) -> Report<'_> {
    Report {
        name,
        text,
        item,
        places: OnceCell::new(),
        screen: screen(),
        paint: Paint::on(io::stderr().is_terminal()),
    }
}

/// A file's name, safe to show.
pub fn shown(file: &OsStr) -> String {
    if file == "-" {
        "<stdin>".to_string()
    } else {
        visible::cut(file.as_encoded_bytes(), 4_096)
    }
}

/// That something cannot be done with a file.
pub fn failed(file: &OsStr, json: bool, why: &str) -> Said {
    let mut said = Said {
        status: 2,
        ..Said::default()
    };
    if json {
        said.output = json::failure(file.as_encoded_bytes(), why);
    } else {
        said.errors = format!("movesig: {}: {why}\n", shown(file));
    }
    said
}

/// The byte of the place.
pub fn offset(text: &[u8], place: Place) -> Result<usize, String> {
    match place {
        Place::Byte(at) => Ok(at),
        // which is refused whatever the place
        _ if text.len() > LONGEST => Ok(0),
        Place::LineColumn(line, column) => Places::new(text)
            .byte(line, column)
            .map_err(|why| format!("no such place: {line}:{column}: {why}")),
    }
}

fn put_notes(report: &Report, notes: &[Note], said: &mut Said) {
    for note in notes {
        let line = format!("{}: note: {}", report.place(note.at), note.words);
        listing::put_line(&mut said.errors, &line);
    }
}

/// What is given before a refusal, and the refusal.
fn up_to_refusal<T>(
    given: impl Iterator<Item = Result<T, Refusal>>,
) -> (Vec<T>, Result<(), Refusal>) {
    let mut all = vec![];
    for one in given {
        match one {
            Ok(one) => all.push(one),
            Err(refusal) => return (all, Err(refusal)),
        }
    }
    (all, Ok(()))
}

/// The screen's columns: what COLUMNS says, or 80.
fn screen() -> usize {
    let said = env::var("COLUMNS").ok();
    let columns = said.and_then(|columns| columns.parse().ok());
    columns.map_or(80, |columns: usize| columns.clamp(40, 400))
}
