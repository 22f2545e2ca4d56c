//! Answers and refusals for machines: one object a line, in ASCII.

use crate::{
    carry::Carried,
    due::{self, Item},
    notes::{self, Note},
    open::{Head, Open},
    outline::Declaration,
    places::Places,
    starts,
    text::Text,
};
use movesig::{
    CarryRefusal, Comment, Damage, Following, Refusal, Span, Token, Tree, LONGEST, LONGEST_LINE,
};
use std::fmt::Write;

/// An object that is being written.
pub struct Object(String);

impl Object {
    /// About the file.
    pub fn of(file: &[u8]) -> Object {
        Object(String::new()).text("file", file)
    }

    fn new() -> Object {
        Object(String::new())
    }

    fn raw(mut self, key: &str, value: &str) -> Object {
        let comma = if self.0.is_empty() { "" } else { "," };
        write!(self.0, "{comma}\"{key}\":{value}").expect("a string takes what it is given");
        self
    }

    pub fn number(self, key: &str, value: usize) -> Object {
        self.raw(key, &value.to_string())
    }

    pub fn text(self, key: &str, value: &[u8]) -> Object {
        let value = string(value);
        self.raw(key, &value)
    }

    fn span(self, span: Span) -> Object {
        self.number("start", span.start).number("end", span.end)
    }

    fn place(self, places: &Places, span: Span) -> Object {
        let (line, column) = places.of(span.start);
        self.span(span)
            .number("line", line)
            .number("column", column)
    }

    fn item(self, item: Item) -> Object {
        self.text("item", item.kind.name().as_bytes())
            .number("at", item.at)
    }

    fn list(self, key: &str, values: impl Iterator<Item = String>) -> Object {
        let values: Vec<String> = values.collect();
        self.raw(key, &format!("[{}]", values.join(",")))
    }

    fn notes(self, notes: &[Note]) -> Object {
        let note = |note: &Note| {
            let object = Object::new().number("at", note.at);
            object.text("note", note.words.as_bytes()).end()
        };
        self.list("notes", notes.iter().map(note))
    }

    fn end(self) -> String {
        format!("{{{}}}", self.0)
    }

    /// With the line's end.
    pub fn line(self) -> String {
        self.end() + "\n"
    }
}

/// Bytes that are not UTF-8 become U+FFFD.
fn string(bytes: &[u8]) -> String {
    let mut to = String::from("\"");
    for character in String::from_utf8_lossy(bytes).chars() {
        match character {
            '"' | '\\' => to.extend(['\\', character]),
            ' '..='~' => to.push(character),
            _ => {
                for unit in character.encode_utf16(&mut [0; 2]) {
                    write!(to, "\\u{unit:04x}").expect("a string takes what it is given");
                }
            }
        }
    }
    to + "\""
}

pub fn token(file: &[u8], text: &[u8], places: &Places, token: Token) -> String {
    Object::of(file)
        .text("token", token.kind.name().as_bytes())
        .number("number", token.kind.number().into())
        .place(places, token.span)
        .text("text", token.span.of(text))
        .line()
}

pub fn comment(file: &[u8], text: &[u8], places: &Places, comment: Comment) -> String {
    Object::of(file)
        .text("comment", comment.text.of(text))
        .place(places, comment.span)
        .number("text_start", comment.text.start)
        .number("text_end", comment.text.end)
        .line()
}

/// A name that is declared; its comment where it has one.
pub fn declaration(file: &[u8], text: &[u8], places: &Places, one: &Declaration) -> String {
    let Declaration { entry, comment } = one;
    let object = Object::of(file)
        .text("keyword", entry.keyword().name().as_bytes())
        .number("number", entry.keyword().number().into())
        .text("name", entry.name().of(text))
        .place(places, entry.name());
    match comment {
        None => object.line(),
        Some(comment) => object
            .text("comment", comment.text.of(text))
            .number("comment_start", comment.span.start)
            .number("comment_end", comment.span.end)
            .line(),
    }
}

/// An item's tree, or its display line, and what is beside it.
pub fn item(file: &[u8], text: &[u8], item: Item, answer: &Answer, beside: &Beside) -> String {
    let object = Object::of(file).item(item);
    let object = match answer {
        Answer::Tree(tree) => object.raw("tree", &records(*tree)),
        Answer::Line(line) => object.text("shown", line),
    };
    let next = following(beside.next, text);
    object.raw("next", &next).notes(&beside.notes).line()
}

pub enum Answer<'a> {
    Tree(Tree<'a, 'a>),
    Line(&'a [u8]),
}

/// What is beside an item: the token that follows, and what is to be noted.
pub struct Beside {
    pub next: Following,
    pub notes: Vec<Note>,
}

fn following(token: Following, text: &[u8]) -> String {
    Object::new()
        .text("token", token.kind.name().as_bytes())
        .number("number", token.kind.number().into())
        .span(token.span)
        .text("text", token.span.of(text))
        .end()
}

/// The tree, its records inside one another. Each is written once, and in one loop: a tree may be as deep as
/// it is long.
fn records(tree: Tree) -> String {
    let mut to = String::new();
    // so many records are not closed yet
    let mut open = 0;
    for (level, record) in tree.records() {
        if level < open {
            to += &"]}".repeat(open - level);
            to += ",";
        }
        put_record(record, &mut to);
        open = level + 1;
    }
    to + &"]}".repeat(open)
}

/// A record up to its children.
fn put_record(record: Tree, to: &mut String) {
    let object = Object::new()
        .text("record", record.kind().name().as_bytes())
        .number("number", record.kind().number().into())
        .span(record.span());
    let object = match record.spelling() {
        Some(spelling) => object.text("text", spelling),
        None => object,
    };
    *to += &["{", &object.0, ",\"children\":["].concat();
}

/// A note that was carried, and the token that it is moved to.
pub fn carried(file: &[u8], text: &[u8], places: &Places, note: &Carried) -> String {
    let Carried { old, token } = note;
    Object::of(file)
        .number("note", *old)
        .text("token", token.kind.name().as_bytes())
        .number("number", token.kind.number().into())
        .place(places, token.span)
        .text("text", token.span.of(text))
        .line()
}

/// The note for which none was carried.
pub fn not_carried(file: &[u8], refusal: &CarryRefusal, index: usize, note: usize) -> String {
    Object::of(file)
        .number("refused", refusal.number() as usize)
        .text("reason", refusal.reason().as_bytes())
        .number("index", index)
        .number("note", note)
        .line()
}

/// A tree that was saved, opened over its text.
pub fn opened(of: &Open, tree: Tree) -> String {
    saved(of).raw("tree", &records(tree)).line()
}

/// What is wrong with a tree that was saved, at a byte of it.
pub fn damaged(of: &Open, damage: &Damage, byte: usize, head: &Head) -> String {
    saved(of)
        .number("refused", damage.number() as usize)
        .text("reason", damage.reason().as_bytes())
        .number("byte", byte)
        .text("head", head.hex().as_bytes())
        .line()
}

/// About a text and the tree that was saved of it.
fn saved(of: &Open) -> Object {
    Object::of(of.file.as_encoded_bytes()).text("saved", of.tree.as_encoded_bytes())
}

/// That a file cannot be read.
pub fn failure(file: &[u8], why: &str) -> String {
    Object::of(file).text("error", why.as_bytes()).line()
}

pub fn refusal(file: &[u8], text: &Text, item: Option<Item>, refusal: &Refusal) -> String {
    let (text, length) = (&text.bytes, text.length);
    let mut object = Object::of(file);
    if let Some(item) = item {
        object = object.item(item);
    }
    object = object
        .number("refused", refusal.number() as usize)
        .text("reason", refusal.reason().as_bytes());
    if let Refusal::NoRoom = refusal {
        return object.number("limit", LONGEST_LINE).line();
    }
    if refusal.is_by_caller() && !matches!(refusal, Refusal::NothingStarts { .. }) {
        if let Some(length) = length {
            object = object.raw("length", &length.to_string());
        }
        return object.number("limit", LONGEST).line();
    }
    let places = Places::new(text);
    object = object.place(&places, refusal.place());
    if refusal.second() != refusal.place() {
        let second = Object::new().place(&places, refusal.second());
        object = object.raw("second", &second.end());
    }
    let found = item.and_then(|item| due::token_at(text, item, refusal));
    if let Some(found) = found {
        let Token { kind, span, .. } = found;
        object = object.raw("found", &following(Following { kind, span }, text));
    }
    if let (Some(item), Refusal::NothingStarts { at }) = (item, refusal) {
        let nearest = starts::nearest(item.edition, text, at.start);
        object = object.list("nearest", nearest.iter().map(usize::to_string));
    }
    if let Some(item) = item {
        if found.is_some() {
            let due = due::due(text, item, refusal);
            object = object.list("due", due.iter().map(|word| string(word.as_bytes())));
        }
        object = object.notes(&notes::refused(item.edition, text, item.at, refusal));
    }
    object.line()
}
