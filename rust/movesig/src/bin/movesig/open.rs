//! A tree that was saved, opened over its text.

use crate::{
    job, json, listing,
    paint::Paint,
    text::{self, Text},
    Said,
};
use movesig::{open, Damage, RecordKind, Refusal};
use std::{
    ffi::OsString,
    io::{self, IsTerminal},
};

pub struct Open {
    /// The file that the tree was saved in.
    pub tree: OsString,
    /// The file of its text.
    pub file: OsString,
    pub json: bool,
}

/// The head of a record that is at fault, as much of it as is there.
pub struct Head<'t> {
    pub bytes: &'t [u8],
    /// How many bytes a head has.
    size: usize,
}

impl Open {
    pub fn done(&self) -> Said {
        let tree = match text::open_tree(&self.tree) {
            Ok(tree) => tree,
            Err(why) => return job::failed(&self.tree, self.json, &why),
        };
        let text = match text::open(&self.file) {
            Ok(text) => text,
            Err(why) => return job::failed(&self.file, self.json, &why),
        };
        let mut said = Said::default();
        match open(&tree, &text.bytes) {
            Ok(found) if self.json => said.output = json::opened(self, found),
            Ok(found) => listing::tree(found, &mut said.output),
            Err(damage) => {
                said.status = 1;
                self.refused(&tree, &text, &damage, &mut said);
            }
        }
        said
    }

    fn refused(&self, tree: &[u8], text: &Text, damage: &Damage, said: &mut Said) {
        let Some(record) = damage.record() else {
            return self.too_long(text, said);
        };
        let head = Head::at(tree, record);
        if self.json {
            said.output += &json::damaged(self, damage, record, &head);
            return;
        }
        let paint = Paint::on(io::stderr().is_terminal());
        let name = paint.bold(&job::shown(&self.tree));
        let refused = paint.red(&format!("refused {}", damage.number()));
        let reason = damage.reason();
        let lines = &mut said.errors;
        listing::put_line(
            lines,
            &format!("{name}: byte {record}: {refused}: {reason}"),
        );
        let byte = record.to_string();
        let under = paint.blue(&format!("{:1$} |", "", byte.len()));
        let gutter = paint.blue(&format!("{byte} |"));
        if head.bytes.is_empty() {
            listing::put_line(lines, &format!("{gutter} {}", head.words()));
        } else {
            listing::put_line(lines, &format!("{gutter} {}", head.hex()));
            listing::put_line(lines, &format!("{under} {}", head.words()));
        }
    }

    /// Nothing of the tree is told then.
    fn too_long(&self, text: &Text, said: &mut Said) {
        let refusal = Refusal::TextTooLong;
        if self.json {
            said.output += &json::refusal(self.file.as_encoded_bytes(), text, None, &refusal);
        } else {
            said.errors += &job::report(job::shown(&self.file), text, None).of(&refusal);
        }
    }
}

impl Head<'_> {
    /// Of the record at a byte of the tree, in the form that its first four bytes tell.
    fn at(tree: &[u8], record: usize) -> Head<'_> {
        let size = if tree.starts_with(&[4, 0, 99, 0]) {
            14
        } else {
            8
        };
        let bytes = tree.get(record..).unwrap_or(&[]);
        let bytes = &bytes[..bytes.len().min(size)];
        Head { bytes, size }
    }

    /// As `10 00 0a 00`.
    pub fn hex(&self) -> String {
        let bytes: Vec<String> = self
            .bytes
            .iter()
            .map(|byte| format!("{byte:02x}"))
            .collect();
        bytes.join(" ")
    }

    /// What it says, for people.
    fn words(&self) -> String {
        let width = (self.size - 2) / 3;
        if self.bytes.len() < self.size {
            let left = match self.bytes.len() {
                0 => "no byte is left".to_string(),
                1 => "one byte is left".to_string(),
                more => format!("{more} bytes are left"),
            };
            return format!("{left}, and the head of a record has {}", self.size);
        }
        let number = |at: usize, width: usize| {
            let bytes = self.bytes[at..at + width].iter().rev();
            bytes.fold(0, |high: u64, &low| high << 8 | u64::from(low))
        };
        let (length, kind) = (number(0, width), number(width, 2));
        let (start, end) = (number(width + 2, width), number(2 * width + 2, width));
        let kinds = RecordKind::ALL.iter();
        let mut named = kinds.filter(|named| u64::from(named.number()) == kind);
        let name = named
            .next()
            .map_or("no kind of record", |named| named.name());
        format!("length {length}, kind {kind}: {name}, {start}..{end}")
    }
}
