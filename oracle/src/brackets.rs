//! Brackets round one type: a record of their own in the stored tree, kind 16. The Rust
//! drops them and gives their span to the type inside.

use std::collections::HashMap;

pub type Span = (usize, usize);

/// The spans of the brackets that hold one type, each with the span of that type.
#[derive(Clone, Default, PartialEq, Debug)]
pub struct Brackets {
    inside: HashMap<Span, Span>,
}

impl Brackets {
    pub fn put(&mut self, brackets: Span, inner: Span) {
        self.inside.insert(brackets, inner);
    }

    /// The span of the one type in brackets of this span.
    pub fn inside(&self, span: Span) -> Option<Span> {
        self.inside.get(&span).copied()
    }

    pub fn count(&self) -> usize {
        self.inside.len()
    }
}

/// The Rust's tree of a stored tree: the record in each record of kind 16 takes its
/// place and its span, and all lengths are made anew.
pub fn unbracketed(tree: &[u8]) -> Vec<u8> {
    let mut bytes = vec![];
    push_record(&mut bytes, tree, &tree[4..8]);
    bytes
}

fn push_record(bytes: &mut Vec<u8>, record: &[u8], span: &[u8]) {
    if record[2..4] == [16, 0] {
        return push_record(bytes, &record[8..], span);
    }
    let at = bytes.len();
    bytes.extend([0, 0, record[2], record[3]]);
    bytes.extend(span);
    let mut children = &record[8..];
    while !children.is_empty() {
        let length = u16::from_le_bytes([children[0], children[1]]) as usize;
        let (child, others) = children.split_at(length);
        push_record(bytes, child, &child[4..8]);
        children = others;
    }
    let length = (bytes.len() - at) as u16;
    bytes[at..at + 2].copy_from_slice(&length.to_le_bytes());
}
