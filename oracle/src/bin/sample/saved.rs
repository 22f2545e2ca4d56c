//! The calls on saved trees. What must come of them is the second opener's, a recursion over the records, and of
//! opened trees that of a walk along the lengths (oracle/src/opening.rs). The Rust has no stored trees; it gives those
//! of reads. Texts that are too long, and so refusal 1, are left out: no line has room for them.

use crate::hex;
use oracle::{
    answer::Answer,
    expected::Text,
    opening::{along, child, opened, Form, Record, FRONT, NONE},
    reads,
};
use std::collections::BTreeSet;

/// The program that replays the sample has no more room for a tree, nor for a text.
const TREE_ROOM: usize = 1024;
const TEXT_ROOM: usize = 128;

/// A text of the longest length that the trees below need, where its bytes are not looked at.
const LETTERS: &[u8] = b"aaaaaaaa";

/// What is asked: to open bytes, for a child by the record's offset and the index, or for one of an opened tree.
#[derive(Clone, Copy)]
enum Asked {
    Open,
    Child(u64, u64),
    OpenedChild(u64, u64),
}

impl Asked {
    fn due(self, tree: &[u8], text: &[u8]) -> Answer {
        let whole = opened(tree, text.len());
        match (self, whole) {
            (Asked::Open, whole) => whole.map_or_else(|refused| refused, |tree| tree.answer()),
            (Asked::Child(record, index), Ok(tree)) => child(&tree, record, index),
            (Asked::Child(..), Err(refused)) => refused,
            (Asked::OpenedChild(record, index), whole) => {
                let answer = along(tree, record, index);
                if let Ok(tree) = whole {
                    assert_eq!(child(&tree, record, index), answer);
                }
                answer
            }
        }
    }

    fn line(self, tree: &[u8], text: &[u8], answer: Answer) -> String {
        assert!(tree.len() <= TREE_ROOM && text.len() <= TEXT_ROOM);
        let (letter, record, index, text) = match self {
            Asked::Open => ('o', 0, 0, text),
            Asked::Child(record, index) => ('k', record, index, text),
            Asked::OpenedChild(record, index) => ('h', record, index, &[][..]),
        };
        let (tree, text) = (hex(tree), hex(text));
        format!("{letter} {record} {index} {answer} {tree} {text}\n")
    }
}

pub fn lines() -> String {
    let mut sample = Sample::default();
    decided(&mut sample);
    decided_of_bytes(&mut sample);
    decided_of_children(&mut sample);
    of_reads(&mut sample);
    damaged(&mut sample);
    levels(&mut sample);
    sample.lines
}

#[derive(Default)]
struct Sample {
    lines: String,
    taken: BTreeSet<String>,
}

impl Sample {
    fn add(&mut self, asked: Asked, tree: &[u8], text: &[u8]) {
        let line = asked.line(tree, text, asked.due(tree, text));
        if self.taken.insert(line.clone()) {
            self.lines += &line;
        }
    }

    fn open(&mut self, tree: &[u8], text: &[u8]) {
        self.add(Asked::Open, tree, text);
    }

    fn open_both(&mut self, tree: &Record, text: usize) {
        for form in Form::BOTH {
            self.open(&tree.written(form), &LETTERS[..text]);
        }
    }
}

fn rec<const N: usize>(kind: usize, start: usize, end: usize, children: [Record; N]) -> Record {
    Record::new(kind, start, end, children.into())
}

fn leaf(kind: usize, start: usize, end: usize) -> Record {
    rec(kind, start, end, [])
}

fn name(start: usize, end: usize) -> Record {
    rec(10, start, end, [leaf(3, start, end)])
}

/// So many references round a record, over one byte.
fn refs(count: usize, inner: Record) -> Record {
    (0..count).fold(inner, |inner, _| rec(11, 0, 1, [inner]))
}

/// A function type whose first argument's inner span is too long, with a record of no kind behind it.
fn two_faults() -> Record {
    let first = rec(11, 0, 2, [name(0, 3)]);
    rec(13, 0, 5, [first, leaf(9, 0, 0)])
}

/// A structure with a type behind a field.
fn type_behind_field() -> Record {
    let field = rec(24, 0, 1, [leaf(1, 0, 1), leaf(20, 0, 1)]);
    rec(22, 0, 1, [leaf(3, 0, 1), field, leaf(14, 0, 1)])
}

/// Two tuples, one in the other, that end together and each lack a type.
fn two_missing() -> Record {
    rec(15, 0, 1, [rec(15, 0, 1, [leaf(14, 0, 1)])])
}

/// A record in a leaf.
fn in_a_leaf(kind: usize) -> Record {
    rec(3, 0, 1, [leaf(kind, 0, 1)])
}

/// The type `a<b, c>`.
fn applied() -> Record {
    rec(10, 0, 7, [leaf(3, 0, 1), name(2, 3), name(5, 6)])
}

/// What the request decides of records, in both forms, and what the wrong programs below err in; and the first child
/// of each, by the one call in the narrow form, by the other in the wide one.
fn decided(sample: &mut Sample) {
    for (tree, text) in [
        (leaf(1, 0, 0), 0),
        (leaf(1, 0, 1), 0),
        (leaf(1, 1, 0), 1),
        (leaf(99, 0, 0), 0),
        (in_a_leaf(9), 1),
        (in_a_leaf(3), 1),
        (rec(4, 0, 1, [leaf(1, 0, 2)]), 2),
        (rec(4, 0, 1, [leaf(1, 0, 1)]), 1),
        (two_faults(), 5),
        (two_missing(), 1),
        (type_behind_field(), 1),
        (rec(10, 0, 4, [leaf(3, 1, 3)]), 4),
        (rec(16, 0, 4, [name(1, 3)]), 4),
        (rec(15, 0, 8, [name(5, 6), name(1, 2)]), 8),
        (rec(11, 0, 1, [leaf(14, 0, 2)]), 2),
    ] {
        sample.open_both(&tree, text);
        let (narrow, wide) = (tree.written(Form::Narrow), tree.written(Form::Wide));
        sample.add(Asked::Child(0, 0), &narrow, &LETTERS[..text]);
        sample.add(Asked::OpenedChild(4, 0), &wide, &LETTERS[..text]);
    }
}

/// What the request decides of bytes: those left over in a leaf, and the four in front.
fn decided_of_bytes(sample: &mut Sample) {
    let narrow = leaf(3, 0, 1).written(Form::Narrow);
    sample.open(&[12, 0, 3, 0, 0, 0, 1, 0, 0, 0, 0, 0], b"a");
    sample.open(&FRONT, b"");
    sample.open(&FRONT[..3], b"");
    sample.open(b"", b"");
    sample.open(&[&FRONT[..], &narrow].concat(), b"a");
    sample.open(&leaf(1, 0, 65_536).written(Form::Wide), b"a");
}

/// What the request decides of children, by both calls: they are there, or none is.
fn decided_of_children(sample: &mut Sample) {
    let far = u64::MAX;
    let asked: [(Form, &[(u64, u64)]); 2] = [
        (
            Form::Narrow,
            &[(0, 2), (0, 3), (8, 0), (4, 0), (48, 0), (far, 0), (0, far)],
        ),
        (
            Form::Wide,
            &[(4, 2), (32, 0), (0, 0), (8, 0), (4, 3), (far, 0), (4, far)],
        ),
    ];
    for (form, places) in asked {
        let tree = applied().written(form);
        for &(record, index) in places {
            sample.add(Asked::Child(record, index), &tree, b"a<b, c>");
            sample.add(Asked::OpenedChild(record, index), &tree, b"a<b, c>");
        }
    }
}

/// The trees of some reads in both forms, opened, over one byte less too; and the child at each offset of a record and
/// each index, one past the last too, by the one call and the other in turn.
fn of_reads(sample: &mut Sample) {
    for (kind, text) in READS {
        let narrow = reads::expected(*kind, &Text::new(text), 0).written;
        let read = opened(&narrow, text.len()).expect("what a read writes is lawful");
        for form in Form::BOTH {
            let tree = read.written(form);
            sample.open(&tree, text);
            sample.open(&tree, &text[1..]);
            let starts = (form.first()..tree.len()).step_by(form.head());
            for (turn, record) in starts.enumerate() {
                each_child(sample, &tree, text, record as u64, turn);
            }
        }
    }
}

fn each_child(sample: &mut Sample, tree: &[u8], text: &[u8], record: u64, turn: usize) {
    for index in 0.. {
        let asked = match (turn + index as usize) % 2 {
            0 => Asked::OpenedChild(record, index),
            _ => Asked::Child(record, index),
        };
        sample.add(asked, tree, text);
        if asked.due(tree, text) == NONE {
            return;
        }
    }
}

/// A small tree in each form: each byte set to some values, cut at each length, and with bytes behind it. At every
/// fourth length a child is asked for too, by both calls.
fn damaged(sample: &mut Sample) {
    for form in Form::BOTH {
        let tree = name(0, 2).written(form);
        let text = &LETTERS[..2];
        for at in 0..tree.len() {
            for value in [0, 3, 255] {
                let mut changed = tree.clone();
                changed[at] = value;
                sample.open(&changed, text);
            }
        }
        let (first, behind) = (form.first() as u64, [&tree[..], &tree].concat());
        for length in (0..tree.len() + 3).chain([behind.len()]) {
            sample.open(&behind[..length], text);
            if length % 4 == 0 {
                sample.add(Asked::Child(first, 0), &behind[..length], text);
                sample.add(Asked::OpenedChild(first, 0), &behind[..length], text);
            }
        }
    }
}

/// The last level and one more, in both forms: lawful, and with a record of no kind or of a wrong span innermost.
fn levels(sample: &mut Sample) {
    for inner in [name(0, 1), leaf(14, 0, 2)] {
        sample.open_both(&refs(63, inner.clone()), 2);
        sample.open_both(&refs(64, inner), 2);
    }
    sample.open_both(&refs(64, leaf(9, 0, 1)), 1);
}

/// Reads of each kind of item, with few records.
const READS: &[(u64, &[u8])] = &[
    (1, b"a::b"),
    (1, b"0x1::m::f"),
    (2, b"@a"),
    (2, b"1u8"),
    (3, b"&mut (u8)"),
    (3, b"|()|a"),
    (3, b"(a, &b)"),
    (4, b"S{f}"),
    (4, b"(x, S<T>{})"),
    (5, b"|x, y|"),
];

/// A wrong answer, and the call and the tree that it is of.
type Wrong = (Asked, Form, Record, Answer);

/// Answers that are wrong, each of them those of a program that errs so.
pub fn wrong_lines() -> String {
    let all = wrong_of_opening().into_iter().chain(wrong_of_children());
    all.map(|(asked, form, tree, told)| {
        let tree = tree.written(form);
        assert_ne!(told, asked.due(&tree, LETTERS));
        asked.line(&tree, LETTERS, told)
    })
    .collect()
}

fn wrong_of_opening() -> Vec<Wrong> {
    let narrow = |tree, told| (Asked::Open, Form::Narrow, tree, told);
    let wide = |tree, told| (Asked::Open, Form::Wide, tree, told);
    let refused = |number, at| Answer::refused(number, at, at);
    let mut a_sixth_number = handed(0, 3, 0, 1);
    a_sixth_number.numbers[5] = 1;
    let long_child = rec(11, 0, 1, [leaf(14, 0, 2)]);
    vec![
        narrow(leaf(3, 0, 1), a_sixth_number),
        // the first fault met; the outer of two parents blamed; the span held to the text alone
        narrow(two_faults(), refused(16, 32)),
        narrow(two_missing(), refused(17, 0)),
        wide(long_child, handed(4, 11, 0, 1)),
        // a type behind a field; a missing child not asked for
        narrow(type_behind_field(), handed(0, 22, 0, 1)),
        narrow(rec(4, 0, 1, [leaf(1, 0, 1)]), handed(0, 4, 0, 1)),
        // 14 before a record's own tests; a level late; a level early
        narrow(refs(64, leaf(14, 0, 2)), refused(14, 512)),
        narrow(refs(64, name(0, 1)), handed(0, 11, 0, 1)),
        wide(refs(63, name(0, 1)), refused(14, 886)),
        // wide offsets without the front; the outermost record alone looked at; every tree accepted
        wide(in_a_leaf(9), refused(16, 14)),
        narrow(in_a_leaf(3), handed(0, 3, 0, 1)),
        narrow(leaf(99, 0, 0), handed(0, 99, 0, 0)),
    ]
}

/// A record at any multiple of 4, an index one off, a child of bytes that do not open.
fn wrong_of_children() -> Vec<Wrong> {
    let narrow = |asked, tree, told| (asked, Form::Narrow, tree, told);
    // from 4 on these bytes are a record of 16 bytes with a child at 12
    let off_by_four = rec(4, 16, 20, [leaf(2, 8, 9), leaf(1, 0, 1)]);
    vec![
        narrow(Asked::OpenedChild(4, 0), off_by_four, handed(12, 9, 8, 1)),
        narrow(Asked::Child(0, 1), applied(), handed(32, 10, 5, 6)),
        narrow(Asked::Child(0, 0), in_a_leaf(3), handed(8, 3, 0, 1)),
    ]
}

fn handed(offset: u64, kind: u64, start: u64, end: u64) -> Answer {
    let numbers = [1, offset, kind, start, end, 0];
    Answer { result: 0, numbers }
}
