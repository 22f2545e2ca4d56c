//! Saved trees, opened a second time: a recursion over the records, written from the words of the request and of
//! the specification ("Stored tree") and not from the port. The Rust has no stored trees. Beside it the children
//! of a record, and trees laid down as bytes in both forms.

use crate::{answer::Answer, expected::LONGEST};

/// The most levels.
const LEVELS: usize = 64;

/// What stands in front of a wide tree.
pub const FRONT: [u8; 4] = [4, 0, 99, 0];

#[derive(Clone, Copy, PartialEq, Eq, Debug)]
pub enum Form {
    Narrow,
    Wide,
}

impl Form {
    pub const BOTH: [Form; 2] = [Form::Narrow, Form::Wide];

    /// The form that the first four bytes tell.
    pub fn of(tree: &[u8]) -> Form {
        match tree.starts_with(&FRONT) {
            true => Form::Wide,
            false => Form::Narrow,
        }
    }

    /// How many bytes a length, a start and an end have.
    fn width(self) -> usize {
        match self {
            Form::Narrow => 2,
            Form::Wide => 4,
        }
    }

    /// How many bytes a record has without its children: three such numbers and a kind of two bytes.
    pub fn head(self) -> usize {
        3 * self.width() + 2
    }

    /// Where the outermost record begins.
    pub fn first(self) -> usize {
        match self {
            Form::Narrow => 0,
            Form::Wide => FRONT.len(),
        }
    }
}

/// The four numbers in front of a record's children.
#[derive(Clone, Copy, PartialEq, Eq, Debug)]
pub struct Head {
    pub length: usize,
    pub kind: usize,
    pub start: usize,
    pub end: usize,
}

impl Head {
    /// The head at an offset; none where its bytes are not all there.
    pub fn at(form: Form, tree: &[u8], offset: usize) -> Option<Head> {
        let bytes = tree.get(offset..)?.get(..form.head())?;
        let width = form.width();
        let number = |from: usize, width: usize| {
            let bytes = bytes[from..from + width].iter().rev();
            bytes.fold(0, |high, &low| high << 8 | usize::from(low))
        };
        Some(Head {
            length: number(0, width),
            kind: number(width, 2),
            start: number(width + 2, width),
            end: number(2 * width + 2, width),
        })
    }

    pub fn put(self, form: Form, to: &mut Vec<u8>) {
        let width = form.width();
        to.extend(&self.length.to_le_bytes()[..width]);
        to.extend(&self.kind.to_le_bytes()[..2]);
        to.extend(&self.start.to_le_bytes()[..width]);
        to.extend(&self.end.to_le_bytes()[..width]);
    }
}

/// A record with all that is in it.
#[derive(Clone, PartialEq, Eq, Debug)]
pub struct Record {
    pub offset: usize,
    pub kind: usize,
    pub start: usize,
    pub end: usize,
    pub children: Vec<Record>,
}

impl Record {
    pub fn new(kind: usize, start: usize, end: usize, children: Vec<Record>) -> Record {
        Record {
            offset: 0,
            kind,
            start,
            end,
            children,
        }
    }

    /// The record with all that is in it, as a tree.
    pub fn written(&self, form: Form) -> Vec<u8> {
        let mut tree = match form {
            Form::Narrow => vec![],
            Form::Wide => FRONT.to_vec(),
        };
        self.put(form, &mut tree);
        tree
    }

    fn put(&self, form: Form, to: &mut Vec<u8>) {
        let head = Head {
            length: self.count() * form.head(),
            kind: self.kind,
            start: self.start,
            end: self.end,
        };
        head.put(form, to);
        self.children.iter().for_each(|child| child.put(form, to));
    }

    /// How many records it is, with those in it.
    pub fn count(&self) -> usize {
        1 + self.children.iter().map(Record::count).sum::<usize>()
    }

    /// The record at an offset, by a search over all.
    pub fn at(&self, offset: usize) -> Option<&Record> {
        if self.offset == offset {
            return Some(self);
        }
        self.children.iter().find_map(|child| child.at(offset))
    }

    /// What a call answers that hands it back.
    pub fn answer(&self) -> Answer {
        handed(self.offset, self.kind, self.start, self.end)
    }
}

fn handed(offset: usize, kind: usize, start: usize, end: usize) -> Answer {
    let numbers = [1, offset, kind, start, end, 0].map(|number| number as u64);
    Answer { result: 0, numbers }
}

/// What a call answers that has no record to hand back.
pub const NONE: Answer = Answer {
    result: 0,
    numbers: [0; 6],
};

/// What a place among a record's children takes.
#[derive(Clone, Copy)]
enum Part {
    First,
    Name,
    Pair,
    Chain,
    Type,
    Binding,
    Field,
}

impl Part {
    fn takes(self, kind: usize) -> bool {
        match self {
            Part::First => kind == 1 || kind == 2,
            Part::Name => kind == 1,
            Part::Pair => kind == 6,
            Part::Chain => (3..=5).contains(&kind),
            Part::Type => is_type(kind),
            Part::Binding => (20..=22).contains(&kind),
            Part::Field => kind == FIELD,
        }
    }
}

const FIELD: usize = 24;

fn is_type(kind: usize) -> bool {
    (10..=16).contains(&kind)
}

/// All kinds of records.
pub const KINDS: [usize; 25] = [
    1, 2, 3, 4, 5, 6, 10, 11, 12, 13, 14, 15, 16, 20, 21, 22, 24, 25, 26, 30, 31, 32, 33, 34, 35,
];

/// So many and more.
const MANY: usize = usize::MAX;

/// What the children of a kind are, in order: each part with how many of it there are at least and at most.
fn parts(kind: usize) -> &'static [(Part, usize, usize)] {
    use Part::*;
    match kind {
        4 | 6 => &[(First, 1, 1), (Name, 1, 1)],
        5 => &[(Pair, 1, 1), (Name, 1, 1)],
        10 => &[(Chain, 1, 1), (Type, 0, MANY)],
        11 | 12 | 16 => &[(Type, 1, 1)],
        13 => &[(Type, 1, MANY)], // the result is the last of them
        15 => &[(Type, 2, MANY)],
        21 => &[(Chain, 1, 1), (Field, 0, MANY)],
        22 => &[(Chain, 1, 1), (Type, 0, MANY), (Field, 0, MANY)],
        FIELD => &[(Name, 1, 1), (Binding, 1, 1)],
        25 | 26 => &[(Binding, 0, MANY)],
        30 => &[(First, 1, 1)],
        _ => &[],
    }
}

/// How far the children of a record have come.
#[derive(Clone, Copy)]
struct Sofar {
    parts: &'static [(Part, usize, usize)],
    /// How many of the first of these parts there are.
    count: usize,
}

impl Sofar {
    fn new(kind: usize) -> Sofar {
        let parts = parts(kind);
        Sofar { parts, count: 0 }
    }

    /// Takes the next child; whether it may stand there.
    fn takes(&mut self, kind: usize) -> bool {
        while let [(part, least, most), rest @ ..] = self.parts {
            if part.takes(kind) && self.count < *most {
                self.count += 1;
                return true;
            }
            if self.count < *least {
                return false;
            }
            (self.parts, self.count) = (rest, 0);
        }
        false
    }

    /// Whether a child is missing where this was the last one.
    fn is_missing(self) -> bool {
        match self.parts {
            [(_, least, _), rest @ ..] => {
                self.count < *least || rest.iter().any(|(_, least, _)| *least > 0)
            }
            [] => false,
        }
    }
}

/// What a record stands in: a place for it among the bytes, the span that its own must lie in, and the level.
struct Within<'p> {
    offset: usize,
    /// The bytes that are left for it, from its offset on.
    room: usize,
    span: (usize, usize),
    level: usize,
    /// The children before it; none of the outermost record.
    before: Option<&'p mut Sofar>,
}

/// The tree that the bytes are over a text of so many bytes, or the refusal.
pub fn opened(tree: &[u8], text: usize) -> Result<Record, Answer> {
    if text > LONGEST {
        return Err(Answer::refused(1, 0, 0));
    }
    let form = Form::of(tree);
    let offset = form.first();
    let outermost = Within {
        offset,
        room: tree.len() - offset,
        span: (0, text),
        level: 1,
        before: None,
    };
    record(form, tree, outermost)
}

fn record(form: Form, tree: &[u8], within: Within) -> Result<Record, Answer> {
    let offset = within.offset;
    let refused = |number| Err(Answer::refused(number, offset, offset));
    let head = Head::at(form, tree, offset).filter(|_| within.room >= form.head());
    let Some(head) = head else {
        return refused(15);
    };
    let whole = within.before.is_some() || head.length == within.room;
    if head.length < form.head() || head.length > within.room || !whole {
        return refused(15);
    }
    if !KINDS.contains(&head.kind) {
        return refused(16);
    }
    let allowed = within.before.is_none_or(|before| before.takes(head.kind));
    let (from, to) = within.span;
    if !allowed || head.end < head.start || head.start < from || head.end > to {
        return refused(17);
    }
    if within.level > LEVELS {
        return refused(14);
    }
    let mut found = Record::new(head.kind, head.start, head.end, vec![]);
    found.offset = offset;
    found.children = children(form, tree, &head, offset, within.level)?;
    Ok(found)
}

/// The children of a record that is as it should be itself.
fn children(
    form: Form,
    tree: &[u8],
    head: &Head,
    offset: usize,
    level: usize,
) -> Result<Vec<Record>, Answer> {
    let (mut at, end) = (offset + form.head(), offset + head.length);
    let mut children: Vec<Record> = vec![];
    let mut before = Sofar::new(head.kind);
    while at < end {
        let kind = Head::at(form, tree, at).map_or(0, |child| child.kind);
        let deeper = is_type(kind) || kind == FIELD;
        let within = Within {
            offset: at,
            room: end - at,
            span: (head.start, head.end),
            level: level + usize::from(deeper),
            before: Some(&mut before),
        };
        let child = record(form, tree, within)?;
        at += child.count() * form.head();
        children.push(child);
    }
    match before.is_missing() {
        true => Err(Answer::refused(17, offset, offset)),
        false => Ok(children),
    }
}

/// What must come of asking for a child of an opened tree.
pub fn child(opened: &Record, record: u64, index: u64) -> Answer {
    let record = usize::try_from(record).ok().and_then(|at| opened.at(at));
    let index = usize::try_from(index).unwrap_or(usize::MAX);
    let found = record.and_then(|record| record.children.get(index));
    found.map_or(NONE, Record::answer)
}

/// What must come of asking for a child of bytes that need not be a tree: none where no record can start, else a
/// step along the lengths for each index, none from a record on that does not fit what it stands in.
pub fn along(tree: &[u8], record: u64, index: u64) -> Answer {
    let form = Form::of(tree);
    let starts = (form.first()..tree.len()).step_by(form.head());
    let Some(record) = starts.into_iter().find(|&start| start as u64 == record) else {
        return NONE;
    };
    let fitting = |at: usize, end: usize| {
        let head = Head::at(form, tree, at).filter(|_| at + form.head() <= end);
        head.filter(|head| head.length >= form.head() && at + head.length <= end)
    };
    let Some(parent) = fitting(record, tree.len()) else {
        return NONE;
    };
    let (mut at, end) = (record + form.head(), record + parent.length);
    let mut left = index;
    while let Some(head) = fitting(at, end) {
        if left == 0 {
            return handed(at, head.kind, head.start, head.end);
        }
        at += head.length;
        left -= 1;
    }
    NONE
}

#[cfg(test)]
mod tests {
    use super::*;

    fn rec(kind: usize, start: usize, end: usize, children: &[Record]) -> Record {
        Record::new(kind, start, end, children.to_vec())
    }

    /// Number and place of the refusal; 0 and the outermost record's offset where it opens.
    fn found(tree: &[u8], text: usize) -> (u32, usize) {
        match opened(tree, text) {
            Ok(record) => (0, record.offset),
            Err(answer) => {
                let at = answer.numbers[0];
                assert_eq!(answer.numbers, [at, at, at, at, 0, 0]);
                (answer.result, at as usize)
            }
        }
    }

    fn both(record: &Record, text: usize, number: u32, records: usize) {
        for form in Form::BOTH {
            let place = form.first() + records * form.head();
            assert_eq!(
                found(&record.written(form), text),
                (number, place),
                "{record:?}"
            );
        }
    }

    fn refs(count: usize) -> Record {
        let leaf = rec(10, 0, 1, &[rec(3, 0, 1, &[])]);
        (0..count).fold(leaf, |inner, _| rec(11, 0, 1, &[inner]))
    }

    /// The readings that the request leaves to be told, each with the input that tells.
    #[test]
    fn what_is_decided() {
        both(&rec(1, 0, 0, &[]), 0, 0, 0);
        assert_eq!(found(&[12, 0, 3, 0, 0, 0, 1, 0, 0, 0, 0, 0], 1), (15, 8));
        both(&rec(3, 0, 1, &[rec(9, 0, 1, &[])]), 1, 16, 1);
        both(&rec(3, 0, 1, &[rec(3, 0, 1, &[])]), 1, 17, 1);
        both(&rec(4, 0, 1, &[rec(1, 0, 2, &[])]), 2, 17, 1);
        both(&rec(4, 0, 1, &[rec(1, 0, 1, &[])]), 1, 17, 0);
        let inner = rec(11, 0, 2, &[rec(10, 0, 3, &[rec(3, 0, 3, &[])])]);
        both(&rec(13, 0, 5, &[inner, rec(9, 0, 0, &[])]), 5, 17, 2);
        both(&refs(63), 1, 0, 0);
        both(&refs(64), 1, 14, 64);
        both(&rec(10, 0, 4, &[rec(3, 1, 3, &[])]), 4, 0, 0);
        both(
            &rec(16, 0, 4, &[rec(10, 1, 3, &[rec(3, 1, 3, &[])])]),
            4,
            0,
            0,
        );
        assert_eq!(found(&FRONT, 0), (15, 4));
        assert_eq!(found(&FRONT[..3], 0), (15, 0));
        assert_eq!(found(b"", 0), (15, 0));
        let narrow = rec(3, 0, 1, &[]).written(Form::Narrow);
        assert_eq!(found(&[&FRONT[..], &narrow].concat(), 1), (15, 4));
        both(&rec(99, 0, 0, &[]), 0, 16, 0);
        let far = rec(1, 0, 65_536, &[]).written(Form::Wide);
        assert_eq!(found(&far, 65_536), (0, 4));
        assert_eq!(found(&far, 65_535), (17, 4));
        both(&rec(1, 0, 0, &[]), LONGEST, 0, 0);
        assert_eq!(found(b"", LONGEST + 1), (1, 0));
    }

    #[test]
    fn children_by_offset() {
        let applied = |name, start, end| rec(10, start, end, &[rec(name, start, end, &[])]);
        let tree = rec(
            10,
            0,
            7,
            &[rec(3, 0, 1, &[]), applied(3, 2, 3), applied(3, 5, 6)],
        );
        let of = |form: Form, record, index| {
            let tree = tree.written(form);
            let opened = opened(&tree, 7).expect("it is lawful");
            let answer = child(&opened, record, index);
            assert_eq!(along(&tree, record, index), answer);
            answer.numbers
        };
        assert_eq!(of(Form::Narrow, 0, 2), [1, 32, 10, 5, 6, 0]);
        assert_eq!(of(Form::Wide, 4, 2), [1, 60, 10, 5, 6, 0]);
        assert_eq!(of(Form::Wide, 32, 0), [1, 46, 3, 2, 3, 0]);
        for (record, index) in [
            (0, 3),
            (8, 0),
            (4, 0),
            (48, 0),
            (u64::MAX, 0),
            (0, u64::MAX),
        ] {
            assert_eq!(of(Form::Narrow, record, index), [0; 6]);
        }
        for (record, index) in [(0, 0), (8, 0), (4, 3)] {
            assert_eq!(of(Form::Wide, record, index), [0; 6]);
        }
    }
}
