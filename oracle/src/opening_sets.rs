//! Saved trees, lawful and damaged, and the calls on them held to the second opener (opening.rs).

use crate::{
    answer::Answer,
    expected::LONGEST,
    opening::{along, child, opened, Form, Head, Record, FRONT, KINDS, NONE},
    random::Random,
};

/// How the calls are made.
#[derive(Clone, Copy)]
pub struct Calls {
    pub open: fn(&[u8], &[u8]) -> Answer,
    pub child: fn(&[u8], &[u8], u64, u64) -> Answer,
    pub opened_child: fn(&[u8], u64, u64) -> Answer,
}

/// How many differences are kept to be shown.
const SHOWN: usize = 5;

/// The numbers that a call on saved trees can return.
pub const NUMBERS: [u32; 6] = [0, 1, 14, 15, 16, 17];

/// Trees of so many bytes are asked for the children at every offset and index.
pub const EVERY_CHILD: usize = 400;

/// Behind each tree that is lent: what would be another record, were it read.
const TAIL: [u8; 16] = [8, 0, 1, 0, 0, 0, 0, 0, 14, 0, 0, 0, 1, 0, 0, 0];

pub struct Comparison {
    calls: Calls,
    random: Random,
    pub answers: u64,
    /// Answers over texts of 65,536 to 1,048,575 bytes.
    pub on_long: u64,
    /// How often each number was due; of those that were accepted, how often a record and how often none.
    pub due: [u64; 32],
    pub handed: u64,
    pub none: u64,
    /// How many trees were accepted, and how many of them are wide.
    pub opened: u64,
    pub wide: u64,
    pub different: u64,
    pub shown: Vec<String>,
    /// A text of every length that is asked with.
    text: Vec<u8>,
    lent: Vec<u8>,
}

impl Comparison {
    pub fn new(calls: Calls, random: Random) -> Comparison {
        Comparison {
            calls,
            random,
            answers: 0,
            on_long: 0,
            due: [0; 32],
            handed: 0,
            none: 0,
            opened: 0,
            wide: 0,
            different: 0,
            shown: vec![],
            text: vec![b'a'; LONGEST + 2],
            lent: vec![],
        }
    }

    /// Opens the bytes over a text of so many bytes; the tree, where they are one.
    pub fn open(&mut self, tree: &[u8], text: usize) -> Option<Record> {
        self.lent.clear();
        self.lent.extend_from_slice(tree);
        self.lent.extend_from_slice(&TAIL);
        let due = opened(tree, text);
        let found = (self.calls.open)(&self.lent[..tree.len()], &self.text[..text]);
        let answer = due.as_ref().map_or_else(|refused| *refused, Record::answer);
        self.judge(found, answer, text, || format!("open {}", told(tree, text)));
        if due.is_ok() {
            self.opened += 1;
            self.wide += u64::from(Form::of(tree) == Form::Wide);
        }
        due.ok()
    }

    /// Opens a tree that must be lawful, and walks over it by the children of opened trees.
    pub fn walk(&mut self, tree: &[u8], text: usize) -> Option<Record> {
        let opened = self.open(tree, text)?;
        self.walk_from(tree, &opened);
        Some(opened)
    }

    fn walk_from(&mut self, tree: &[u8], record: &Record) {
        let count = record.children.len();
        // each index takes its own steps: of many children the first and the last, and some between
        let step = (count / 200).max(1);
        for index in (0..count).step_by(step).chain([count, count + 1]) {
            let due = record.children.get(index).map_or(NONE, Record::answer);
            self.opened_child(tree, record.offset as u64, index as u64, due);
        }
        for child in &record.children {
            self.walk_from(tree, child);
        }
    }

    /// The children at every offset and every index, by both calls, past the ends too.
    pub fn every_child(&mut self, tree: &[u8], text: usize, opened: &Record) {
        let far = [u64::MAX, 1 << 63, 1 << 32, (1 << 32) + 8];
        let offsets = (0..tree.len() as u64 + 2).chain(far);
        for record in offsets {
            let count = usize::try_from(record).ok().and_then(|at| opened.at(at));
            let count = count.map_or(0, |record| record.children.len()) as u64;
            for index in (0..=count).chain([count + 1, 1 << 32, u64::MAX]) {
                let due = child(opened, record, index);
                self.child(tree, text, record, index, due);
                self.opened_child(tree, record, index, due);
            }
        }
    }

    /// Bytes that need not be a tree: opened, and some children asked for by both calls.
    pub fn any_bytes(&mut self, tree: &[u8], text: usize) {
        let due = self.open(tree, text);
        let record = match self.random.below(4) {
            0 => self.random.below(tree.len() + 20) as u64,
            _ => {
                let form = Form::of(tree);
                let records = tree.len() / form.head() + 1;
                (form.first() + self.random.below(records) * form.head()) as u64
            }
        };
        let index = self.random.below(4) as u64;
        self.opened_child(tree, record, index, along(tree, record, index));
        if self.random.once_in(4) {
            let due = match due {
                Some(opened) => child(&opened, record, index),
                None => opened(tree, text).expect_err("it was refused"),
            };
            self.child(tree, text, record, index, due);
        }
    }

    fn child(&mut self, tree: &[u8], text: usize, record: u64, index: u64, due: Answer) {
        let found = (self.calls.child)(tree, &self.text[..text], record, index);
        self.judge(found, due, text, || {
            format!("child {index} of {record}, {}", told(tree, text))
        });
    }

    fn opened_child(&mut self, tree: &[u8], record: u64, index: u64, due: Answer) {
        let found = (self.calls.opened_child)(tree, record, index);
        self.judge(found, due, 0, || {
            format!("opened child {index} of {record}, {}", told(tree, 0))
        });
    }

    fn judge(&mut self, found: Answer, due: Answer, text: usize, asked: impl Fn() -> String) {
        self.answers += 1;
        self.on_long += u64::from((65_536..=LONGEST).contains(&text));
        self.due[due.result as usize] += 1;
        if due.result == 0 {
            self.handed += due.numbers[0];
            self.none += 1 - due.numbers[0];
        }
        if found != due {
            self.different += 1;
            if self.shown.len() < SHOWN {
                let asked = asked();
                self.shown
                    .push(format!("{asked}\n    expected {due}\n    found    {found}"));
            }
        }
    }

    /// How many of the numbers never came; one more where no record was handed back, or never none.
    pub fn missing(&self) -> u64 {
        let never = NUMBERS
            .iter()
            .filter(|number| self.due[**number as usize] == 0);
        never.count() as u64 + u64::from(self.handed == 0) + u64::from(self.none == 0)
    }
}

/// The bytes and the length of the text, for people.
fn told(tree: &[u8], text: usize) -> String {
    let hex: Vec<String> = tree
        .iter()
        .take(120)
        .map(|byte| format!("{byte:02x}"))
        .collect();
    let length = tree.len();
    format!(
        "a tree of {length} bytes over a text of {text}: {}",
        hex.join(" ")
    )
}

fn rec(kind: usize, start: usize, end: usize, children: Vec<Record>) -> Record {
    Record::new(kind, start, end, children)
}

/// Small lawful trees over a text of eight bytes: each kind as the outermost one, with few children and with more.
pub fn small() -> Vec<Record> {
    let leaf = |kind, start, end| rec(kind, start, end, vec![]);
    let chain = || leaf(3, 0, 1);
    let two = || rec(4, 0, 4, vec![leaf(2, 0, 1), leaf(1, 3, 4)]);
    let pair = || rec(6, 0, 4, vec![leaf(1, 0, 1), leaf(1, 3, 4)]);
    let name = || rec(10, 1, 2, vec![leaf(3, 1, 2)]);
    let field = |bound: Record| rec(24, 2, 7, vec![leaf(1, 2, 3), bound]);
    let mut trees: Vec<Record> = [1, 2, 3, 14, 20, 25, 26, 31, 32, 33, 34, 35]
        .map(|kind| leaf(kind, 0, 3))
        .into();
    trees.extend([
        two(),
        pair(),
        rec(5, 0, 7, vec![pair(), leaf(1, 6, 7)]),
        name(),
        rec(10, 0, 8, vec![two(), name(), leaf(14, 5, 7)]),
        rec(11, 0, 5, vec![name()]),
        rec(12, 0, 5, vec![rec(11, 1, 5, vec![name()])]),
        rec(16, 0, 5, vec![name()]),
        rec(13, 0, 8, vec![name()]),
        rec(13, 0, 8, vec![name(), leaf(14, 3, 5), name()]),
        rec(15, 0, 8, vec![name(), leaf(14, 3, 5)]),
        rec(15, 0, 8, vec![rec(15, 1, 7, vec![name(), name()]), name()]),
        rec(21, 0, 8, vec![chain()]),
        rec(21, 0, 8, vec![chain(), field(leaf(20, 4, 5))]),
        rec(22, 0, 8, vec![chain()]),
        rec(22, 0, 8, vec![chain(), name(), field(leaf(20, 4, 5))]),
        rec(
            22,
            0,
            8,
            vec![chain(), field(rec(21, 4, 7, vec![leaf(3, 4, 5)]))],
        ),
        field(leaf(20, 4, 5)),
        rec(25, 0, 8, vec![leaf(20, 1, 2), leaf(20, 0, 1)]),
        rec(
            26,
            0,
            8,
            vec![leaf(20, 1, 2), rec(21, 4, 5, vec![leaf(3, 4, 5)])],
        ),
        rec(30, 0, 4, vec![leaf(2, 1, 4)]),
        rec(30, 0, 4, vec![leaf(1, 1, 4)]),
    ]);
    trees
}

/// The text that they are over.
pub const SMALL_TEXT: usize = 8;

impl Comparison {
    /// A small tree in one form: as it is, with each byte set to each value, cut at each length, with bytes behind it,
    /// over shorter and longer texts.
    pub fn each_damage(&mut self, record: &Record, form: Form) {
        let tree = record.written(form);
        if let Some(opened) = self.walk(&tree, SMALL_TEXT) {
            self.every_child(&tree, SMALL_TEXT, &opened);
        }
        let mut damaged = tree.clone();
        for at in 0..tree.len() {
            for value in 0..=255 {
                damaged[at] = value;
                self.any_bytes(&damaged, SMALL_TEXT);
            }
            damaged[at] = tree[at];
        }
        for length in 0..tree.len() {
            self.any_bytes(&tree[..length], SMALL_TEXT);
        }
        let behind = [&tree[..], &FRONT, &tree].concat();
        for length in tree.len()..behind.len() {
            self.any_bytes(&behind[..length], SMALL_TEXT);
        }
        for text in (0..20).chain([65_535, 65_536, LONGEST, LONGEST + 1]) {
            self.any_bytes(&tree, text);
        }
    }

    /// A small tree with two to four bytes set to values that matter, or to any.
    pub fn several_damages(&mut self, tree: &[u8]) {
        let mut damaged = tree.to_vec();
        for _ in 0..2 + self.random.below(3) {
            let at = self.random.below(damaged.len());
            damaged[at] = self.value();
        }
        if self.random.once_in(16) {
            damaged.truncate(self.random.below(damaged.len() + 1));
        }
        let text = match self.random.below(8) {
            0 => self.random.below(SMALL_TEXT + 4),
            _ => SMALL_TEXT,
        };
        self.any_bytes(&damaged, text);
    }

    /// A byte: a kind, a length of few records, a small place, or any.
    fn value(&mut self) -> u8 {
        match self.random.below(6) {
            0 | 1 => self.random.pick(&KINDS) as u8,
            2 => 8 * self.random.below(8) as u8,
            3 => 14 * self.random.below(8) as u8,
            4 => self.random.below(10) as u8,
            _ => self.random.byte(),
        }
    }

    /// Heads at random one behind the other, with lengths that are multiples of a head's, most of them of the kinds
    /// that can follow one another.
    pub fn random_heads(&mut self) {
        let form = self.random.pick(&Form::BOTH);
        let count = 1 + self.random.below(10);
        let mut tree = match form {
            Form::Narrow => vec![],
            Form::Wide => FRONT.to_vec(),
        };
        let mut before = 0;
        for index in 0..count {
            let rest = count - index;
            let records = match self.random.below(8) {
                _ if index == 0 => rest + usize::from(self.random.once_in(50)),
                0..4 => 1 + self.random.below(rest),
                4 | 5 => rest,
                6 => 1,
                _ => self.random.below(rest + 2),
            };
            let start = self.random.below(3);
            let end = SMALL_TEXT - self.random.below(3) - usize::from(index > 0 && start > 0);
            before = self.following(before);
            let head = Head {
                length: records * form.head(),
                kind: before,
                start: start.min(index),
                end: end.min(SMALL_TEXT - index.min(2)),
            };
            head.put(form, &mut tree);
        }
        self.any_bytes(&tree, SMALL_TEXT);
    }

    /// A kind that may stand behind or inside the other, now and then any.
    fn following(&mut self, kind: usize) -> usize {
        let fitting: &[usize] = match kind {
            _ if self.random.once_in(24) => return self.random.below(40),
            4 | 6 => &[1, 2],
            5 => &[6],
            1..=3 => &[1, 1, 24, 10, 20, 14],
            10 => &[3, 3, 4, 5],
            11..=16 => &[10, 10, 11, 13, 14, 15],
            20 => &[24, 20, 21, 20],
            21 | 22 => &[3, 3, 4],
            24 => &[1],
            25 | 26 => &[20, 21, 22],
            30 => &[1, 2],
            _ => &KINDS,
        };
        self.random.pick(fitting)
    }

    /// A lawful tree at random, walked over; then with its records changed, and with bytes of it changed.
    pub fn random_tree(&mut self) {
        let form = self.random.pick(&Form::BOTH);
        let text = 4 + self.random.below(40);
        let kind = self.random.pick(&KINDS);
        let levels = 1 + self.random.below(5);
        let lawful = self.lawful(kind, (0, text), levels);
        let tree = lawful.written(form);
        if let Some(opened) = self.walk(&tree, text) {
            if tree.len() <= EVERY_CHILD && self.random.once_in(8) {
                self.every_child(&tree, text, &opened);
            }
        }
        for _ in 0..4 {
            let mut record = lawful.clone();
            for _ in 0..1 + self.random.below(2) {
                self.change(&mut record);
            }
            self.any_bytes(&record.written(form), text);
        }
        let mut tree = tree;
        for _ in 0..4 {
            let at = self.random.below(tree.len());
            let before = tree[at];
            tree[at] = self.value();
            self.any_bytes(&tree, text);
            tree[at] = before;
        }
    }

    /// A record of the kind whose children are lawful, their spans at random inside its own.
    fn lawful(&mut self, kind: usize, within: (usize, usize), levels: usize) -> Record {
        let span = self.span_in(within);
        let mut kinds: Vec<usize> = vec![];
        let types = [10, 10, 10, 11, 12, 13, 14, 15, 16];
        let more = if levels == 0 { 0 } else { self.random.below(3) };
        let one_of = |random: &mut Random, all: &[usize]| match levels {
            0 => 14,
            _ => random.pick(all),
        };
        let bound = |random: &mut Random| match levels {
            0 => 20,
            _ => random.pick(&[20, 20, 21, 22]),
        };
        match kind {
            4 | 6 => kinds.extend([1 + self.random.below(2), 1]),
            5 => kinds.extend([6, 1]),
            10 => {
                kinds.push(3 + self.random.below(3));
                kinds.extend((0..more).map(|_| one_of(&mut self.random, &types)));
            }
            11 | 12 | 16 => kinds.push(one_of(&mut self.random, &types)),
            13 => kinds.extend((0..=more).map(|_| one_of(&mut self.random, &types))),
            15 => kinds.extend((0..more + 2).map(|_| one_of(&mut self.random, &types))),
            21 | 22 => {
                kinds.push(3 + self.random.below(3));
                if kind == 22 {
                    kinds.extend((0..more).map(|_| one_of(&mut self.random, &types)));
                }
                let fields = if levels == 0 { 0 } else { self.random.below(3) };
                kinds.extend(vec![24; fields]);
            }
            24 => kinds.extend([1, bound(&mut self.random)]),
            25 | 26 => kinds.extend((0..more).map(|_| bound(&mut self.random))),
            30 => kinds.push(1 + self.random.below(2)),
            _ => {}
        }
        let deeper = levels.saturating_sub(1);
        let children = kinds.iter().map(|&kind| self.lawful(kind, span, deeper));
        let children = children.collect();
        rec(kind, span.0, span.1, children)
    }

    fn span_in(&mut self, (from, to): (usize, usize)) -> (usize, usize) {
        let start = from + self.random.below(to - from + 1);
        let end = start + self.random.below(to - start + 1);
        match self.random.below(3) {
            0 => (start, end),
            1 => (from, to),
            _ => (from, end),
        }
    }

    /// Changes a record of the tree: its kind, its span, or its children.
    fn change(&mut self, tree: &mut Record) {
        let count = tree.count();
        let nth = self.random.below(count);
        let record = nth_record(tree, nth).expect("so many records are in it");
        match self.random.below(10) {
            0 | 1 => record.kind = self.random.pick(&KINDS),
            2 => record.kind = self.random.below(256),
            3 => record.start = self.random.below(50),
            4 => record.end = self.random.below(50),
            5 => {
                record.children.pop();
            }
            6 => match record.children.last().cloned() {
                Some(last) => record.children.push(last),
                None => {
                    let kind = self.random.pick(&KINDS);
                    record
                        .children
                        .push(rec(kind, record.start, record.end, vec![]));
                }
            },
            7 => record.children.reverse(),
            _ => self.swap(&mut record.children),
        }
    }

    /// Exchanges two that are neighbours, behind the first one where there are enough.
    fn swap(&mut self, children: &mut [Record]) {
        if children.len() > 1 {
            let low = usize::from(children.len() > 2);
            let at = low + self.random.below(children.len() - 1 - low);
            children.swap(at, at + 1);
        }
    }
}

/// The record of so many before it, from the front.
fn nth_record(tree: &mut Record, nth: usize) -> Option<&mut Record> {
    if nth == 0 {
        return Some(tree);
    }
    let mut left = nth - 1;
    for child in &mut tree.children {
        let count = child.count();
        if left < count {
            return nth_record(child, left);
        }
        left -= count;
    }
    None
}

/// One level round a record, by each way there is: the records that it takes, and whether it takes bindings.
type Round = (fn(Record) -> Record, bool);

const ROUNDS: [Round; 12] = [
    (|inner| rec(11, 0, 1, vec![inner]), false),
    (|inner| rec(12, 0, 1, vec![inner]), false),
    (|inner| rec(16, 0, 1, vec![inner]), false),
    (|inner| rec(13, 0, 1, vec![inner]), false),
    (|inner| rec(13, 0, 1, vec![inner, unit()]), false),
    (|inner| rec(13, 0, 1, vec![unit(), inner]), false),
    (|inner| rec(15, 0, 1, vec![inner, unit()]), false),
    (|inner| rec(15, 0, 1, vec![unit(), inner]), false),
    (
        |inner| rec(10, 0, 1, vec![rec(3, 0, 1, vec![]), inner]),
        false,
    ),
    (
        |inner| rec(10, 0, 1, vec![rec(3, 0, 1, vec![]), unit(), inner, unit()]),
        false,
    ),
    (
        |inner| rec(21, 0, 1, vec![rec(3, 0, 1, vec![]), field(inner)]),
        true,
    ),
    (
        |inner| {
            rec(
                22,
                0,
                1,
                vec![rec(3, 0, 1, vec![]), unit(), field(inner), field(bound())],
            )
        },
        true,
    ),
];

fn unit() -> Record {
    rec(14, 0, 1, vec![])
}

fn bound() -> Record {
    rec(20, 0, 1, vec![])
}

fn field(inner: Record) -> Record {
    rec(24, 0, 1, vec![rec(1, 0, 1, vec![]), inner])
}

/// What stands innermost, of a type and of a binding.
fn innermost(binds: bool) -> Vec<Record> {
    let chain = || rec(3, 0, 1, vec![]);
    match binds {
        true => vec![
            bound(),
            rec(21, 0, 1, vec![chain()]),
            rec(22, 0, 1, vec![chain(), unit()]),
            rec(9, 0, 1, vec![]),
            rec(20, 1, 0, vec![]),
            rec(1, 0, 1, vec![]),
            rec(21, 0, 1, vec![]),
        ],
        false => vec![
            unit(),
            rec(10, 0, 1, vec![chain()]),
            rec(
                10,
                0,
                1,
                vec![rec(
                    4,
                    0,
                    1,
                    vec![rec(2, 0, 1, vec![]), rec(1, 0, 1, vec![])],
                )],
            ),
            rec(9, 0, 1, vec![]),
            rec(14, 0, 2, vec![]),
            rec(20, 0, 1, vec![]),
            rec(10, 0, 1, vec![]),
            rec(15, 0, 1, vec![unit()]),
        ],
    }
}

impl Comparison {
    /// So many levels of each construct, or of all in turn, round each innermost record, lawful and not, in both
    /// forms; the same with the length of the record behind the last lawful level damaged.
    pub fn levels(&mut self, levels: usize) {
        for (round, binds) in ROUNDS {
            for inner in innermost(binds) {
                let tree = (0..levels).fold(inner, |inner, _| round(inner));
                self.level_edge(&tree);
            }
        }
        for turn in 0..40 {
            let binds = turn % 2 == 1;
            let fitting: Vec<Round> = ROUNDS
                .into_iter()
                .filter(|round| round.1 == binds)
                .collect();
            for inner in innermost(binds) {
                let mut tree = inner;
                for _ in 0..levels {
                    tree = self.random.pick(&fitting).0(tree);
                }
                self.level_edge(&tree);
                // in a list of bindings, which is no level
                if binds {
                    self.level_edge(&rec(25, 0, 1, vec![bound(), tree]));
                }
            }
        }
    }

    fn level_edge(&mut self, record: &Record) {
        for form in Form::BOTH {
            let tree = record.written(form);
            if let Some(opened) = self.walk(&tree, 1) {
                let last = form.first() + (record.count() - 1) * form.head();
                let due = child(&opened, last as u64, 0);
                self.child(&tree, 1, last as u64, 0, due);
            }
            let mut damaged = tree.clone();
            for _ in 0..2 {
                let at = tree.len() - form.head() * (1 + self.random.below(4));
                damaged[at] = self.value();
                self.any_bytes(&damaged, 1);
                damaged[at] = tree[at];
            }
        }
    }

    /// Texts that are too long, whatever the bytes are; and the longest.
    pub fn too_long(&mut self) {
        for tree in small() {
            for form in Form::BOTH {
                let tree = tree.written(form);
                for text in [LONGEST, LONGEST + 1, LONGEST + 2] {
                    self.any_bytes(&tree, text);
                    self.any_bytes(&tree[..3], text);
                }
            }
        }
    }

    /// Bytes that no read wrote, of each length up to 40: zeros, the same byte over and over, random ones.
    pub fn few_bytes(&mut self) {
        for length in 0..40 {
            for value in 0..=255 {
                self.any_bytes(&vec![value; length], SMALL_TEXT);
                let bytes: Vec<u8> = (0..length).map(|_| self.value()).collect();
                self.any_bytes(&bytes, SMALL_TEXT);
                self.any_bytes(&[&FRONT[..], &bytes].concat(), SMALL_TEXT);
            }
        }
    }
}
