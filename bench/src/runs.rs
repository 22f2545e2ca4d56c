//! The items that are read and displayed, and the runs over them. The Rust builds its
//! tree and drops it. The port writes into one buffer, which is lent to all calls and
//! never cleared.

#[path = "../../oracle/src/station_items.rs"]
pub mod station_items;

use crate::{items, repeat, run, texts, time_of, Time, RUNS};
use oracle::{
    answer::ItemCall,
    displays,
    expected::Text,
    files::THE_FILE,
    lent::Buffer,
    line::line_of,
    parser::{
        lexer::{Lexer, Tok},
        syntax,
    },
    parsing::ItemKind,
    random::Random,
    reads::{expected, Cause, Expected, LONGEST_LINE},
};
use std::{cell::LazyCell, hint::black_box};

/// So many bytes are read in each row, as one item or as many.
pub const BYTES: usize = 60_000;

/// 1 MB: the longest text, but for brackets round it.
pub const LONG: usize = 1_048_000;

/// So many bytes behind an item make its tree wide.
const BEHIND: usize = 65_536;

/// What a display answers whose line is too long.
const NO_ROOM: u32 = 4;

/// Made when they are first looked at, since one row is looked for among all.
type Texts = LazyCell<Vec<String>, Box<dyn FnOnce() -> Vec<String>>>;

/// Items of a kind, about as many bytes in each row.
pub struct Items {
    pub name: String,
    kind: ItemKind,
    pub texts: Texts,
}

pub fn items_of(
    name: &str,
    kind: ItemKind,
    length: usize,
    make: impl Fn(&mut Random) -> String + 'static,
) -> Items {
    so_many(BYTES / length, name, kind, make)
}

/// So many items, each from a seed of its own.
fn so_many(
    count: usize,
    name: &str,
    kind: ItemKind,
    make: impl Fn(&mut Random) -> String + 'static,
) -> Items {
    let all = move || {
        (0..count)
            .map(|seed| make(&mut Random::new(seed as u64)))
            .collect()
    };
    Items {
        name: name.to_string(),
        kind,
        texts: LazyCell::new(Box::new(all)),
    }
}

/// The row of that name.
pub fn row(name: &str) -> Items {
    let grown = LONGER.iter().flat_map(grown);
    let nests = [FLAT_LIST, SPREAD_LIST].into_iter().flat_map(long_nests);
    let mut all = each_length().into_iter().chain(grown).chain(nests);
    all.find(|items| items.name == name)
        .unwrap_or_else(|| panic!("no row '{name}'"))
}

/// Types and bindings of some lengths, and nests.
pub fn each_length() -> Vec<Items> {
    let mut rows = vec![];
    for length in [20, 200, 2_000] {
        let name = format!("type, {length} bytes");
        rows.push(items_of(&name, ItemKind::Type, length, move |random| {
            items::type_of(random, length)
        }));
    }
    for length in [20, 200, 2_000] {
        let name = format!("bindings, {length} bytes");
        rows.push(items_of(&name, ItemKind::BindList, length, move |random| {
            items::bindings_of(random, length)
        }));
    }
    let (types, binds) = (ItemKind::Type, ItemKind::BindList);
    rows.push(items_of("type, 60 levels", types, 400, items::nested_type));
    rows.push(items_of(
        "binding, 60 levels",
        binds,
        1_000,
        items::nested_binding,
    ));
    rows
}

/// Strings, which a display looks over.
pub fn strings() -> Vec<Items> {
    let of_length = |length: usize| {
        let name = format!("string, {length} bytes");
        items_of(&name, ItemKind::Value, length, move |random| {
            items::string_of(random, length)
        })
    };
    [20, 200, BYTES].map(of_length).into()
}

/// A kind of item of any length: its name, and how to make one.
pub type Kind = (&'static str, ItemKind, fn(&mut Random, usize) -> String);

/// Flat lists of types and of bindings: the name, then 2 KB and 60 KB.
pub fn flat_lists() -> [(&'static str, Items, Items); 2] {
    FLAT.map(|(name, kind, make)| {
        let of_length = |length| items_of(name, kind, length, move |random| make(random, length));
        (name, of_length(2_000), of_length(BYTES))
    })
}

const FLAT: [Kind; 2] = [
    ("types", ItemKind::Type, items::flat_types),
    ("bindings", ItemKind::BindList, items::flat_bindings),
];

/// A list whose line is about as long, and one whose line is short.
pub const FLAT_LIST: Kind = ("flat list of types", ItemKind::Type, items::flat_types);
pub const SPREAD_LIST: Kind = (
    "types among comments",
    ItemKind::Type,
    items::types_among_comments,
);

/// The kinds that are measured at 60 KB and at 1 MB.
pub const LONGER: [Kind; 6] = [
    FLAT_LIST,
    (
        "flat list of bindings",
        ItemKind::BindList,
        items::flat_bindings,
    ),
    ("types as in source", ItemKind::Type, items::type_of),
    ("one long name", ItemKind::Type, texts::long_name),
    SPREAD_LIST,
    (
        "types among blanks",
        ItemKind::Type,
        items::types_among_blanks,
    ),
];

/// One of them as several items of 60 KB and as one of 1 MB, so that both have as many bytes.
pub fn grown(kind: &Kind) -> [Items; 2] {
    let (name, kind, make) = *kind;
    [BYTES, LONG].map(|length| {
        let name = format!("{name}, {length} bytes");
        so_many(LONG / length, &name, kind, move |random| {
            make(random, length)
        })
    })
}

/// What stands round a list: its name, how often, the opener and the closer.
type Nest = (&'static str, usize, &'static str, &'static str);

/// Nothing, brackets, and function types each of which is the argument of the next.
const NESTS: [Nest; 3] = [
    ("alone", 0, "", ""),
    ("in 60 brackets", BRACKETS, "(", ")"),
    ("in 30 arguments", BRACKETS / 2, "|(", ")|u8"),
];

/// Brackets round a list.
pub const BRACKETS: usize = 60;

/// A flat list of 60 KB in each nest.
pub fn nests() -> [Items; 3] {
    NESTS.map(|nest| nested(nest.0, FLAT_LIST, BYTES, nest))
}

/// A list of 1 MB in each nest.
pub fn long_nests(list: Kind) -> [Items; 3] {
    NESTS.map(|nest| nested(&format!("{}, {}", list.0, nest.0), list, LONG, nest))
}

fn nested(name: &str, list: Kind, length: usize, nest: Nest) -> Items {
    let (_, kind, make) = list;
    let (_, count, open, close) = nest;
    so_many(1, name, kind, move |random| {
        open.repeat(count) + &make(random, length) + &close.repeat(count)
    })
}

impl Items {
    /// Stops where the call does not answer as the Rust, or the Rust refuses.
    pub fn agree(&self, call: ItemCall) {
        self.agree_on(call, &self.texts);
    }

    /// The same for reads of the items where they stand in longer texts.
    pub fn agree_in_wide(&self) {
        self.agree_on(ItemCall::Read, &self.wide_texts(&self.before_blanks()));
    }

    fn agree_on(&self, call: ItemCall, texts: &[impl AsRef<str>]) {
        let mut buffer = Buffer::new(station_items::ask);
        for bytes in texts.iter().map(|text| text.as_ref().as_bytes()) {
            let front = &bytes[..bytes.len().min(400)];
            let told = || format!("{call:?}, {}: {}", self.name, front.escape_ascii());
            let expected = self.expected(call, &Text::new(bytes));
            let room = LONGEST_LINE.max(expected.written.len());
            let due = expected.within(room);
            assert!(
                !due.written.is_empty() || due.cause == Some(Cause::LineTooLong),
                "not accepted: {}",
                told()
            );
            for edition in [1, 2] {
                let item = (self.kind as u64, edition, bytes, 0);
                if let Some(wrong) = buffer.wrong(call, item, room, due) {
                    let (found, fault) = (wrong.found, wrong.buffer);
                    panic!("edition {edition}: {found}, {fault:?} {}", told());
                }
            }
        }
    }

    fn expected(&self, call: ItemCall, text: &Text) -> Expected {
        let read = expected(self.kind as u64, text, 0);
        match call {
            ItemCall::Read => read,
            ItemCall::Display => displays::expected(&read, text, 0, line_of),
        }
    }

    /// All items, a semicolon behind each, and then blanks.
    fn before_blanks(&self) -> String {
        let items: Vec<_> = self.texts.iter().map(|item| item.clone() + ";").collect();
        items.concat() + &" ".repeat(BEHIND)
    }

    /// Each item at the front of a text of its own, all of them parts of one: behind the item's semicolon
    /// stand other items and blanks, which are not read.
    fn wide_texts<'w>(&self, whole: &'w str) -> Vec<&'w str> {
        let mut start = 0;
        let text_of = |item: &String| {
            let text = &whole[start..start + item.len() + 1 + BEHIND];
            start += item.len() + 1;
            text
        };
        self.texts.iter().map(text_of).collect()
    }

    pub fn bytes(&self) -> usize {
        self.texts.iter().map(String::len).sum()
    }

    pub fn run_of_the_rust(&self, _: &mut [u8]) -> f64 {
        match self.kind {
            ItemKind::Type => run(&self.texts, |text| {
                read_of_the_rust(text, syntax::read_type)
            }),
            _ => run(&self.texts, |text| {
                read_of_the_rust(text, syntax::read_bind_list)
            }),
        }
    }

    pub fn run_of_reads(&self, lent: &mut [u8]) -> f64 {
        run(&self.texts, |text| {
            self.ask(ItemCall::Read, 1, text, lent);
        })
    }

    pub fn run_of_displays(&self, lent: &mut [u8]) -> f64 {
        run(&self.texts, |text| {
            self.ask(ItemCall::Display, 1, text, lent);
        })
    }

    /// Reads of the items where they stand in longer texts; the time a byte of the items.
    pub fn run_of_wide_reads(&self, lent: &mut [u8]) -> f64 {
        let whole = self.before_blanks();
        let texts = self.wide_texts(&whole);
        repeat(self.bytes(), || {
            for text in &texts {
                self.ask(ItemCall::Read, 1, black_box(text), lent);
            }
        })
    }

    /// Reads each item once.
    pub fn read_once(&self, edition: u64) {
        self.once(ItemCall::Read, edition, &self.texts);
    }

    pub fn display_once(&self, edition: u64) {
        self.once(ItemCall::Display, edition, &self.texts);
    }

    pub fn wide_read_once(&self, edition: u64) {
        let whole = self.before_blanks();
        self.once(ItemCall::Read, edition, &self.wide_texts(&whole));
    }

    fn once(&self, call: ItemCall, edition: u64, texts: &[impl AsRef<str>]) {
        let mut lent = self.room();
        for text in texts {
            self.ask(call, edition, text.as_ref(), &mut lent);
        }
    }

    /// The tree of each item, as a read writes it.
    pub fn trees(&self) -> Vec<Vec<u8>> {
        let mut lent = self.room();
        let tree_of = |text: &String| {
            let (text, kind) = (text.as_bytes(), self.kind as u64);
            let mut answer = [0; 6];
            let result =
                station_items::ask(ItemCall::Read, kind, 1, text, 0, &mut lent, &mut answer);
            assert_eq!(result, 0, "the text is one that is read");
            lent[..answer[0] as usize].to_vec()
        };
        self.texts.iter().map(tree_of).collect()
    }

    /// Room for the line and the tree of each item.
    pub fn room(&self) -> Vec<u8> {
        let longest = self.texts.iter().map(String::len).max().unwrap_or(0);
        vec![0; LONGEST_LINE.max(4 + 42 * longest)]
    }

    /// Whether the display of the first item is refused, since its line is too long.
    pub fn has_no_line(&self) -> bool {
        self.ask(ItemCall::Display, 1, &self.texts[0], &mut self.room()) == NO_ROOM
    }

    fn ask(&self, call: ItemCall, edition: u64, text: &str, lent: &mut [u8]) -> u32 {
        let mut answer = [0; 6];
        let kind = self.kind as u64;
        let text = text.as_bytes();
        let result = station_items::ask(call, kind, edition, text, 0, lent, &mut answer);
        assert!(
            result == 0 || call == ItemCall::Display && result == NO_ROOM,
            "the text was read before"
        );
        black_box((&answer, &lent));
        result
    }
}

/// What the port does with items: the option that has it done once, the function that does it, and
/// the runs.
#[derive(Clone, Copy)]
pub struct Task {
    pub option: &'static str,
    pub function: &'static str,
    pub call: ItemCall,
    pub run: Run,
    pub once: fn(&Items, u64),
}

pub const READ: Task = Task {
    option: "--read",
    function: "movesig_read",
    call: ItemCall::Read,
    run: Items::run_of_reads,
    once: Items::read_once,
};

pub const WIDE_READ: Task = Task {
    option: "--wide-read",
    function: "movesig_read",
    call: ItemCall::Read,
    run: Items::run_of_wide_reads,
    once: Items::wide_read_once,
};

pub const DISPLAY: Task = Task {
    option: "--display",
    function: "movesig_display",
    call: ItemCall::Display,
    run: Items::run_of_displays,
    once: Items::display_once,
};

pub const TASKS: [Task; 3] = [READ, WIDE_READ, DISPLAY];

fn read_of_the_rust<'t, T, E: std::fmt::Debug>(
    text: &'t str,
    read: impl Fn(&mut Lexer<'t>) -> Result<T, E>,
) {
    let mut lexer = Lexer::new(text, THE_FILE);
    lexer.advance().expect("the text was read before");
    black_box(&read(&mut lexer).expect("the text was read before"));
    assert_eq!(lexer.peek(), Tok::EOF);
}

/// A run over items, which may write into the buffer.
pub type Run = fn(&Items, &mut [u8]) -> f64;

/// The times of each run for each of some items. The runs take turns.
pub fn times<const N: usize>(all: &[&Items], runs: [Run; N]) -> Vec<[Time; N]> {
    let mut lent: Vec<_> = all.iter().map(|items| items.room()).collect();
    let mut times = vec![[const { vec![] }; N]; all.len()];
    for _ in 0..RUNS {
        for ((items, lent), times) in all.iter().zip(&mut lent).zip(&mut times) {
            for (run, times) in runs.iter().zip(times) {
                times.push(run(items, lent));
            }
        }
    }
    times.into_iter().map(|of| of.map(time_of)).collect()
}
