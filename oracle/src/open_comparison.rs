//! Compares the port's calls on saved trees with the second opener (oracle/src/opening.rs): the trees of reads, and
//! bytes that are damaged or made up (oracle/src/opening_sets.rs). The program `compare` includes this file as a
//! module.

use crate::{
    grouped,
    item_sets::{self, Size, Visitor},
    read_comparison::respelled,
    station::calls::{movesig_child, movesig_open, movesig_opened_child},
    station_items, Found, ON_LONG,
};
use oracle::{
    answer::{Answer, ItemCall},
    expected::Text,
    items::Case,
    opening::Form,
    opening_sets::{small, Calls, Comparison, EVERY_CHILD},
    random::Random,
};
use std::{
    collections::{hash_map::DefaultHasher, HashSet},
    hash::{Hash, Hasher},
    mem,
    time::Instant,
};

/// A number that no call answers: it shows what was not written.
const UNWRITTEN: u64 = 0xa5a5_a5a5_a5a5_a5a5;

/// The port's calls. The lent numbers are filled first, and have a neighbour on each side that must stay as it is.
const PORT: Calls = Calls {
    open: |tree, text| {
        let (tree, tree_len) = lent(tree);
        let (text, len) = lent(text);
        asked(|answer| unsafe { movesig_open(tree, tree_len, text, len, answer) })
    },
    child: |tree, text, record, index| {
        let (tree, tree_len) = lent(tree);
        let (text, len) = lent(text);
        asked(|answer| unsafe { movesig_child(tree, tree_len, text, len, record, index, answer) })
    },
    opened_child: |tree, record, index| {
        let (tree, tree_len) = lent(tree);
        asked(|answer| unsafe { movesig_opened_child(tree, tree_len, record, index, answer) })
    },
};

/// No bytes may lie anywhere: here a lawful tree lies there.
fn lent(bytes: &[u8]) -> (*const u8, usize) {
    let place = if bytes.is_empty() {
        &[8, 0, 1, 0, 0, 0, 0, 0]
    } else {
        bytes
    };
    (place.as_ptr(), bytes.len())
}

fn asked(ask: impl FnOnce(*mut [u64; 6]) -> u32) -> Answer {
    let mut numbers = [UNWRITTEN; 8];
    let result = ask(unsafe { numbers.as_mut_ptr().add(1).cast() });
    let [before, a, b, c, d, e, f, behind] = numbers;
    assert!(
        before == UNWRITTEN && behind == UNWRITTEN,
        "the port wrote beside the six numbers"
    );
    Answer {
        result,
        numbers: [a, b, c, d, e, f],
    }
}

pub fn run(size: Size) -> Found {
    let start = Instant::now();
    println!("\nSaved trees, damaged and made up:");
    let mut comparison = Comparison::new(PORT, size.random(80));
    damaged(&mut comparison, &size);
    let mut found = summary(&comparison);
    found.missing = comparison.missing();
    // of trees that reads write none is refused
    for edition in [1, 2] {
        println!("\nSaved trees, those of reads in edition {edition}:");
        let mut trees = Trees::new(edition, &size);
        item_sets::run(&mut trees, &size);
        println!("{:<50} {:>12}", "trees opened", grouped(trees.trees));
        println!(
            "{:<50} {:>12}",
            "  by each offset and index",
            grouped(trees.thorough)
        );
        found += summary(&trees.comparison);
        found.missing += u64::from(trees.thorough == 0);
    }
    println!("\n{:.1} s", start.elapsed().as_secs_f64());
    found
}

fn summary(comparison: &Comparison) -> Found {
    let line = |name: &str, count: u64| println!("{name:<50} {:>12}", grouped(count));
    line("answers compared", comparison.answers);
    line(ON_LONG, comparison.on_long);
    for (number, count) in comparison.due.iter().enumerate() {
        if *count > 0 {
            line(&format!("  due: {number}"), *count);
        }
    }
    line("  records handed back", comparison.handed);
    line("  none to be handed back", comparison.none);
    line("  trees accepted", comparison.opened);
    line("    wide ones", comparison.wide);
    line("differences", comparison.different);
    for shown in &comparison.shown {
        println!("\n  {shown}");
    }
    Found {
        different: comparison.different,
        missing: 0,
        on_long: comparison.on_long,
    }
}

/// Runs one set and prints how many answers it compared.
fn set(comparison: &mut Comparison, name: &str, run: impl FnOnce(&mut Comparison)) {
    let (answers, different) = (comparison.answers, comparison.different);
    run(comparison);
    println!("{name:<50} {:>12}", grouped(comparison.answers - answers));
    if comparison.different > different {
        println!("  DIFFERENT: {}", grouped(comparison.different - different));
    }
}

/// Bytes that no read wrote.
fn damaged(to: &mut Comparison, size: &Size) {
    set(to, "small trees, each byte set to each value", |to| {
        let step = size.of(1, 3);
        for (index, tree) in small().iter().enumerate() {
            for form in Form::BOTH {
                if index % step == 0 {
                    to.each_damage(tree, form);
                }
            }
        }
    });
    set(to, "small trees, two to four bytes changed", |to| {
        let both = |form: Form| small().into_iter().map(move |tree| tree.written(form));
        let trees: Vec<Vec<u8>> = Form::BOTH.into_iter().flat_map(both).collect();
        for turn in 0..size.of(12_000_000, 300_000) {
            to.several_damages(&trees[turn % trees.len()]);
        }
    });
    set(to, "heads at random", |to| {
        for _ in 0..size.of(12_000_000, 300_000) {
            to.random_heads();
        }
    });
    set(to, "lawful trees at random, and changed", |to| {
        for _ in 0..size.of(1_000_000, 20_000) {
            to.random_tree();
        }
    });
    set(to, "nests of 58 to 70 levels", |to| {
        for levels in size.of(58..=70, 62..=65) {
            to.levels(levels);
        }
    });
    set(to, "texts of about 1,048,575 bytes", Comparison::too_long);
    set(to, "bytes of each length up to 40", Comparison::few_bytes);
}

/// The trees of accepted reads.
struct Trees {
    edition: u64,
    comparison: Comparison,
    random: Random,
    buffer: Vec<u8>,
    trees: u64,
    /// How many of them were asked for the child at every offset and index, and which were, told by a hash.
    thorough: u64,
    seen: HashSet<u64>,
    /// Of those that are longer, one in so many is asked so.
    one_in: u64,
}

/// Trees up to so many bytes are all asked for the child at every offset and index; longer ones, up to
/// `EVERY_CHILD`, now and then.
const SHORT: usize = 64;

impl Trees {
    fn new(edition: u64, size: &Size) -> Trees {
        Trees {
            edition,
            comparison: Comparison::new(PORT, size.random(81)),
            random: size.random(82),
            buffer: vec![],
            trees: 0,
            thorough: 0,
            seen: HashSet::new(),
            one_in: 20,
        }
    }

    /// Reads the item, and opens what was read.
    fn one_item(&mut self, kind: u64, text: &[u8], at: usize) {
        let room = 4 + 42 * text.len().min(1_048_575);
        if self.buffer.len() < room {
            self.buffer.resize(room, 0);
        }
        let mut answer = [0; 6];
        let mut buffer = mem::take(&mut self.buffer);
        let lent = &mut buffer[..room];
        let result = station_items::ask(
            ItemCall::Read,
            kind,
            self.edition,
            text,
            at,
            lent,
            &mut answer,
        );
        if result == 0 {
            self.open(&buffer[..answer[0] as usize], text.len());
        }
        self.buffer = buffer;
    }

    fn open(&mut self, tree: &[u8], text: usize) {
        self.trees += 1;
        let opened = self.comparison.walk(tree, text);
        let opened = opened.expect("what a read writes is lawful by the second opener");
        if tree.len() > EVERY_CHILD {
            return;
        }
        let mut hasher = DefaultHasher::new();
        (tree, text.min(65_536)).hash(&mut hasher);
        let sum = hasher.finish();
        let chosen = tree.len() <= SHORT || sum % self.one_in == 0;
        if chosen && self.seen.insert(sum) {
            self.thorough += 1;
            self.comparison.every_child(tree, text, &opened);
        }
    }
}

impl Visitor for Trees {
    fn set(&mut self, name: &str, run: impl FnOnce(&mut Trees)) {
        let (answers, trees, different) = (
            self.comparison.answers,
            self.trees,
            self.comparison.different,
        );
        run(self);
        let answers = grouped(self.comparison.answers - answers);
        println!(
            "{name:<50} {answers:>12}   trees {:>12}",
            grouped(self.trees - trees)
        );
        if self.comparison.different > different {
            println!(
                "  DIFFERENT: {}",
                grouped(self.comparison.different - different)
            );
        }
    }

    fn random(&mut self) -> &mut Random {
        &mut self.random
    }

    fn item(&mut self, kind: u64, text: &Text, at: usize) {
        if let Some(respelled) = respelled(self.edition, &mut self.random, text, at) {
            self.one_item(kind, &respelled, at);
        }
        self.one_item(kind, text.bytes, at);
    }

    fn item_as_spelled(&mut self, kind: u64, text: &Text, at: usize) {
        self.one_item(kind, text.bytes, at);
    }

    fn thoroughly(&mut self, case: &Case) {
        self.item(case.kind as u64, &Text::new(&case.text), case.at);
    }

    fn each_room(&mut self, kind: u64, text: &Text, at: usize) {
        self.one_item(kind, text.bytes, at);
    }

    fn edition(&self) -> u64 {
        self.edition
    }

    fn longest(&self, size: &Size) -> usize {
        size.of(5, 3)
    }
}
