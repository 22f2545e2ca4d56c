//! Holds the port's displays to the properties of oracle/src/properties.rs: on the items
//! of the reads, and on items that could be taken for one another. The program `compare`
//! includes this file as a module.

use crate::{
    every_text, grouped,
    item_sets::{self, random_item, Size, Visitor, TAILS},
    read_comparison::{missing, print_listed, print_numbers, print_text, respelled},
    shrunk, station_items, Found, ON_LONG,
};
use oracle::{
    answer::ItemCall,
    expected::Text,
    items::{self, Case},
    line::line_of,
    parsing::{on_a_deep_stack, ItemKind},
    properties::{pairs_of, Fault, Properties, Property},
    random::Random,
    texts,
    variants::{every_sentence, variants},
};
use std::time::Instant;

/// How many faults are shown in full, and how many are made small to find that many that
/// are not the same.
const SHOWN: usize = 5;
const MADE_SMALL: u64 = 20;

/// Runs all sets and prints what came of them.
pub fn run(size: Size) -> Found {
    on_a_deep_stack(|| {
        let start = Instant::now();
        let mut displays = Displays::new(size.random(50));
        for edition in size.editions() {
            println!("\nDisplays, by items, edition {edition}:");
            displays.edition = edition;
            item_sets::run(&mut displays, &size);
            if size.starts_only {
                continue;
            }
            if !size.long_only {
                strings(&mut displays, &size);
                sentences(&mut displays, &size);
                families(&mut displays, &size);
            }
            lengths(&mut displays, &size);
        }
        println!();
        displays.print_summary();
        println!("\n{:.1} s", start.elapsed().as_secs_f64());
        let mut found = Found::default();
        let tally = &displays.properties.tally;
        found.add(displays.faults, tally.on_long);
        found.missing += missing(&tally.numbers, size.due(ItemCall::Display, size.edition));
        found
    })
}

/// Strings with unprintable bytes, each with every room.
fn strings(displays: &mut Displays, size: &Size) {
    let longest = size.of(6, 5);
    let name = format!("every text up to {longest} bytes, strings");
    displays.set(&name, |to| {
        every_text(b"bx\"\\\r\n\t\x7fa\x1f\x80", longest, |text| {
            to.with_a_tail(text, |to, text| {
                to.each_room(ItemKind::Value as u64, &Text::new(text), 0)
            })
        })
    });
    displays.set("strings of all 256 bytes", |to| {
        let mut random = size.random(53);
        for _ in 0..size.of(1_500_000, 10_000) {
            let (text, at) = texts::string_value(&mut random);
            to.each_room(ItemKind::Value as u64, &Text::new(&text), at);
        }
    });
}

/// All items of few tokens: the same tokens in every nesting.
fn sentences(displays: &mut Displays, size: &Size) {
    for (kind, name, tokens, longest) in [
        (ItemKind::Type, "types", TYPES, size.of(9, 7)),
        (ItemKind::Type, "types of lists", LISTS, size.of(16, 11)),
        (ItemKind::Type, "functions", FUNCTIONS, size.of(13, 10)),
        (ItemKind::BindList, "bindings", BINDS, size.of(13, 9)),
        (ItemKind::LambdaBindList, "lambdas", LAMBDAS, size.of(13, 9)),
        (ItemKind::Name, "names", NAMES, 7),
        (ItemKind::Value, "values", VALUES, 4),
    ] {
        let name = format!("every item of up to {longest} tokens, {name}");
        displays.set(&name, |to| {
            every_sentence(kind, tokens, longest, &mut |text| {
                to.with_a_tail(text.as_bytes(), |to, text| {
                    to.item(kind as u64, &Text::new(text), 0)
                })
            })
        });
    }
}

const TYPES: &[&str] = &["a", "mut", "&", "&mut ", "(", ")", ",", "|", "<", ">"];
const LISTS: &[&str] = &["a", "(", ")", ",", "<", ">"];
const FUNCTIONS: &[&str] = &["a", "(", ")", ",", "|"];
const BINDS: &[&str] = &["f", "a", "(", ")", ",", "<", ">", "{", "}", ":"];
const LAMBDAS: &[&str] = &["f", "a", "|", ",", "<", ">", "{", "}", ":"];
const NAMES: &[&str] = &["a", "b", "0", "0x1", "::", "<"];
const VALUES: &[&str] = &[
    "@", "a", "0", "0x0", "1u8", "true", "false", "b\"\"", "x\"\"", "b\" \"", "::",
];

/// Items, each with other spellings and other nestings of its tokens.
fn families(displays: &mut Displays, size: &Size) {
    for (name, set, turns, deepest) in [
        (
            "variants of items of 1 to 3 levels",
            51,
            size.of(800_000, 6_000),
            3,
        ),
        (
            "variants of items of 1 to 12 levels",
            52,
            size.of(80_000, 1_000),
            12,
        ),
    ] {
        let mut random = size.random(set);
        displays.set(name, |to| {
            for turn in 0..turns {
                let case = random_item(&mut random, turn, deepest);
                to.family(&case, &mut random);
            }
        });
    }
}

/// Around the longest line.
fn lengths(displays: &mut Displays, size: &Size) {
    displays.set("lines of about 65,535 bytes", |to| {
        for case in items::with_long_lines(size.of(40, 2)) {
            to.thoroughly(&case);
        }
    });
}

struct Displays {
    edition: u64,
    properties: Properties,
    /// Pairs of accepted items of one family.
    near_pairs: u128,
    faults: u64,
    shown: Vec<Fault>,
}

impl Visitor for Displays {
    fn set(&mut self, name: &str, run: impl FnOnce(&mut Displays)) {
        let (before, faults) = (self.properties.tally, self.faults);
        run(self);
        let tally = self.properties.tally;
        let items = grouped(tally.items - before.items);
        let accepted = grouped(tally.accepted - before.accepted);
        println!("{name:<50} {items:>12}   accepted {accepted:>12}");
        if self.faults > faults {
            println!("  DIFFERENT: {}", grouped(self.faults - faults));
        }
    }

    fn random(&mut self) -> &mut Random {
        self.properties.random()
    }

    fn item_as_spelled(&mut self, kind: u64, text: &Text, at: usize) {
        let fault = self.properties.check(kind, self.edition, text, at);
        self.found(fault);
    }

    fn edition(&self) -> u64 {
        self.edition
    }

    fn longest(&self, size: &Size) -> usize {
        match self.edition {
            1 => size.of(6, 4),
            _ => size.of(5, 3),
        }
    }

    fn item(&mut self, kind: u64, text: &Text, at: usize) {
        let random = self.properties.random();
        if let Some(respelled) = respelled(self.edition, random, text, at) {
            let text = Text::new(&respelled);
            let fault = self.properties.check(kind, self.edition, &text, at);
            self.found(fault);
        }
        self.item_as_spelled(kind, text, at);
    }

    fn thoroughly(&mut self, case: &Case) {
        let (kind, edition, at) = (case.kind as u64, self.edition, case.at);
        let text = Text::new(&case.text);
        if let Some(respelled) = respelled(edition, self.properties.random(), &text, at) {
            let text = Text::new(&respelled);
            let fault = self.properties.check_thoroughly(kind, edition, &text, at);
            self.found(fault);
        }
        let fault = self.properties.check_thoroughly(kind, edition, &text, at);
        self.found(fault);
    }

    fn each_room(&mut self, kind: u64, text: &Text, at: usize) {
        let fault = self
            .properties
            .check_each_room(kind, self.edition, text, at);
        self.found(fault);
    }
}

impl Displays {
    fn new(random: Random) -> Displays {
        Displays {
            edition: 1,
            properties: Properties::new(station_items::ask, line_of, random),
            near_pairs: 0,
            faults: 0,
            shown: vec![],
        }
    }

    /// An item and its variants.
    fn family(&mut self, case: &Case, random: &mut Random) {
        let Ok(text) = std::str::from_utf8(&case.text[case.at..]) else {
            return self.thoroughly(case);
        };
        let before = self.properties.tally.accepted;
        self.thoroughly(case);
        for variant in variants(random, case.kind, text, 15) {
            self.item(case.kind as u64, &Text::new(variant.as_bytes()), 0);
        }
        self.near_pairs += pairs_of(self.properties.tally.accepted - before);
    }

    fn found(&mut self, fault: Option<Fault>) {
        let Some(fault) = fault else {
            return;
        };
        self.faults += 1;
        if self.shown.len() < SHOWN && self.faults <= MADE_SMALL {
            let small = smallest(fault);
            let same = |other: &Fault| other.text == small.text && other.kind == small.kind;
            if !self.shown.iter().any(same) {
                self.shown.push(small);
            }
        }
    }

    fn print_summary(&self) {
        let tally = &self.properties.tally;
        let (pairs, one_line) = self.properties.pairs();
        println!("{:<50} {:>12}", "all", grouped(tally.items));
        println!(
            "\n{:<50} {:>22}",
            "answers compared",
            grouped(tally.answers)
        );
        for (name, count) in [
            (ON_LONG, tally.on_long.into()),
            ("  refused with 18", tally.unprintable.into()),
            ("items accepted (displayed and read)", tally.accepted.into()),
            ("numbers that are no edition", tally.of_none.into()),
            ("different lines", self.properties.lines() as u128),
            ("  met in both editions", self.properties.in_both() as u128),
            ("lines read back", tally.read_back.into()),
            (
                "  of wide trees, the line's wide too",
                tally.both_wide.into(),
            ),
            (
                "  of wide trees, the line's narrow",
                tally.only_item_wide.into(),
            ),
            ("pairs of accepted items of one kind", pairs),
            ("  of one line and one build", one_line),
            ("  of two lines and two builds", pairs - one_line),
            ("  of an item and its variants", self.near_pairs),
        ] {
            println!("{name:<50} {:>22}", grouped(count));
        }
        print_numbers(&tally.numbers);
        print_listed(&tally.listed);
        println!("\ndifferences not listed: {}", grouped(self.faults));
        for fault in &self.shown {
            print(fault);
        }
    }
}

/// The fault on the smallest text that is found. One that lies between two items is
/// left as it is.
fn smallest(first: Fault) -> Fault {
    if first.property == Property::OneLineOneBuild {
        return first;
    }
    let (kind, edition) = (first.kind, first.edition);
    let faulty = |text: &[u8], at: usize| {
        TAILS.iter().find_map(|tail| {
            let longer = [text, tail.as_bytes()].concat();
            let text = Text::new(&longer[..text.len()]);
            Properties::new(station_items::ask, line_of, Random::new(1))
                .check_thoroughly(kind, edition, &text, at)
        })
    };
    let (text, at) = shrunk(first.text.clone(), first.at, |text, at| {
        faulty(text, at).is_some()
    });
    faulty(&text, at).unwrap_or(first)
}

fn print(fault: &Fault) {
    let (kind, edition) = (fault.kind, fault.edition);
    let (at, length) = (fault.at, fault.text.len());
    println!(
        "\n  Display, kind {kind}, edition {edition}, at {at} of {length} bytes: {}",
        fault.property.words()
    );
    print_text(&fault.text);
    for line in &fault.told {
        println!("    {line}");
    }
}
