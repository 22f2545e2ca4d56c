//! Compares the port's reads with those of the Rust. The program `compare` includes
//! this file as a module.

use crate::{
    grouped,
    item_sets::{self, Size, Visitor, TAILS, TYPE},
    shrunk, station_items, Found, ON_LONG,
};
use oracle::{
    answer::{Answer, ItemCall},
    editions,
    expected::Text,
    items::Case,
    lent::{Buffer, ItemAt, Room, Wrong},
    numbers::Numbers,
    parsing::on_a_deep_stack,
    random::Random,
    reads::{expected_in, Cause, Expected, Lent},
    type_sizes::{largest, most, type_room, Stored, TypeSizes, NARROW_TYPE},
};
use std::{borrow::Cow, mem, time::Instant};

/// How many differences are shown in full, and how many are made small to find that
/// many that are not the same.
const SHOWN: usize = 5;
const MADE_SMALL: u64 = 20;

/// Runs all sets and prints what came of them.
pub fn run(size: Size) -> Found {
    on_a_deep_stack(|| {
        let start = Instant::now();
        let mut found = Found::default();
        for edition in size.editions() {
            println!("\nReads, edition {edition}:");
            let mut reads = Reads::new(edition, size.random(0));
            if !size.types_only {
                item_sets::run(&mut reads, &size);
            }
            if !size.starts_only {
                if !size.long_only {
                    reads.short_types(size.of(7, 5));
                }
                reads.largest_types(size.of(1, 41));
            }
            reads.print_summary();
            found.add(reads.different, reads.on_long);
            if !size.types_only {
                found.missing += missing(&reads.numbers, size.due(ItemCall::Read, Some(edition)));
            }
        }
        println!("\n{:.1} s", start.elapsed().as_secs_f64());
        found
    })
}

/// A read of the port that is not the expected one.
struct Difference {
    kind: u64,
    edition: u64,
    text: Vec<u8>,
    at: usize,
    room: Room,
    expected: Expected,
    wrong: Wrong,
}

struct Reads {
    edition: u64,
    buffer: Buffer,
    answers: u64,
    /// Answers on texts of 65,536 to 1,048,575 bytes.
    on_long: u64,
    /// Answers to numbers that are no edition.
    of_none: u64,
    /// Answers of edition 1 on texts by which edition 2 is judged.
    of_first: u64,
    accepted: u64,
    /// The accepted types, held to the bounds on their trees.
    sizes: TypeSizes,
    numbers: Numbers,
    random: Random,
    listed: [u64; Cause::ALL.len()],
    different: u64,
    shown: Vec<Difference>,
}

impl Visitor for Reads {
    fn set(&mut self, name: &str, run: impl FnOnce(&mut Reads)) {
        let (answers, accepted, different) = (self.answers, self.accepted, self.different);
        run(self);
        let accepted = grouped(self.accepted - accepted);
        let answers = grouped(self.answers - answers);
        println!("{name:<50} {answers:>12}   accepted {accepted:>12}");
        if self.different > different {
            println!("  DIFFERENT: {}", grouped(self.different - different));
        }
    }

    fn random(&mut self) -> &mut Random {
        &mut self.random
    }

    fn item_as_spelled(&mut self, kind: u64, text: &Text, at: usize) {
        self.one_item(kind, text, at);
    }

    fn edition(&self) -> u64 {
        self.edition
    }

    /// Without digits edition 2 is as edition 1.
    fn longest(&self, size: &Size) -> usize {
        match self.edition {
            1 => size.of(7, 5),
            _ => size.of(5, 3),
        }
    }

    fn item(&mut self, kind: u64, text: &Text, at: usize) {
        if let Some(respelled) = respelled(self.edition, &mut self.random, text, at) {
            self.one_item(kind, &Text::new(&respelled), at);
        }
        self.one_item(kind, text, at);
    }

    fn thoroughly(&mut self, case: &Case) {
        let text = Text::new(&case.text);
        if let Some(respelled) = respelled(self.edition, &mut self.random, &text, case.at) {
            self.with_all_rooms(case.kind as u64, &Text::new(&respelled), case.at);
        }
        self.with_all_rooms(case.kind as u64, &text, case.at);
    }

    fn each_room(&mut self, kind: u64, text: &Text, at: usize) {
        let expected = expected_in(self.edition, kind, text, at);
        for room in 0..expected.written.len() + 2 {
            self.judge(kind, text, at, Room::Bytes(room), &expected);
        }
        self.hold(kind, text, at, &expected);
    }
}

/// In edition 2, a text with digits from `at` on, its numbers spelled in the way of that edition.
pub fn respelled(edition: u64, random: &mut Random, text: &Text, at: usize) -> Option<Vec<u8>> {
    let rest = text.bytes.get(at..).filter(|_| edition == 2)?;
    let digits = rest.iter().any(u8::is_ascii_digit);
    digits.then(|| editions::respelled(random, text.bytes, at))
}

impl Reads {
    fn one_item(&mut self, kind: u64, text: &Text, at: usize) {
        let expected = expected_in(self.edition, kind, text, at);
        self.judge_first(kind, text, at, &expected);
        if expected.written.is_empty() {
            let some = [Room::None, Room::Exact, Room::More(37)];
            let room = self.random.pick(&some);
            return self.judge(kind, text, at, room, &expected);
        }
        for room in [Room::Exact, Room::OneLess, Room::None, Room::More(1)] {
            self.judge(kind, text, at, room, &expected);
        }
        self.hold(kind, text, at, &expected);
    }

    /// Holds an item that is an accepted type to the bounds on its tree, and reads it in just the room
    /// that is always enough. Its tree is the one that the port wrote, or a difference was found.
    fn hold(&mut self, kind: u64, text: &Text, at: usize, expected: &Expected) {
        let tree = &expected.written;
        if kind != TYPE || tree.is_empty() {
            return;
        }
        if let Some(wrong) = self.sizes.hold(tree, text.bytes.len()) {
            self.breaks(text, at, &wrong);
        }
        if let Some(Stored { bytes, .. }) = Stored::of(tree) {
            let room = Room::Bytes(type_room(bytes, text.bytes.len()));
            self.judge(TYPE, text, at, room, expected);
        }
    }

    fn breaks(&mut self, text: &Text, at: usize, wrong: &str) {
        self.different += 1;
        println!("  a type at {at}: {wrong}");
        print_text(text.bytes);
    }

    /// Short texts as types: for each number of bytes the most records are reached.
    fn short_types(&mut self, longest: usize) {
        let before = mem::take(&mut self.sizes);
        item_sets::short_types(self, longest);
        let found = &self.sizes.most[1..=longest];
        println!("  the most records of 1 to {longest} bytes: {found:?}");
        let due: Vec<_> = (1..=longest).map(most).collect();
        if found != due {
            self.different += 1;
            println!("  DIFFERENT: due were {due:?}");
        }
        self.sizes.add(&before);
    }

    /// The types that have the most records: every n, or each `step`th, alone; and some in texts of
    /// just so many bytes that their trees are narrow still, and of one more.
    fn largest_types(&mut self, step: usize) {
        self.set("types of 4 to 8,190 bytes with the most records", |to| {
            let some = |n: &usize| *n < 8 || n % step == 0 || *n == NARROW_TYPE;
            for n in (4..=NARROW_TYPE).filter(some) {
                let due = Answer::read(8 * (n + 1), 0, n, n);
                to.largest_type(n, &Text::new(&largest(n)), 0, due);
            }
        });
        self.set("the same in texts of 65,535 and 65,536 bytes", |to| {
            let beyond = [NARROW_TYPE - 1, NARROW_TYPE, NARROW_TYPE + 1, 32_768];
            for (n, length) in (4..8)
                .chain(beyond)
                .flat_map(|n| [(n, 65_535), (n, 65_536)])
            {
                let blanks = vec![b' '; length - n];
                let due = Answer::read(type_room(n, length), 0, length, length);
                let front = [&largest(n)[..], &blanks].concat();
                to.largest_type(n, &Text::new(&front), 0, due);
                let behind = [&blanks[..], &largest(n)].concat();
                to.largest_type(n, &Text::new(&behind), length - n, due);
            }
        });
    }

    fn largest_type(&mut self, n: usize, text: &Text, at: usize, due: Answer) {
        let expected = expected_in(self.edition, TYPE, text, at);
        let stored = Stored {
            bytes: n,
            records: n + 1,
        };
        if expected.answer != Some(due) || Stored::of(&expected.written) != Some(stored) {
            self.breaks(text, at, &format!("{n} bytes should have answered {due}"));
        }
        self.one_item(TYPE, text, at);
    }

    fn with_all_rooms(&mut self, kind: u64, text: &Text, at: usize) {
        let expected = expected_in(self.edition, kind, text, at);
        for room in [
            Room::None,
            Room::OneLess,
            Room::Exact,
            Room::More(1),
            Room::More(7),
            Room::More(1_000),
        ] {
            self.judge(kind, text, at, room, &expected);
        }
        self.hold(kind, text, at, &expected);
    }

    fn new(edition: u64, random: Random) -> Reads {
        Reads {
            edition,
            of_none: 0,
            of_first: 0,
            buffer: Buffer::new(station_items::ask),
            answers: 0,
            on_long: 0,
            accepted: 0,
            sizes: TypeSizes::default(),
            numbers: Numbers::default(),
            random,
            listed: [0; Cause::ALL.len()],
            different: 0,
            shown: vec![],
        }
    }

    fn judge(&mut self, kind: u64, text: &Text, at: usize, room: Room, expected: &Expected) {
        let call = (kind, self.edition, text.bytes, at, room);
        let difference = asked(&mut self.buffer, call, expected);
        self.answers += 1;
        self.on_long += u64::from(text.is_long());
        if self.edition == 1 {
            self.judge_none(kind, text, at, room.of(expected), expected);
        }
        let due = expected.within(room.of(expected));
        self.numbers.count(due);
        self.accepted += u64::from(!due.written.is_empty());
        if let Some(cause) = due.cause {
            self.listed[cause as usize] += 1;
        }
        if let Some(difference) = difference {
            self.differs(difference);
        }
    }

    /// Beside edition 2, edition 1 on the text by which the Rust judges.
    fn judge_first(&mut self, kind: u64, text: &Text, at: usize, expected: &Expected) {
        let judged = editions::judged(self.edition, text.bytes, 0, usize::MAX);
        if let Cow::Owned(copy) = judged {
            self.of_first += 1;
            let call = (kind, 1, &copy[..], at, Room::Exact);
            if let Some(difference) = asked(&mut self.buffer, call, expected) {
                self.differs(difference);
            }
        }
    }

    /// The same call with a number that is no edition.
    fn judge_none(&mut self, kind: u64, text: &Text, at: usize, room: usize, expected: &Expected) {
        let edition = editions::NONE[self.answers as usize % editions::NONE.len()];
        self.of_none += 1;
        let item = (kind, edition, text.bytes, at);
        self.numbers.count(of_none(expected));
        if let Some(wrong) = none_is_wrong(&mut self.buffer, ItemCall::Read, item, room, expected) {
            self.different += 1;
            println!("  edition {edition}, kind {kind}, at {at}, room {room}: {wrong:?}");
            print_text(text.bytes);
        }
    }

    fn differs(&mut self, difference: Difference) {
        self.different += 1;
        if self.shown.len() < SHOWN && self.different <= MADE_SMALL {
            let small = smallest(&mut self.buffer, difference);
            if !self.shown.iter().any(|other| other.is_like(&small)) {
                self.shown.push(small);
            }
        }
    }

    fn print_summary(&self) {
        println!("{:<50} {:>12}", "all", grouped(self.answers));
        println!("{ON_LONG:<50} {:>12}", grouped(self.on_long));
        if self.edition == 1 {
            let count = grouped(self.of_none);
            println!(
                "{:<50} {count:>12}",
                "the same with numbers that are no edition"
            );
        }
        if self.edition == 2 {
            let count = grouped(self.of_first);
            println!(
                "{:<50} {count:>12}",
                "edition 1 on the texts that judge them"
            );
        }
        println!(
            "{:<50} {:>12}   records - bytes at most {}",
            "types held to the bounds on their trees",
            grouped(self.sizes.types),
            self.sizes.beyond.unwrap_or(0)
        );
        print_numbers(&self.numbers);
        print_listed(&self.listed);
        println!("\ndifferences not listed: {}", grouped(self.different));
        for difference in &self.shown {
            difference.print();
        }
    }
}

/// How many answers of each number were compared.
pub fn print_numbers(numbers: &Numbers) {
    println!("\nAnswers of each number, and those by the walk from 0 to the offset:");
    for (number, all, walked) in numbers.lines() {
        let walked = match walked {
            0 => String::new(),
            _ => grouped(walked),
        };
        println!(
            "{}",
            format!("  {number:>2} {:>14} {walked:>14}", grouped(all)).trim_end()
        );
    }
}

/// How many of the numbers that are due were never answered; told, if there are any.
pub fn missing(numbers: &Numbers, due: Vec<usize>) -> u64 {
    let missing = numbers.missing(due);
    if missing > 0 {
        println!("\nNUMBERS WITHOUT AN ANSWER: {missing}");
    }
    missing
}

/// How many answers each listed difference decided.
pub fn print_listed(listed: &[u64; Cause::ALL.len()]) {
    println!("\nOf these, decided by the specification (docs/DIFFERENCES.md), and held to it:");
    for cause in Cause::ALL {
        let count = grouped(listed[cause as usize]);
        println!("  {:<58} {:>12}", cause.words(), count);
    }
}

/// What is wrong with a call that has a number that is no edition, where this must come of it in
/// edition 1.
pub fn none_is_wrong(
    buffer: &mut Buffer,
    call: ItemCall,
    item: ItemAt,
    room: usize,
    expected: &Expected,
) -> Option<Wrong> {
    buffer.wrong(call, item, room, of_none(expected))
}

fn of_none(expected: &Expected) -> Lent<'static> {
    Lent {
        answer: Some(editions::of_none(expected.answer)),
        written: &[],
        cause: None,
    }
}

/// A call: kind, edition, text, start offset and room.
type Call<'t> = (u64, u64, &'t [u8], usize, Room);

/// Asks the port; what it does and what it should do, where they differ.
fn asked(buffer: &mut Buffer, call: Call, expected: &Expected) -> Option<Difference> {
    let (kind, edition, text, at, room) = call;
    let lent = room.of(expected);
    let due = expected.within(lent);
    let wrong = buffer.wrong(ItemCall::Read, (kind, edition, text, at), lent, due)?;
    Some(Difference {
        kind,
        edition,
        text: text.to_vec(),
        at,
        room,
        expected: expected.clone(),
        wrong,
    })
}

/// The difference on the smallest text that is found.
fn smallest(buffer: &mut Buffer, first: Difference) -> Difference {
    let (kind, edition, room) = (first.kind, first.edition, first.room);
    let mut differs = |text: &[u8], at: usize| {
        let expected = expected_in(edition, kind, &Text::new(text), at);
        TAILS.iter().find_map(|tail| {
            let longer = [text, tail.as_bytes()].concat();
            let text = &longer[..text.len()];
            asked(buffer, (kind, edition, text, at, room), &expected)
        })
    };
    let (text, at) = shrunk(first.text.clone(), first.at, |text, at| {
        differs(text, at).is_some()
    });
    differs(&text, at).unwrap_or(first)
}

impl Difference {
    /// Whether the two differ in the room alone.
    fn is_like(&self, other: &Difference) -> bool {
        (self.kind, self.at, &self.text) == (other.kind, other.at, &other.text)
    }

    fn print(&self) {
        let length = self.text.len();
        let room = self.room.of(&self.expected);
        println!(
            "\n  Read call, kind {}, edition {}, at {} of {length} bytes, room {room}",
            self.kind, self.edition, self.at
        );
        print_text(&self.text);
        let due = self.expected.within(room);
        match due.answer {
            Some(answer) => println!("    expected {answer}"),
            None => println!("    expected nothing: the Rust panics, and no list says why"),
        }
        if let Some(cause) = due.cause {
            println!("    because  {}", cause.words());
        }
        println!("    found    {}", self.wrong.found);
        if let Some(fault) = &self.wrong.buffer {
            println!("    buffer   {fault}");
            println!("    tree due {}", hex(due.written));
        }
    }
}

/// A text of which an answer is wrong, readable and in hex.
pub fn print_text(text: &[u8]) {
    let cut = &text[..text.len().min(200)];
    let more = if text.len() > cut.len() { "..." } else { "" };
    println!("    text     '{}'{more}", cut.escape_ascii());
    println!("    in hex   {}", hex(text));
}

/// The first 200 bytes.
fn hex(bytes: &[u8]) -> String {
    let cut = bytes.iter().take(200);
    let more = if bytes.len() > 200 { "..." } else { "" };
    cut.map(|byte| format!("{byte:02x}")).collect::<String>() + more
}
