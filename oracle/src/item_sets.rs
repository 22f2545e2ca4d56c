//! The items that are read and displayed, and how a comparison visits them. The program
//! `compare` includes this file as a module.

use crate::every_text;
use oracle::{
    answer::ItemCall,
    editions,
    expected::Text,
    items::{self, Case},
    long_items,
    parsing::ItemKind,
    random::Random,
    texts,
};

/// What is done with the items of the sets.
pub trait Visitor {
    /// Runs one set and prints how much it compared.
    fn set(&mut self, name: &str, run: impl FnOnce(&mut Self));

    fn random(&mut self) -> &mut Random;

    /// One item. Accepted, with the rooms that matter; refused, with none or some.
    fn item(&mut self, kind: u64, text: &Text, at: usize);

    /// One item with all sorts of rooms.
    fn thoroughly(&mut self, case: &Case);

    /// One item with every room up to more than is needed.
    fn each_room(&mut self, kind: u64, text: &Text, at: usize);

    /// Visits the text with other bytes behind it each time.
    fn with_a_tail(&mut self, text: &[u8], visit: impl FnOnce(&mut Self, &[u8])) {
        let tail = self.random().pick(&TAILS);
        let longer = [text, tail.as_bytes()].concat();
        visit(self, &longer[..text.len()]);
    }

    /// Each kind at one offset.
    fn each_kind(&mut self, bytes: &[u8], at: usize) {
        let text = Text::new(bytes);
        for kind in ItemKind::ALL {
            self.item(kind as u64, &text, at);
        }
    }

    /// Each kind at each offset, those past the end too.
    fn everywhere(&mut self, bytes: &[u8]) {
        for at in (0..=bytes.len() + 1).chain([usize::MAX]) {
            self.each_kind(bytes, at);
        }
    }

    /// The same, its numbers as they are spelled.
    fn item_as_spelled(&mut self, kind: u64, text: &Text, at: usize);

    fn edition(&self) -> u64;

    /// How long the texts are that are asked at each offset.
    fn longest(&self, size: &Size) -> usize;

    /// A value and a type at each offset.
    fn at_each_offset(&mut self, bytes: &[u8]) {
        let text = Text::new(bytes);
        for at in 0..=bytes.len() {
            for kind in [ItemKind::Value, ItemKind::Type] {
                self.item(kind as u64, &text, at);
            }
        }
    }

    /// Some kinds at 50 offsets: at 25 of all, and at 25 of those where reading may begin.
    fn at_some_offsets(&mut self, bytes: &[u8], random: &mut Random) {
        let mut bytes = bytes.to_vec();
        if self.edition() == 2 {
            let length = bytes.len();
            bytes = editions::respelled(random, &bytes, 0);
            bytes.truncate(length);
        }
        let text = Text::new(&bytes);
        let allowed = editions::judging(self.edition(), &text, 0, usize::MAX, |text| {
            text.starts().offsets().collect::<Vec<usize>>()
        });
        for turn in 0..50 {
            let kind = random.pick(&ItemKind::ALL);
            let at = match turn % 2 {
                0 => random.below(bytes.len() + 1),
                _ => random.pick(&allowed),
            };
            self.item_as_spelled(kind as u64, &text, at);
        }
    }

    /// An item where it starts, all kinds there, and some kinds elsewhere.
    fn in_place(&mut self, case: &Case, random: &mut Random) {
        self.thoroughly(case);
        self.each_kind(&case.text, case.at);
        let text = Text::new(&case.text);
        for _ in 0..4 {
            let kind = random.pick(&ItemKind::ALL);
            let at = random.below(case.text.len() + 2);
            self.item(kind as u64, &text, at);
        }
    }

    /// An item of which only the first bytes are the text.
    fn cut(&mut self, case: &Case, length: usize) {
        let text = Text::new(&case.text[..length]);
        self.item(case.kind as u64, &text, case.at.min(length));
    }

    /// Kinds that exist and do not, at all offsets, with all rooms.
    fn however_called(&mut self, bytes: &[u8]) {
        let text = Text::new(bytes);
        let far = [1 << 16, 1 << 32, usize::MAX - 1, usize::MAX];
        for kind in KINDS {
            for at in (0..=bytes.len() + 2).chain(far) {
                self.each_room(kind, &text, at);
            }
        }
    }

    /// The same on a long text, at its ends.
    fn wrongly_called(&mut self, text: &Text) {
        let length = text.bytes.len();
        for kind in KINDS {
            for at in [
                0,
                length - 1,
                length,
                length + 1,
                65_535,
                65_536,
                usize::MAX,
            ] {
                self.item(kind, text, at);
            }
        }
    }
}

/// Visits all sets, or those of long texts or of offsets alone.
pub fn run(visitor: &mut impl Visitor, size: &Size) {
    if !size.long_only {
        offsets(visitor, size);
    }
    far_offsets(visitor, size);
    if size.starts_only {
        return;
    }
    if !size.long_only {
        short_texts(visitor, size);
        wrong_calls(visitor);
        items_and_damage(visitor, size);
        other_texts(visitor, size);
        nests(visitor, size);
    }
    long_texts(visitor, size);
    many_records(visitor, size);
    far_items(visitor, size);
    if visitor.edition() == 2 && !size.long_only {
        numbers(visitor, size);
    }
}

/// How much is compared, and with which random texts.
pub struct Size {
    pub quick: bool,
    pub seed: u64,
    /// The one edition that is compared, if not both are.
    pub edition: Option<u64>,
    /// Whether only the sets of long texts are compared.
    pub long_only: bool,
    /// Whether only the sets of types are read.
    pub types_only: bool,
    /// Whether only the sets of offsets other than 0 are compared.
    pub starts_only: bool,
}

impl Size {
    pub fn of<T>(&self, whole: T, quick: T) -> T {
        if self.quick {
            quick
        } else {
            whole
        }
    }

    /// The editions that are compared.
    pub fn editions(&self) -> impl Iterator<Item = u64> {
        let one = self.edition;
        [1, 2]
            .into_iter()
            .filter(move |edition| one.is_none_or(|one| one == *edition))
    }

    /// The numbers that a call on items must have answered: with all sets those that it can answer.
    pub fn due(&self, call: ItemCall, edition: Option<u64>) -> Vec<usize> {
        if self.long_only || self.starts_only {
            return vec![0];
        }
        let unprintable = (call == ItemCall::Display).then_some(18);
        let no_edition = (edition != Some(2)).then_some(19);
        (0..=14).chain(unprintable).chain(no_edition).collect()
    }

    pub fn random(&self, set: u64) -> Random {
        Random::new(self.seed.wrapping_mul(1_000_003).wrapping_add(100 + set))
    }
}

fn short_texts(visitor: &mut impl Visitor, size: &Size) {
    for (name, alphabet, longest) in [
        ("", ALPHABET, size.of(6, 5)),
        (", type lists", b"a<>=,()", size.of(7, 5)),
        (", field lists", b"a{}:,", size.of(9, 6)),
    ] {
        visitor.set(&format!("every text up to {longest} bytes{name}"), |to| {
            every_text(alphabet, longest, |text| {
                to.with_a_tail(text, |to, text| to.each_kind(text, 0))
            })
        });
    }
    let longest = size.of(4, 3);
    let name = format!("every text up to {longest} bytes, each offset");
    visitor.set(&name, |to| {
        every_text(ALPHABET, longest, |text| {
            to.with_a_tail(text, |to, text| to.everywhere(text))
        })
    });
}

/// Values and types at each offset of every short text.
fn offsets(visitor: &mut impl Visitor, size: &Size) {
    for (name, alphabet, longest) in [
        ("", OFFSETS, visitor.longest(size)),
        (", numbers", OFFSETS_IN_NUMBERS, size.of(6, 4)),
    ] {
        if name.is_empty() || visitor.edition() == 2 {
            let name = format!("each offset of every text up to {longest} bytes{name}");
            visitor.set(&name, |to| {
                every_text(alphabet, longest, |text| {
                    to.with_a_tail(text, |to, text| to.at_each_offset(text))
                })
            });
        }
    }
}

/// Some offsets of long texts, half of them such that reading may begin there.
fn far_offsets(visitor: &mut impl Visitor, size: &Size) {
    let mut random = size.random(13);
    visitor.set("50 offsets of texts of 2,000 to 131,072 bytes", |to| {
        for turn in 0..size.of(600, 12) {
            let length = random.pick(&[2_000, 65_535, 65_536, 131_072]);
            let mut text = texts::move_like(&mut random, length, false);
            if turn % 4 == 0 {
                text = texts::damaged(&mut random, &text);
            }
            to.at_some_offsets(&text, &mut random);
        }
    });
    let mut random = size.random(14);
    visitor.set("50 offsets of texts of up to 1,048,575 bytes", |to| {
        for _ in 0..size.of(8, 1) {
            to.at_some_offsets(
                &texts::move_like(&mut random, 1_048_575, false),
                &mut random,
            );
        }
        for length in size.of(vec![65_536, 1_048_575], vec![2_000]) {
            for text in texts::one_long_thing(length) {
                to.at_some_offsets(&text, &mut random);
            }
        }
    });
}

/// Numbers of edition 2, and what looks like them.
fn numbers(visitor: &mut impl Visitor, size: &Size) {
    let longest = size.of(6, 5);
    let name = format!("every text up to {longest} bytes, numbers");
    visitor.set(&name, |to| {
        every_text(b"1_u6x:@a< ", longest, |text| {
            to.with_a_tail(text, |to, text| to.each_kind(text, 0))
        })
    });
}

/// Texts as types: with them the most records are reached for each number of bytes.
pub fn short_types(visitor: &mut impl Visitor, longest: usize) {
    let name = format!("every text up to {longest} bytes, types alone");
    visitor.set(&name, |to| {
        every_text(b"a1<>()|,&: ", longest, |text| {
            to.with_a_tail(text, |to, text| to.item(TYPE, &Text::new(text), 0))
        })
    });
}

fn wrong_calls(visitor: &mut impl Visitor) {
    visitor.set("wrong kinds, offsets and rooms", |to| {
        for text in CALLED {
            to.however_called(text.as_bytes());
        }
    });
}

/// A random item of 1 to `deepest` levels.
pub fn random_item(random: &mut Random, turn: usize, deepest: usize) -> Case {
    let kind = random.pick(&ItemKind::ALL);
    items::case(random, kind, 1 + turn % deepest)
}

fn items_and_damage(visitor: &mut impl Visitor, size: &Size) {
    for (name, set, turns, deepest) in [
        ("items of 1 to 5 levels", 1, size.of(150_000, 4_000), 5),
        ("items of 1 to 70 levels", 3, size.of(20_000, 400), 70),
    ] {
        let mut random = size.random(set);
        visitor.set(name, |to| {
            for turn in 0..turns {
                let case = random_item(&mut random, turn, deepest);
                to.in_place(&case, &mut random);
            }
        });
        let mut random = size.random(set + 1);
        visitor.set(&format!("{name}, damaged"), |to| {
            for turn in 0..turns {
                let mut case = random_item(&mut random, turn, deepest);
                case.text = texts::damaged(&mut random, &case.text);
                to.in_place(&case, &mut random);
                // A cut leaves what follows in place, just past the end of the text.
                let length = random.below(case.text.len() + 1);
                to.cut(&case, length);
            }
        });
    }
}

fn other_texts(visitor: &mut impl Visitor, size: &Size) {
    visitor.set("items of 1 to 5 levels, everywhere", |to| {
        let mut random = size.random(5);
        for turn in 0..size.of(6_000, 100) {
            to.everywhere(&random_item(&mut random, turn, 5).text);
        }
    });
    visitor.set("items that are not UTF-8", |to| {
        let mut random = size.random(6);
        for turn in 0..size.of(50_000, 1_000) {
            let mut case = random_item(&mut random, turn, 5);
            texts::make_not_utf8(&mut random, &mut case.text);
            to.in_place(&case, &mut random);
        }
    });
    visitor.set("Move-like texts of 0 to 64 bytes", |to| {
        let mut random = size.random(7);
        for turn in 0..size.of(20_000, 400) {
            to.everywhere(&texts::move_like(&mut random, turn % 65, true));
        }
    });
}

/// Around 64 levels.
fn nests(visitor: &mut impl Visitor, size: &Size) {
    visitor.set("nests of 60 to 68 levels", |to| {
        for case in size.of(60..=68, 63..=64).flat_map(items::nests) {
            to.thoroughly(&case);
        }
    });
}

/// Around texts of 65,535 and 1,048,575 bytes.
fn long_texts(visitor: &mut impl Visitor, size: &Size) {
    visitor.set("wrong kinds and offsets, long texts", |to| {
        let whole = vec![65_535, 65_536, 1_048_575, 1_048_576];
        for length in size.of(whole, vec![65_535, 65_536, 1_048_576]) {
            for text in texts::one_long_thing(length) {
                to.wrongly_called(&Text::new(&text));
            }
        }
    });
    visitor.set("texts of 2,000 to 1,048,577 bytes", |to| {
        let short = [
            0, 1, 2_000, 30_000, 65_533, 65_534, 65_535, 65_536, 65_537, 70_000,
        ];
        let long = [131_072, 1_048_574, 1_048_575, 1_048_576, 1_048_577];
        let whole = [&short[..], &long].concat();
        for length in size.of(whole, vec![2_000, 65_535, 65_536, 1_048_575, 1_048_576]) {
            for case in items::long(length) {
                to.thoroughly(&case);
            }
        }
    });
    visitor.set("names and strings of 65,534 bytes and more", |to| {
        let longer = [70_000, 131_072, 1_048_575];
        let whole = (65_534..=65_545).chain(longer).collect();
        for length in size.of(whole, vec![65_536, 65_540]) {
            for case in long_items::leaves(length) {
                to.thoroughly(&case);
            }
        }
    });
}

/// Around narrow trees of 65,535 bytes, which have 8,191 records.
fn many_records(visitor: &mut impl Visitor, size: &Size) {
    visitor.set("trees of about 65,535 bytes", |to| {
        let counts = COUNTS.into_iter().flatten();
        for case in counts.step_by(size.of(1, 5)).flat_map(items::counted) {
            to.thoroughly(&case);
        }
    });
    visitor.set("trees of 8,188 to 8,195 records", |to| {
        let mut random = size.random(10);
        let records = size.of(8_188..=8_195, 8_191..=8_192);
        let cases = records.flat_map(long_items::of_records);
        for case in cases.step_by(size.of(1, 4)) {
            to.thoroughly(&case);
            let case = long_items::far(&mut random, case, &long_items::LONG);
            to.item(case.kind as u64, &Text::new(&case.text), case.at);
        }
    });
    visitor.set("trees of about 512, 1,024 and 2,048 bytes", |to| {
        let mut random = size.random(12);
        let cases = OWN_BUFFERS.into_iter().flatten();
        for case in cases
            .flat_map(long_items::of_records)
            .step_by(size.of(1, 9))
        {
            to.thoroughly(&case);
            let case = long_items::far(&mut random, case, &long_items::LONG);
            to.thoroughly(&case);
        }
    });
    visitor.set("lists of about 8,191 records", |to| {
        let mut random = size.random(11);
        for turn in 0..size.of(1_200, 20) {
            let mut case = long_items::random_list(&mut random);
            if turn % 8 == 0 {
                case.text = texts::damaged(&mut random, &case.text);
            }
            to.item(case.kind as u64, &Text::new(&case.text), case.at);
        }
    });
}

/// Short items in long texts.
fn far_items(visitor: &mut impl Visitor, size: &Size) {
    for (name, set, lengths, turns) in [
        (
            "items in texts of 65,534 to 131,072 bytes",
            8,
            &long_items::LONG[..],
            size.of(100_000, 1_500),
        ),
        (
            "items in texts of about 1,048,575 bytes",
            9,
            &long_items::LONGEST[..],
            size.of(2_000, 40),
        ),
    ] {
        let mut random = size.random(set);
        visitor.set(name, |to| {
            for turn in 0..turns {
                let case = far_item(&mut random, turn, lengths);
                to.item(case.kind as u64, &Text::new(&case.text), case.at);
            }
        });
    }
}

/// A random item in a text of about one of the lengths; now and then the item is damaged, or the text.
pub fn far_item(random: &mut Random, turn: usize, lengths: &[usize]) -> Case {
    let mut case = random_item(random, turn, 1 + turn % 7);
    if turn % 4 == 0 {
        damage(random, &mut case);
    }
    let mut case = long_items::far(random, case, lengths);
    if turn % 16 == 1 {
        damage(random, &mut case);
    }
    case
}

fn damage(random: &mut Random, case: &mut Case) {
    case.text = texts::damaged(random, &case.text);
    case.at = case.at.min(case.text.len());
}

/// The number of types.
pub const TYPE: u64 = ItemKind::Type as u64;

const ALPHABET: &[u8] = b"a<>()|,&:{}@0x\" ";

/// Of these: names, marks of one byte and of two, comments, strings, and what starts no token.
const OFFSETS: &[u8] = b"a/*>= \n\"x$";

/// Of these: numbers of edition 2, and what ends them.
const OFFSETS_IN_NUMBERS: &[u8] = b"1_u6x> /*\"";

/// Bytes behind a text that would change the answer if they were read.
pub const TAILS: [&str; 8] = ["\"\"", "::a", ">", "=", "a8", "mut ", "|", "*/"];

/// Texts that are read however a call can be made.
const CALLED: [&str; 12] = [
    "",
    " ",
    "a",
    "0x1::M::S<u8>",
    "@0x1 ",
    "b\"a\"",
    "1::a",
    "(&mut T<u8, |a|b>, ())",
    "(x, S<T> { f, g: y })",
    "| x , y | z",
    "a<$",
    "(a /*",
];

/// Of so many items some trees are just short enough to be narrow: items take 8 bytes and more.
const COUNTS: [std::ops::RangeInclusive<usize>; 4] =
    [8_185..=8_192, 4_091..=4_097, 2_728..=2_731, 2_046..=2_048];

/// Trees of so many records are about as long, narrow or wide, as the buffers in which the port reads first.
const OWN_BUFFERS: [std::ops::RangeInclusive<usize>; 6] =
    [35..=37, 72..=74, 145..=147, 63..=65, 127..=129, 255..=257];

/// Kinds that exist, and numbers of which some bytes alone would be one.
const KINDS: [u64; 12] = [
    0,
    1,
    2,
    3,
    4,
    5,
    6,
    0x103,
    0x1_0003,
    0x1_0000_0003,
    u64::MAX - 2,
    u64::MAX,
];
