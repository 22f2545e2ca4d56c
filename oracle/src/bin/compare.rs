//! Compares the port with the Rust, answer by answer.

#[path = "../carry_comparison.rs"]
mod carry_comparison;
#[path = "../display_comparison.rs"]
mod display_comparison;
#[path = "../item_sets.rs"]
mod item_sets;
#[path = "../open_comparison.rs"]
mod open_comparison;
#[path = "../outline_comparison.rs"]
mod outline_comparison;
#[path = "../point_comparison.rs"]
mod point_comparison;
#[path = "../read_comparison.rs"]
mod read_comparison;
#[path = "../station.rs"]
mod station;
#[path = "../station_items.rs"]
mod station_items;

use item_sets::{far_item, Size};
use oracle::{
    answer::{Answer, Call, ItemCall},
    editions,
    expected::{self, Cause, Expected, Text},
    items::Case,
    long_items::{LONG, LONGEST},
    random::Random,
    reading::{silence_the_rust, Reading},
    texts, SOURCES,
};
use read_comparison::respelled;
use std::{
    env,
    ops::AddAssign,
    process::exit,
    time::{Duration, Instant},
};

const HELP: &str = "\
Compares the port's answers with those of the Rust lexer and parser: tokens,
comments, reads with the bytes that they write, and displays with their lines;
first some points whose answers are written down.

usage: compare [--quick] [--seed N] [--edition N] [--reads-only | --displays-only]
               [--long-only | --types-only | --starts-only] [--help]
       compare --carry-only | --outline-only | --open-only [--quick] [--seed N]

  --quick          fewer texts: some 130 million answers, in a minute or two
  --edition N      one edition alone, 1 or 2 (default both)
  --seed N         another choice of random texts (default 1)
  --reads-only     no tokens, comments and displays
  --displays-only  no tokens, comments and reads
  --long-only      only the sets of texts and trees over 65,535 bytes
  --types-only     only the two sets of reads that look for the largest trees of types
  --starts-only    only reads and displays of the sets of offsets other than 0
  --carry-only     only notes that are carried from edition 1 to edition 2, which
                   the other options that choose leave out
  --outline-only   only outlines, which those leave out too
  --open-only      only saved trees that are opened, and their children, which they
                   leave out too
  --help           these words

Prints the sha256 of the Rust sources, how many answers were compared, how many of
them on texts of 65,536 to 1,048,575 bytes, those that docs/DIFFERENCES.md lists by
class (there the specification decides, and the port is held to it), how many reads
and displays of each number, and the first differences that it does not list, each
with the smallest text found. Exit status: 0 no such difference, 1 some, or a number
that no answer has, 2 bad usage.
";

/// An option that compares a call alone, and its comparison.
type Alone = (&'static str, fn(Size) -> Found);

/// The calls that the other options that choose leave out.
const LEFT_OUT: [Alone; 3] = [
    ("--carry-only", carry_comparison::run),
    ("--outline-only", outline_comparison::run),
    ("--open-only", open_comparison::run),
];
const ALONE: &str =
    "--carry-only, --outline-only and --open-only exclude one another, and go with --quick and --seed alone";

/// How many differences are shown in full, and how many are made small to find
/// that many that are not the same.
const SHOWN: usize = 5;
const MADE_SMALL: u64 = 20;

/// How long one may be made smaller.
const SHRINKING: Duration = Duration::from_secs(2);

fn main() {
    let options = options();
    silence_the_rust();
    println!("Rust sources (sha256):\n{SOURCES}");
    println!("seed {}\n", options.seed);

    let mut all = Found::default();
    for (option, run) in LEFT_OUT {
        if options.of_whole_texts() && options.alone.is_none_or(|alone| alone == option) {
            all += run(options.size());
        }
    }
    if options.alone.is_some() {
        return told(&all);
    }
    if options.only.is_none() && !options.types_only && !options.starts_only {
        if !options.long_only {
            all.add(point_comparison::run(), 0);
        }
        all += run(&options);
    }
    if options.only != Some(ItemCall::Display) {
        all += read_comparison::run(options.size());
    }
    if options.only != Some(ItemCall::Read) && !options.types_only {
        all += display_comparison::run(options.size());
    }
    told(&all);
}

/// Prints what all comparisons came to, and ends the program where that is not as it should be.
fn told(all: &Found) {
    println!("\nAll calls:");
    println!("{ON_LONG:<50} {:>12}", grouped(all.on_long));
    println!(
        "{:<50} {:>12}",
        "differences not listed",
        grouped(all.different)
    );
    if all.different + all.missing > 0 {
        exit(1);
    }
}

/// How the answers on texts of 65,536 to 1,048,575 bytes are called where they are counted.
const ON_LONG: &str = "  on texts of 65,536 to 1,048,575 bytes";

/// What a comparison came to.
#[derive(Default)]
struct Found {
    different: u64,
    /// Numbers that no answer had.
    missing: u64,
    /// Answers on texts of 65,536 to 1,048,575 bytes.
    on_long: u64,
}

impl Found {
    fn add(&mut self, different: u64, on_long: u64) {
        self.different += different;
        self.on_long += on_long;
    }
}

impl AddAssign for Found {
    fn add_assign(&mut self, other: Found) {
        self.add(other.different, other.on_long);
        self.missing += other.missing;
    }
}

/// Compares tokens and comments.
fn run(options: &Options) -> Found {
    let start = Instant::now();
    let mut found = Found::default();
    for edition in options.size().editions() {
        println!("Tokens and comments, edition {edition}:");
        let mut comparison = Comparison::new(edition, options.size().random(90));
        if !options.long_only {
            run_sets(&mut comparison, options);
        }
        run_long_sets(&mut comparison, options);
        comparison.print_summary();
        found.add(comparison.different, comparison.on_long);
    }
    println!("\n{:.1} s", start.elapsed().as_secs_f64());
    found
}

struct Options {
    quick: bool,
    seed: u64,
    /// The one edition that is compared, if not both are.
    edition: Option<u64>,
    /// The one call that is compared, if not all are.
    only: Option<ItemCall>,
    /// Whether only the sets of long texts are compared.
    long_only: bool,
    /// Whether only the sets of types are read.
    types_only: bool,
    /// Whether only the sets of offsets other than 0 are compared.
    starts_only: bool,
    /// The option of the one call of `LEFT_OUT` that is compared, if only that is.
    alone: Option<&'static str>,
}

impl Options {
    /// Whether the calls of `LEFT_OUT` are compared: in both editions, on texts of every length.
    fn of_whole_texts(&self) -> bool {
        let chosen = self.only.is_some() || self.edition.is_some();
        !chosen && !self.long_only && !self.types_only && !self.starts_only
    }

    fn size(&self) -> Size {
        Size {
            quick: self.quick,
            seed: self.seed,
            edition: self.edition,
            long_only: self.long_only,
            types_only: self.types_only,
            starts_only: self.starts_only,
        }
    }

    fn sized(&self, whole: usize, quick: usize) -> usize {
        self.size().of(whole, quick)
    }

    fn seeded(&self, set: u64) -> Random {
        Random::new(self.seed.wrapping_mul(1_000_003).wrapping_add(set))
    }
}

fn options() -> Options {
    let mut options = Options {
        quick: false,
        seed: 1,
        edition: None,
        only: None,
        long_only: false,
        types_only: false,
        starts_only: false,
        alone: None,
    };
    let mut words = env::args().skip(1);
    while let Some(word) = words.next() {
        match word.as_str() {
            "--quick" => options.quick = true,
            "--seed" => match words.next().and_then(|number| number.parse().ok()) {
                Some(seed) => options.seed = seed,
                None => bad_usage("--seed needs a number"),
            },
            "--edition" => match words.next().as_deref() {
                Some("1") => options.edition = Some(1),
                Some("2") => options.edition = Some(2),
                _ => bad_usage("--edition needs 1 or 2"),
            },
            "--reads-only" => options.only = Some(ItemCall::Read),
            "--displays-only" => options.only = Some(ItemCall::Display),
            "--long-only" => options.long_only = true,
            "--types-only" => options.types_only = true,
            "--starts-only" => options.starts_only = true,
            "--help" => {
                print!("{HELP}");
                exit(0);
            }
            _ => match LEFT_OUT.iter().find(|(option, _)| *option == word) {
                Some(_) if options.alone.is_some_and(|alone| alone != word) => bad_usage(ALONE),
                Some((option, _)) => options.alone = Some(option),
                None => bad_usage(&format!("unknown option '{word}'")),
            },
        }
    }
    if options.types_only && (options.long_only || options.only == Some(ItemCall::Display)) {
        bad_usage("--types-only reads, and reads no other sets");
    }
    if options.starts_only && (options.long_only || options.types_only) {
        bad_usage("--starts-only excludes --long-only and --types-only");
    }
    if options.alone.is_some() && !options.of_whole_texts() {
        bad_usage(ALONE);
    }
    options
}

fn bad_usage(message: &str) -> ! {
    eprintln!("compare: {message}\n\n{HELP}");
    exit(2)
}

/// The sets of texts, with how much of each a quick run takes.
fn run_sets(comparison: &mut Comparison, options: &Options) {
    let sized = |whole, quick| options.sized(whole, quick);
    let seeded = |set| options.seeded(set);

    let all_bytes: Vec<u8> = (0..=255).collect();
    comparison.set("every text up to 2 bytes, all 256 bytes", |to| {
        every_text(&all_bytes, 2, |text| to.everywhere(text))
    });
    comparison.set("each byte alone and at seven places", |to| {
        for byte in all_bytes.iter().copied() {
            for (before, behind) in texts::ROUND_A_BYTE {
                to.everywhere(&[before, &[byte], behind].concat());
            }
        }
    });
    let longest = sized(6, 5);
    let name = format!("every text up to {longest} bytes, gaps");
    comparison.set(&name, |to| {
        every_text(b"/*\r\n b\"\\\x80", longest, |text| to.everywhere(text))
    });
    let name = format!("every text up to {longest} bytes, words and marks");
    comparison.set(&name, |to| {
        every_text(b"0xu864\"\\=>", longest, |text| to.everywhere(text))
    });
    let longest = sized(8, 6);
    let name = format!("every text up to {longest} bytes, comments");
    comparison.set(&name, |to| {
        every_text(b"/*a\r\n", longest, |text| to.everywhere(text))
    });
    let longest = sized(5, 4);
    let name = format!("every text up to {longest} bytes, marks");
    comparison.set(&name, |to| {
        every_text(b"&mut |<=>:.!", longest, |text| to.everywhere(text))
    });
    let longest = sized(7, 5);
    let name = format!("every text up to {longest} bytes, numbers");
    comparison.set(&name, |to| {
        every_text(b"01x_u628\"bg ", longest, |text| {
            to.walk(&Text::new(text), false)
        })
    });
    comparison.set("Move-like texts of 0 to 64 bytes", |to| {
        let mut random = seeded(1);
        for turn in 0..sized(60_000, 1_500) {
            to.everywhere(&texts::move_like(&mut random, turn % 65, true));
        }
    });
    comparison.set("damaged copies", |to| {
        let mut random = seeded(4);
        for turn in 0..sized(60_000, 1_500) {
            let good = texts::move_like(&mut random, turn % 50, false);
            let bad = texts::damaged(&mut random, &good);
            to.everywhere(&bad);
            // A cut leaves what follows in place, just past the end of the text.
            to.everywhere(&bad[..random.below(bad.len() + 1)]);
        }
    });
    comparison.set("damaged copies of 2,000 bytes", |to| {
        let mut random = seeded(5);
        for _ in 0..sized(6_000, 100) {
            let good = texts::move_like(&mut random, 2_000, false);
            let bad = texts::damaged(&mut random, &good);
            to.along(&bad, &mut random);
        }
    });
    comparison.set("texts that are not UTF-8", |to| {
        let mut random = seeded(6);
        for turn in 0..sized(60_000, 1_500) {
            to.everywhere(&texts::not_utf8(&mut random, turn % 60));
        }
    });
}

/// The sets of long texts.
fn run_long_sets(comparison: &mut Comparison, options: &Options) {
    let sized = |whole, quick| options.sized(whole, quick);
    let seeded = |set| options.seeded(set);

    comparison.set("Move-like texts of 65,530 to 65,540 bytes", |to| {
        let mut random = seeded(2);
        for turn in 0..sized(132, 11) {
            let text = texts::move_like(&mut random, 65_530 + turn % 11, false);
            to.along(&text, &mut random);
        }
    });
    comparison.set(
        "Move-like texts of 131,072 and of about 1,048,575 bytes",
        |to| {
            let mut random = seeded(11);
            let lengths = [1_048_575, 131_072, 1_048_574, 1_048_576];
            for length in lengths.into_iter().take(sized(4, 1)) {
                let text = texts::move_like(&mut random, length, false);
                to.along(&text, &mut random);
            }
        },
    );
    comparison.set("one long thing, around each boundary", |to| {
        let mut random = seeded(3);
        let long = sized(1_048_574, 1_048_575)..=sized(1_048_577, 1_048_576);
        for length in (0..=8).chain(65_532..=65_537).chain(long) {
            for text in texts::one_long_thing(length) {
                to.along(&text, &mut random);
            }
        }
    });
    // The texts of the reads and displays.
    for (name, set, lengths, turns) in [
        (
            "items in texts of 65,534 to 131,072 bytes",
            8,
            &LONG[..],
            sized(10_000, 300),
        ),
        (
            "items in texts of about 1,048,575 bytes",
            9,
            &LONGEST[..],
            sized(800, 10),
        ),
    ] {
        let mut random = options.size().random(set);
        comparison.set(name, |to| {
            for turn in 0..turns {
                to.around(&far_item(&mut random, turn, lengths));
            }
        });
    }
}

/// Every text over the alphabet up to the given length. Behind each text stand
/// bytes that would change the answer if they were read.
fn every_text(alphabet: &[u8], longest: usize, mut visit: impl FnMut(&[u8])) {
    for length in 0..=longest {
        let mut choice = vec![0; length];
        let mut text = vec![alphabet[0]; length];
        text.extend_from_slice(b"\"*/ \n=>a8");
        loop {
            visit(&text[..length]);
            let Some(moved) = choice.iter().rposition(|at| at + 1 < alphabet.len()) else {
                break;
            };
            choice[moved] += 1;
            choice[moved + 1..].fill(0);
            for (byte, at) in text.iter_mut().zip(&choice).skip(moved) {
                *byte = alphabet[*at];
            }
        }
    }
}

/// An answer of the port that is not the expected one.
#[derive(PartialEq)]
struct Difference {
    call: Call,
    edition: u64,
    text: Vec<u8>,
    at: usize,
    expected: Expected,
    found: Answer,
}

struct Comparison {
    edition: u64,
    random: Random,
    answers: u64,
    /// Answers on texts of 65,536 to 1,048,575 bytes.
    on_long: u64,
    /// Answers to numbers that are no edition.
    of_none: u64,
    listed: [u64; Cause::ALL.len()],
    different: u64,
    shown: Vec<Difference>,
}

impl Comparison {
    fn new(edition: u64, random: Random) -> Comparison {
        Comparison {
            edition,
            random,
            answers: 0,
            on_long: 0,
            of_none: 0,
            listed: [0; Cause::ALL.len()],
            different: 0,
            shown: vec![],
        }
    }

    /// Runs one set and prints how many answers it compared.
    fn set(&mut self, name: &str, run: impl FnOnce(&mut Comparison)) {
        let (answers, different) = (self.answers, self.different);
        run(self);
        println!("{:<50} {:>12}", name, grouped(self.answers - answers));
        if self.different > different {
            println!("  DIFFERENT: {}", grouped(self.different - different));
        }
    }

    /// Both calls at each offset and past the end, and the walk. In edition 2 the same again
    /// where the text's numbers can be spelled in its way.
    fn everywhere(&mut self, bytes: &[u8]) {
        self.at_each_offset(bytes);
        if self.edition == 2 && bytes.iter().any(u8::is_ascii_digit) {
            let respelled = editions::respelled(&mut self.random, bytes, 0);
            self.at_each_offset(&respelled);
        }
    }

    fn at_each_offset(&mut self, bytes: &[u8]) {
        let text = Text::new(bytes);
        for at in 0..=bytes.len() + 1 {
            self.ask_both(&text, at);
        }
        self.walk(&text, true);
    }

    /// The walk, and both calls at some offsets, those around the end among them.
    fn along(&mut self, bytes: &[u8], random: &mut Random) {
        let mut bytes = bytes.to_vec();
        if self.edition == 2 {
            let length = bytes.len();
            bytes = editions::respelled(&mut self.random, &bytes, 0);
            bytes.truncate(length);
        }
        let text = Text::new(&bytes);
        let length = bytes.len();
        for _ in 0..50 {
            self.ask_both(&text, random.below(length + 1));
        }
        for at in [length, length + 1, 65_536, 1 << 32, usize::MAX] {
            self.ask_both(&text, at);
        }
        self.walk(&text, true);
    }

    /// Both calls at the item's offset, at its first token and at some of the bytes behind that, as long
    /// as tokens are near.
    fn around(&mut self, case: &Case) {
        let respelled = respelled(
            self.edition,
            &mut self.random,
            &Text::new(&case.text),
            case.at,
        );
        let text = Text::new(respelled.as_ref().unwrap_or(&case.text));
        let mut at = case.at;
        for _ in 0..40 {
            let token = expected_in(self.edition, Call::Token, &text, at);
            self.judge(Call::Token, &text, at, token);
            let comment = expected_in(self.edition, Call::Comment, &text, at);
            self.judge(Call::Comment, &text, at, comment);
            at = match token.answer {
                Some(Answer { result: 0, numbers }) if numbers[1] > at as u64 => {
                    numbers[1] as usize
                }
                _ => at + 1,
            };
            if at > text.bytes.len() + 1 {
                return;
            }
        }
    }

    /// Token after token, each from where the last one ended, until EOF or a refusal;
    /// the Rust goes the same way with one lexer. At each step the comment too, if asked for. Whether a
    /// line feed stands before a token is here told by line numbers, counted on the text alone.
    fn walk(&mut self, text: &Text, comments: bool) {
        if text.bytes.len() > expected::LONGEST {
            return self.ask_both(text, 0);
        }
        editions::judging(self.edition, text, 0, usize::MAX, |read| {
            self.walk_beside(text, read, comments)
        })
    }

    /// The port on the text, the Rust on the one by which it judges.
    fn walk_beside(&mut self, text: &Text, read: &Text, comments: bool) {
        let mut at = 0;
        let mut reading = Reading::new(read.for_the_rust(at), at);
        let lines = line_numbers(text.bytes);
        loop {
            if comments {
                self.judge(Call::Comment, text, at, expected::comment(read, at));
            }
            let mut token = expected::token_of(read, at, reading.advance());
            if let Some(answer) = token.answer.as_mut().filter(|answer| answer.result == 0) {
                let start = answer.numbers[1] as usize;
                answer.numbers[3] = (lines[start] != lines[at]).into();
            }
            self.judge(Call::Token, text, at, token);
            match token.answer.and_then(end_of_token) {
                Some(end) => at = end,
                None => return,
            }
            // After a panic the Rust's lexer is of no use: a new one goes on.
            if token.cause.is_some() {
                reading = Reading::new(read.for_the_rust(at), at);
            }
        }
    }

    fn ask_both(&mut self, text: &Text, at: usize) {
        for call in [Call::Token, Call::Comment] {
            self.judge(call, text, at, expected_in(self.edition, call, text, at));
        }
    }

    fn judge(&mut self, call: Call, text: &Text, at: usize, expected: Expected) {
        let found = station::ask(call, self.edition, text.bytes, at);
        self.answers += 1;
        self.on_long += u64::from(text.is_long());
        if self.edition == 1 {
            self.judge_none(call, text, at, expected);
        }
        if let Some(cause) = expected.cause {
            self.listed[cause as usize] += 1;
        }
        if expected.answer != Some(found) {
            self.differs(Difference {
                call,
                edition: self.edition,
                text: text.bytes.to_vec(),
                at,
                expected,
                found,
            });
        }
    }

    /// The same call with a number that is no edition.
    fn judge_none(&mut self, call: Call, text: &Text, at: usize, expected: Expected) {
        let edition = editions::NONE[self.answers as usize % editions::NONE.len()];
        let found = station::ask(call, edition, text.bytes, at);
        self.of_none += 1;
        let answer = editions::of_none(expected.answer);
        if found != answer {
            self.different += 1;
            if self.shown.len() < SHOWN {
                self.shown.push(Difference {
                    call,
                    edition,
                    text: text.bytes.to_vec(),
                    at,
                    expected: Expected {
                        answer: Some(answer),
                        cause: None,
                    },
                    found,
                });
            }
        }
    }

    fn differs(&mut self, difference: Difference) {
        self.different += 1;
        if self.shown.len() < SHOWN && self.different <= MADE_SMALL {
            let small = smallest(difference);
            if !self.shown.contains(&small) {
                self.shown.push(small);
            }
        }
    }

    fn print_summary(&self) {
        println!("{:<50} {:>12}", "all", grouped(self.answers));
        println!("{ON_LONG:<50} {:>12}", grouped(self.on_long));
        if self.edition == 1 {
            let count = grouped(self.of_none);
            println!(
                "{:<50} {count:>12}",
                "the same with numbers that are no edition"
            );
        }
        println!("\nOf these, decided by the specification (docs/DIFFERENCES.md), and held to it:");
        for cause in Cause::ALL {
            let count = grouped(self.listed[cause as usize]);
            println!("  {:<58} {:>12}", cause.words(), count);
        }
        println!("\ndifferences not listed: {}", grouped(self.different));
        for difference in &self.shown {
            difference.print();
        }
    }
}

/// The number of the line that each byte of the text, and its end, stands on.
fn line_numbers(text: &[u8]) -> Vec<usize> {
    let mut line = 1;
    let mut lines = vec![line];
    for &byte in text {
        line += usize::from(byte == b'\n');
        lines.push(line);
    }
    lines
}

/// Where an accepted token ends; None for EOF and refusals.
fn end_of_token(answer: Answer) -> Option<usize> {
    let [kind, _, end, ..] = answer.numbers;
    (answer.result == 0 && kind != 0).then_some(end as usize)
}

/// What must come of a call in an edition.
fn expected_in(edition: u64, call: Call, text: &Text, at: usize) -> Expected {
    editions::judging(edition, text, at, 1, |text| {
        expected::answer(call, text, at)
    })
}

/// The port's answer and the expected one, where they differ.
fn difference(call: Call, edition: u64, text: &[u8], at: usize) -> Option<Difference> {
    let expected = expected_in(edition, call, &Text::new(text), at);
    let found = station::ask(call, edition, text, at);
    (expected.answer != Some(found)).then(|| Difference {
        call,
        edition,
        text: text.to_vec(),
        at,
        expected,
        found,
    })
}

/// A difference of the smallest text that is found.
fn smallest(found: Difference) -> Difference {
    let (call, edition) = (found.call, found.edition);
    let (text, at) = shrunk(found.text.clone(), found.at, |text, at| {
        difference(call, edition, text, at).is_some()
    });
    difference(call, edition, &text, at).unwrap_or(found)
}

/// Takes bytes out of the text, long pieces first, as long as it still differs and there is time.
fn shrunk(
    mut text: Vec<u8>,
    mut at: usize,
    mut differs: impl FnMut(&[u8], usize) -> bool,
) -> (Vec<u8>, usize) {
    let begun = Instant::now();
    let mut piece = text.len();
    while piece > 0 {
        let mut start = 0;
        let mut smaller = false;
        while start + piece <= text.len() && begun.elapsed() < SHRINKING {
            let mut shorter = text.clone();
            shorter.drain(start..start + piece);
            let before = at.clamp(start, start + piece) - start;
            if differs(&shorter, at - before) {
                (text, at) = (shorter, at - before);
                smaller = true;
            } else {
                start += piece;
            }
        }
        if !smaller || piece > 1 {
            piece /= 2;
        }
    }
    (text, at)
}

impl Difference {
    fn print(&self) {
        let length = self.text.len();
        println!(
            "\n  {:?} call, edition {}, at {} of {length} bytes",
            self.call, self.edition, self.at
        );
        let cut = &self.text[..length.min(200)];
        let more = if length > cut.len() { "..." } else { "" };
        println!("    text     '{}'{more}", cut.escape_ascii());
        let hex: String = cut.iter().map(|byte| format!("{byte:02x}")).collect();
        println!("    in hex   {hex}{more}");
        match self.expected.answer {
            Some(answer) => println!("    expected {answer}"),
            None => println!("    expected nothing: the Rust panics, and no list says why"),
        }
        if let Some(cause) = self.expected.cause {
            println!("    because  {}", cause.words());
        }
        println!("    found    {}", self.found);
    }
}

/// A number with commas between its thousands.
fn grouped(number: impl ToString) -> String {
    let digits = number.to_string();
    let groups: Vec<_> = digits.as_bytes().rchunks(3).rev().collect();
    String::from_utf8_lossy(&groups.join(&b',')).into_owned()
}
