//! Measures outlines beside walks over the tokens of the same texts through the token call, in one call and in portions:
//! once in nanoseconds and once in instructions.

use crate::{
    counts::count,
    longer::{Figure, Unit},
    over, repeat,
    station::calls::movesig_outline,
    texts, time_of, walks,
    walks::Walk,
    GROWTH, RUNS,
};
use oracle::outlining;
use std::hint::black_box;

/// How long the texts of a row are.
#[derive(Clone, Copy, PartialEq)]
enum Length {
    /// One text of 60 KB.
    Long,
    /// As many bytes as the longest has, in texts of 60 KB.
    Parts,
    /// One text of 1 MB.
    Longest,
}

/// Texts, how many tokens a call reads, and how many times a walk over their tokens it may take: the last row is told
/// and not held to any.
struct Row {
    kind: &'static str,
    length: Length,
    tokens: u64,
    allowed: f64,
}

const fn row(kind: &'static str, length: Length, tokens: u64, allowed: f64) -> Row {
    Row {
        kind,
        length,
        tokens,
        allowed,
    }
}

/// One call reads all.
const ALL: u64 = u64::MAX;

/// The portions of a station.
const SOME: u64 = 1_000;

const SOURCE: &str = "Move source";

const ROWS: [Row; 13] = [
    row(SOURCE, Length::Long, ALL, 1.2),
    row("comments", Length::Long, ALL, 1.2),
    row(texts::DENSEST.0, Length::Long, ALL, 2.3),
    row(SOURCE, Length::Longest, ALL, 2.3),
    row("comments", Length::Longest, ALL, 2.3),
    row(texts::DENSEST.0, Length::Longest, ALL, 2.3),
    row("flat list", Length::Longest, ALL, 2.3),
    row("punctuation", Length::Longest, ALL, 2.3),
    row("one long name", Length::Longest, ALL, 2.3),
    row("one comment", Length::Longest, ALL, 2.3),
    row(SOURCE, Length::Parts, SOME, 1.25),
    row(SOURCE, Length::Longest, SOME, 1.25),
    row(texts::DENSEST.0, Length::Longest, SOME, f64::INFINITY),
];

/// Of two rows, by their index, the second may take a fifth more a byte than the first: the same call on longer texts.
const GROWING: [(usize, usize); 2] = [(2, 5), (10, 11)];

impl Row {
    fn name(&self) -> String {
        let length = match self.length {
            Length::Long => "60 KB",
            Length::Parts => "17 times 60 KB",
            Length::Longest => "1 MB",
        };
        let tokens = match self.tokens {
            ALL => "one call".to_string(),
            tokens => format!("{tokens} tokens a call"),
        };
        format!("{}, {length}, {tokens}", self.kind)
    }

    fn walk(&self) -> Walk {
        match self.length {
            Length::Long => Walk::long(self.kind),
            Length::Parts => Walk::parts(self.kind),
            Length::Longest => Walk::longest(self.kind),
        }
    }

    /// The option that walks over the texts once.
    fn option(&self) -> &'static str {
        match self.length {
            Length::Long => "--walk",
            Length::Parts => "--parts-walk",
            Length::Longest => "--longest-walk",
        }
    }
}

/// Room for the records of the densest text.
fn room() -> Vec<u8> {
    vec![0; 1_048_575 / 2 * 22]
}

/// Reads the outline of a text to its end, so many tokens a call, and hands on what each call wrote.
fn read(text: &str, tokens: u64, lent: &mut [u8], mut take: impl FnMut(&[u8])) {
    let (start, length) = (text.as_ptr(), text.len());
    let (mut at, mut pending) = (0, [0; 3]);
    loop {
        let mut answer = [0; 6];
        let (out, room) = (lent.as_mut_ptr(), lent.len());
        let result = unsafe {
            movesig_outline(
                1,
                start,
                length,
                at,
                tokens,
                &mut pending,
                out,
                room,
                &mut answer,
            )
        };
        assert_eq!(result, 0, "the text was read before");
        let [full, count, written, end, ..] = answer;
        take(black_box(&lent[..written as usize]));
        if full == 0 && count < tokens {
            return;
        }
        at = end as usize;
    }
}

/// Stops where the port does not write what the walk of the Rust says.
fn agree(row: &Row, walk: &Walk, lent: &mut [u8]) {
    walk.agree();
    for text in &walk.texts {
        let due = outlining::Walk::new(1, text.as_bytes(), 0);
        let due = due.outlined(ALL, [0; 3], lent.len());
        assert_eq!(due.answer.result, 0, "{}", row.name());
        let mut written = vec![];
        read(text, row.tokens, lent, |part| {
            written.extend_from_slice(part)
        });
        assert_eq!(written, due.written, "{}", row.name());
    }
}

fn all_texts(row: &Row, walk: &Walk, lent: &mut [u8]) {
    for text in &walk.texts {
        read(black_box(text), row.tokens, lent, |_| ());
    }
}

/// What is counted: the calls of a row, once.
pub fn once(name: &str) {
    let found = ROWS.iter().find(|row| row.name() == name);
    let row = found.unwrap_or_else(|| panic!("no row '{name}'"));
    all_texts(row, &row.walk(), &mut room());
}

/// Prints the table; whether something takes too much.
pub fn measure_all(unit: Unit) -> bool {
    let title = format!("outline, {}", unit.words());
    println!("\n| {title} | outline | walk | outline/walk | allowed |");
    println!("|---|---:|---:|---:|---:|");
    let mut failed = false;
    let mut figures = vec![];
    let mut lent = room();
    for row in &ROWS {
        let walk = row.walk();
        agree(row, &walk, &mut lent);
        let [outline, tokens] = measure(unit, row, &walk, &mut lent);
        let ratio = outline.number / tokens.number;
        let (name, allowed) = (row.name(), row.allowed);
        let told = match allowed.is_finite() {
            true => allowed.to_string(),
            false => String::new(),
        };
        println!(
            "| {name} | {} | {} | {ratio:.3} | {told} |",
            outline.cell, tokens.cell
        );
        failed |= over(&format!("{title}: {name}, to the walk"), ratio, allowed);
        figures.push(outline.number);
    }
    for (short, long) in GROWING {
        let growth = figures[long] / figures[short] - 1.0;
        let told = format!("{title}: growth to {}", ROWS[long].name());
        failed |= over(&told, growth, GROWTH);
    }
    failed
}

/// The outlines of the texts, and a walk over their tokens. The runs take turns.
fn measure(unit: Unit, row: &Row, walk: &Walk, lent: &mut [u8]) -> [Figure; 2] {
    match unit {
        Unit::Nanoseconds => {
            let mut times = [vec![], vec![]];
            for _ in 0..RUNS {
                times[0].push(repeat(walk.bytes(), || all_texts(row, walk, lent)));
                times[1].push(repeat(walk.bytes(), || {
                    for text in &walk.texts {
                        walks::by_the_port(black_box(text));
                    }
                }));
            }
            times.map(|runs| Figure::time(time_of(runs)))
        }
        Unit::Instructions => {
            let outline = count("--outline", &row.name(), 1, "movesig_outline");
            let tokens = count(row.option(), row.kind, 1, "movesig_next_token");
            [outline, tokens].map(|count| Figure::count(count, walk.bytes()))
        }
    }
}
