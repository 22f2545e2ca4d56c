//! Measures reads at offsets other than 0, which walk over the tokens before: a read of a short type behind
//! Move source beside a walk of token calls over that source and the read of the type alone, once in nanoseconds
//! and once in instructions.

use crate::{
    counts::count, items, longer::Unit, over, repeat, runs::station_items,
    station::calls::movesig_next_token, texts, time_of, Time, GROWTH, RUNS,
};
use oracle::{
    answer::{Answer, ItemCall},
    expected::Text,
    lent::Buffer,
    parsing::ItemKind,
    random::Random,
    reads::expected,
};
use std::hint::black_box;

/// The lengths of the source before the type, and of how many different texts.
const ROWS: [(&str, usize, usize); 3] = [
    ("1 KB", 1_000, 60),
    ("60 KB", 60_000, 17),
    ("1,000,000", 1_000_000, 1),
];

/// How many times as long a read may take as the walk and the read at 0.
const OVER: f64 = 1.1;

/// Room for the tree of the type.
const ROOM: usize = 2_000;

/// A text with a type behind Move source, and where the source ends, which is a token's end.
struct Behind {
    text: String,
    at: usize,
}

/// The name of a row, and its texts.
type Row = (&'static str, Vec<Behind>);

/// The texts of a row.
fn texts_of(row: &str) -> Vec<Behind> {
    let (_, length, count) = ROWS
        .into_iter()
        .find(|(name, ..)| *name == row)
        .unwrap_or_else(|| panic!("no row '{row}'"));
    let behind = |seed| {
        let mut random = Random::new(seed as u64);
        let source = texts::move_source(&mut random, length - 2) + "\n:";
        let text = format!("{source} {};", items::type_of(&mut random, 20));
        let at = source.len();
        Behind { text, at }
    };
    (0..count).map(behind).collect()
}

/// Prints the table; whether a read takes too long or grows too much.
pub fn measure_all(unit: Unit) -> bool {
    let title = unit.words();
    println!("\n| read of a type behind | {title} | walk | read at 0 | read/both | growth |");
    println!("|---|---:|---:|---:|---:|---:|");
    let mut failed = false;
    let mut first = None;
    let rows = ROWS.map(|(row, ..)| (row, texts_of(row)));
    rows.iter()
        .for_each(|(_, texts)| texts.iter().for_each(agree));
    for ((row, _), [there, walk, alone]) in rows.iter().zip(unit.of_starts(&rows)) {
        let ratio = there.number / (walk.number + alone.number);
        let walked = there.number - alone.number;
        let growth = walked / *first.get_or_insert(walked) - 1.0;
        println!(
            "| {row} | {} | {} | {} | {ratio:.2} | {:+.0} % |",
            there.cell,
            walk.cell,
            alone.cell,
            100.0 * growth
        );
        failed |= over(&format!("{title}: read behind {row}/both"), ratio, OVER);
        failed |= over(
            &format!("{title}: read behind {row}, growth"),
            growth,
            GROWTH,
        );
    }
    failed
}

/// What was measured, a byte of the source, and how the table shows it.
struct Figure {
    number: f64,
    cell: String,
}

impl Unit {
    /// Of each row: the read there, the walk to it, and the read of the text from there on.
    fn of_starts(self, rows: &[Row]) -> Vec<[Figure; 3]> {
        match self {
            Unit::Nanoseconds => times(rows)
                .into_iter()
                .map(|times| {
                    times.map(|time| Figure {
                        number: time.fastest,
                        cell: time.cell(),
                    })
                })
                .collect(),
            Unit::Instructions => rows.iter().map(counts).collect(),
        }
    }
}

fn counts((row, texts): &Row) -> [Figure; 3] {
    [
        ("--read-at", "movesig_read"),
        ("--walk-to", "movesig_next_token"),
        ("--walk-to", "movesig_read"),
    ]
    .map(|(option, function)| {
        let number = count(option, row, 1, function) as f64 / bytes(texts) as f64;
        Figure {
            number,
            cell: format!("{number:.2}"),
        }
    })
}

/// Bytes of source.
fn bytes(texts: &[Behind]) -> usize {
    texts.iter().map(|text| text.at).sum()
}

/// The runs take turns.
fn times(rows: &[Row]) -> Vec<[Time; 3]> {
    let mut times = vec![[const { vec![] }; 3]; rows.len()];
    for _ in 0..RUNS {
        for ((_, texts), times) in rows.iter().zip(&mut times) {
            for (run, times) in [read_there, walk_there, read_alone].iter().zip(times) {
                times.push(repeat(bytes(texts), || {
                    texts.iter().for_each(|text| run(black_box(text)));
                }));
            }
        }
    }
    times.into_iter().map(|of| of.map(time_of)).collect()
}

/// Reads each type of a row once, where it stands.
pub fn read_once(row: &str) {
    texts_of(row).iter().for_each(read_there);
}

/// Walks to each type of a row, and reads it from there on.
pub fn walk_once(row: &str) {
    for text in &texts_of(row) {
        walk_there(text);
        read_alone(text);
    }
}

fn read_there(Behind { text, at }: &Behind) {
    read(text.as_bytes(), *at);
}

fn read_alone(Behind { text, at }: &Behind) {
    read(&text.as_bytes()[*at..], 0);
}

fn read(text: &[u8], at: usize) {
    let (mut lent, mut answer) = ([0; ROOM], [0; 6]);
    let kind = ItemKind::Type as u64;
    let result = station_items::ask(ItemCall::Read, kind, 1, text, at, &mut lent, &mut answer);
    assert_eq!(result, 0, "the text was read before");
    black_box((&answer, &lent));
}

fn walk_there(Behind { text, at }: &Behind) {
    let mut answer = [0; 6];
    while answer[2] < *at as u64 {
        let from = answer[2] as usize;
        let result = unsafe { movesig_next_token(1, text.as_ptr(), text.len(), from, &mut answer) };
        assert_eq!(result, 0, "the text was walked before");
    }
    black_box(&answer);
}

/// Stops where the port does not read as the Rust, or the token before the type does not end where it should.
fn agree(behind: &Behind) {
    let Behind { text, at } = behind;
    let bytes = text.as_bytes();
    let kind = ItemKind::Type as u64;
    let due = expected(kind, &Text::new(bytes), *at);
    let answer = due.answer.expect("the Rust answers");
    assert_eq!((answer.result, due.cause), (0, None), "{text:.60}");
    let mut buffer = Buffer::new(station_items::ask);
    let wrong = buffer.wrong(
        ItemCall::Read,
        (kind, 1, bytes, *at),
        ROOM,
        due.within(ROOM),
    );
    assert!(wrong.is_none(), "{wrong:?}");
    let part = expected(kind, &Text::new(&bytes[*at..]), 0);
    let [length, token, start, end, ..] = part.answer.expect("the Rust answers").numbers;
    let [start, end] = [start, end].map(|place| *at + place as usize);
    let whole = answer.numbers[0];
    assert_eq!(answer, Answer::read(whole as usize, token, start, end));
    assert!(length <= whole);
}
