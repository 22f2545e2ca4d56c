//! Measures notes that are carried from edition 1 to edition 2, beside walks over the tokens of the same texts
//! through the token call: once in nanoseconds and once in instructions.

use crate::{
    counts::count,
    longer::{Figure, Unit},
    over, repeat,
    station::calls::{movesig_carry, movesig_next_token},
    texts, time_of, walks,
    walks::Walk,
    GROWTH, RUNS,
};
use oracle::carrying::Walks;
use std::hint::black_box;

/// The most notes that are carried.
const MOST: usize = 256;

/// What a call with so many notes may take of two pairs of walks, each in edition 1 and in edition 2.
const SPREAD: f64 = 1.3;
const ONE: f64 = 1.1;

/// What counts as no more: the walks are the same, and the list is looked through. Times move between runs.
fn no_more(unit: Unit) -> f64 {
    match unit {
        Unit::Nanoseconds => 1.1,
        Unit::Instructions => 1.01,
    }
}

/// Source, which both editions read alike, and numbers, which are two tokens in edition 1 and one in edition 2.
const ROWS: [&str; 2] = ["Move source", texts::LATER];

/// The lists that are lent; the first is the one that is lent for short texts too.
const LISTS: [(&str, fn(&[usize]) -> Vec<usize>); 5] = [
    ("one note at the end", |starts| {
        vec![starts[starts.len() - 1]]
    }),
    ("256 notes spread over it", |starts| {
        (1..=MOST)
            .map(|note| starts[note * (starts.len() - 1) / MOST])
            .collect()
    }),
    ("256 equal notes at the end", |starts| {
        vec![starts[starts.len() - 1]; MOST]
    }),
    ("257 entries, refused", |starts| {
        vec![starts[starts.len() - 1]; MOST + 1]
    }),
    ("100,000 entries, refused", |starts| {
        vec![starts[starts.len() - 1]; 100_000]
    }),
];

/// Behind the name of a list: as many bytes in texts of 1 KB.
const SHORT: &str = "1 KB, one note at the end";

/// Texts, and the list that is lent for each.
struct Carrying {
    texts: Vec<String>,
    notes: Vec<Vec<usize>>,
    lent: Vec<usize>,
}

impl Carrying {
    fn new(row: &str, list: &str) -> Carrying {
        let walk = match list {
            SHORT => Walk::short(row),
            _ => Walk::longest(row),
        };
        let found = LISTS
            .iter()
            .find(|(name, _)| SHORT.ends_with(name) && list == SHORT || *name == list);
        let (_, make) = found.unwrap_or_else(|| panic!("no list '{list}'"));
        let notes = walk.texts.iter().map(|text| make(&starts(text))).collect();
        Carrying {
            texts: walk.texts,
            notes,
            lent: vec![],
        }
    }

    fn bytes(&self) -> usize {
        self.texts.iter().map(String::len).sum()
    }

    /// Stops where the port does not answer as the walks of the Rust say.
    fn agree(&mut self) {
        for (text, notes) in self.texts.iter().zip(&self.notes) {
            let due = Walks::new(text.as_bytes()).carried(notes);
            self.lent.clone_from(notes);
            let result = carry(text, &mut self.lent);
            assert_eq!((result, &self.lent), (due.answer.result, &due.notes));
        }
    }

    /// Each list is made new before its call, by a copy of at most 256 entries: what is refused stays.
    fn once(&mut self) {
        for (text, notes) in self.texts.iter().zip(&self.notes) {
            if notes.len() <= MOST || self.lent.len() != notes.len() {
                self.lent.clone_from(notes);
            }
            carry(black_box(text), &mut self.lent);
        }
    }
}

fn carry(text: &str, notes: &mut [usize]) -> u32 {
    let mut answer = [0; 6];
    let (start, count) = (notes.as_mut_ptr(), notes.len());
    let result = unsafe { movesig_carry(text.as_ptr(), text.len(), start, count, &mut answer) };
    black_box((&answer, &notes));
    result
}

/// Where the tokens of edition 1 start, EOF's last.
fn starts(text: &str) -> Vec<usize> {
    let mut starts = vec![];
    let mut answer = [0; 6];
    loop {
        let [_, _, at, ..] = answer;
        let (start, length) = (text.as_ptr(), text.len());
        let result = unsafe { movesig_next_token(1, start, length, at as usize, &mut answer) };
        assert_eq!(result, 0, "the text is one that is walked");
        starts.push(answer[1] as usize);
        if answer[0] == 0 {
            return starts;
        }
    }
}

/// What is counted: the calls of a row, once.
pub fn once(row: &str) {
    let (row, list) = row.split_once(": ").expect("a row and a list");
    Carrying::new(row, list).once();
}

/// Prints the tables; whether something takes too much.
pub fn measure_all(unit: Unit) -> bool {
    let mut failed = false;
    for row in ROWS {
        failed |= measure(unit, row);
    }
    failed
}

fn measure(unit: Unit, row: &str) -> bool {
    let title = format!("notes carried, {row}, {}", unit.words());
    println!("\n| {title} | a byte | /two pairs of walks |");
    println!("|---|---:|---:|");
    let names: Vec<&str> = LISTS.iter().map(|(name, _)| *name).chain([SHORT]).collect();
    let (walks, figures) = figures(unit, row, &names);
    println!(
        "| two pairs of walks, by the token call | {} | |",
        walks.cell
    );
    for (name, figure) in names.iter().zip(&figures) {
        let ratio = figure.number / walks.number;
        println!("| {name} | {} | {ratio:.3} |", figure.cell);
    }
    let [one, spread, equal, few, many, short] = &figures[..] else {
        unreachable!("each list has a figure");
    };
    let told = |what: &str| format!("{title}: {what}");
    let mut failed = over(
        &told("256 notes, to the walks"),
        spread.number / walks.number,
        SPREAD,
    );
    failed |= over(
        &told("one note, to the walks"),
        one.number / walks.number,
        ONE,
    );
    failed |= over(
        &told("256 equal notes, to one"),
        equal.number / one.number,
        no_more(unit),
    );
    failed |= over(
        &told("100,000 entries, to 257"),
        many.number / few.number,
        no_more(unit),
    );
    failed |= over(
        &told("growth from 1 KB"),
        one.number / short.number - 1.0,
        GROWTH,
    );
    failed
}

/// Both walks over the longest text, in edition 1 and in edition 2, and again; and a figure for each list. The
/// runs take turns.
fn figures(unit: Unit, row: &str, names: &[&str]) -> (Figure, Vec<Figure>) {
    let walk = Walk::longest(row);
    let mut all: Vec<Carrying> = names.iter().map(|name| Carrying::new(row, name)).collect();
    all.iter_mut().for_each(Carrying::agree);
    match unit {
        Unit::Nanoseconds => {
            let mut walks = vec![];
            let mut times = vec![vec![]; all.len()];
            for _ in 0..RUNS {
                walks.push(repeat(walk.bytes(), || two_pairs(&walk)));
                for (carrying, times) in all.iter_mut().zip(&mut times) {
                    times.push(repeat(carrying.bytes(), || carrying.once()));
                }
            }
            let of = |runs| Figure::time(time_of(runs));
            (of(walks), times.into_iter().map(of).collect())
        }
        Unit::Instructions => {
            let of = |edition| count("--longest-walk", row, edition, "movesig_next_token");
            let walks = Figure::count(2 * (of(1) + of(2)), walk.bytes());
            let of = |(name, carrying): (&&str, &Carrying)| {
                let count = count("--carry", &format!("{row}: {name}"), 1, "movesig_carry");
                Figure::count(count, carrying.bytes())
            };
            (walks, names.iter().zip(&all).map(of).collect())
        }
    }
}

fn two_pairs(walk: &Walk) {
    for edition in [1, 2, 1, 2] {
        walks::by_the_port_in(edition, black_box(&walk.texts[0]));
    }
}
