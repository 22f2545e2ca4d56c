//! Measures saved trees that are opened: beside the read of the same item, and a record of trees of 100 to a million
//! records; once in nanoseconds and once in instructions.

use crate::{
    counts::count,
    longer::{Figure, Unit},
    over, repeat,
    runs::{each_length, flat_lists, nests, Items},
    station::calls::{movesig_open, movesig_opened_child},
    time_of, GROWTH, RUNS,
};
use oracle::opening::{opened, Form, Record};
use std::hint::black_box;

/// What opening may take of the time of the read of the same item.
const OF_THE_READ: f64 = 0.5;

/// So many records there are in the rows of few: as many trees as come to it.
const RECORDS: usize = 8_191;

/// Prints the tables; whether something takes too much.
pub fn measure_all(unit: Unit) -> bool {
    let mut failed = beside_reads(unit);
    failed |= a_record(unit);
    if matches!(unit, Unit::Instructions) {
        failed |= walks();
    }
    failed
}

/// Trees, and the texts that they are opened over.
struct Saved {
    trees: Vec<(Vec<u8>, Vec<u8>)>,
}

impl Saved {
    fn records(&self) -> usize {
        let records = |(tree, _): &(Vec<u8>, Vec<u8>)| tree.len() / Form::of(tree).head();
        self.trees.iter().map(records).sum()
    }

    /// Stops where a tree does not open as it does by the second opener.
    fn agree(&self) {
        for (tree, text) in &self.trees {
            let due = opened(tree, text.len()).expect("it is lawful").answer();
            let (result, numbers) = open(tree, text);
            assert_eq!((result, numbers), (due.result, due.numbers));
        }
    }

    fn open(&self) {
        for (tree, text) in &self.trees {
            let (result, numbers) = open(black_box(tree), text);
            assert_eq!(result, 0, "it was opened before");
            black_box(numbers);
        }
    }

    /// Asks for each child of each record, and for one more.
    fn walk(&self) {
        for (tree, _) in &self.trees {
            let form = Form::of(tree);
            for record in (form.first()..tree.len()).step_by(form.head()) {
                let mut index = 0;
                while opened_child(black_box(tree), record, index)[0] == 1 {
                    index += 1;
                }
            }
        }
    }
}

fn open(tree: &[u8], text: &[u8]) -> (u32, [u64; 6]) {
    let mut answer = [0; 6];
    let (start, length) = (tree.as_ptr(), tree.len());
    let result = unsafe { movesig_open(start, length, text.as_ptr(), text.len(), &mut answer) };
    (result, answer)
}

fn opened_child(tree: &[u8], record: usize, index: u64) -> [u64; 6] {
    let mut answer = [0; 6];
    let (start, length, record) = (tree.as_ptr(), tree.len(), record as u64);
    unsafe { movesig_opened_child(start, length, record, index, &mut answer) };
    answer
}

/// The rows of the tables of reads.
fn read_rows() -> Vec<Items> {
    let mut rows = each_length();
    for (name, mut short, mut long) in flat_lists() {
        short.name = format!("flat list of {name}, 2 KB");
        long.name = format!("flat list of {name}, 60 KB");
        rows.extend([short, long]);
    }
    let [mut alone, mut bracketed, _] = nests();
    alone.name = "list of 60 KB, alone".to_string();
    bracketed.name = "list of 60 KB, in 60 brackets".to_string();
    rows.extend([alone, bracketed]);
    rows
}

fn saved(items: &Items) -> Saved {
    let texts = items.texts.iter().map(|text| text.clone().into_bytes());
    Saved {
        trees: items.trees().into_iter().zip(texts).collect(),
    }
}

/// How a shape of tree is made: of so many parts, whose spans begin at the seed.
type Make = fn(usize, usize) -> Record;

/// The shapes, with how many records a part has and how many stand round them.
const SHAPES: [(&str, Make, usize, usize); 3] = [
    ("flat", flat, 2, 1),
    ("nested 64 levels", nested, 63, 1),
    ("a tuple in a tuple", tuple_in_tuple, 4, 2),
];

/// The most that a narrow span has.
const END: usize = 65_000;

fn name(at: usize) -> Record {
    let start = at % END;
    let leaf = Record::new(3, start, start + 1, vec![]);
    Record::new(10, start, start + 1, vec![leaf])
}

fn names(seed: usize, count: usize) -> Vec<Record> {
    (0..count).map(|index| name(seed + index)).collect()
}

fn flat(seed: usize, parts: usize) -> Record {
    Record::new(15, 0, END, names(seed, parts))
}

/// A tuple at level 1, references at levels 2 to 63, and units at level 64.
fn nested(seed: usize, parts: usize) -> Record {
    let nest = |index: usize| {
        let start = (seed + index) % END;
        let unit = Record::new(14, start, start + 1, vec![]);
        (0..62).fold(unit, |inner, _| {
            Record::new(11, start, start + 1, vec![inner])
        })
    };
    Record::new(15, 0, END, (0..parts).map(nest).collect())
}

fn tuple_in_tuple(seed: usize, parts: usize) -> Record {
    let inner = Record::new(15, 0, END, names(seed, parts));
    let mut children = vec![inner];
    children.extend(names(seed, parts));
    Record::new(15, 0, END, children)
}

/// Of a shape: so many records, in a form.
type Size = (usize, Form);

const SIZES: [Size; 6] = [
    (100, Form::Narrow),
    (1_000, Form::Narrow),
    (8_191, Form::Narrow),
    (100, Form::Wide),
    (8_191, Form::Wide),
    (1_000_000, Form::Wide),
];

fn row_name(shape: &str, (records, form): Size) -> String {
    format!("{shape}: {records}, {form:?}").to_lowercase()
}

/// The trees of a shape: one, or so many that there are about as many records.
fn shaped(make: Make, part: usize, round: usize, (records, form): Size) -> Saved {
    let parts = ((records - round) / part).max(2);
    let one = round + parts * part;
    let trees = (0..(RECORDS / one).max(1)).map(|seed| {
        let tree = make(7 * seed, parts).written(form);
        (tree, vec![b'a'; END])
    });
    Saved {
        trees: trees.collect(),
    }
}

/// What is counted: each tree of a row is opened once, that of an item behind its read.
pub fn once(row: &str) {
    trees_of(row).open();
}

/// What is counted: a walk over each tree of a row.
pub fn walk_once(row: &str) {
    trees_of(row).walk();
}

fn trees_of(row: &str) -> Saved {
    for (shape, make, part, round) in SHAPES {
        let size = SIZES.into_iter().find(|size| row_name(shape, *size) == row);
        if let Some(size) = size {
            return shaped(make, part, round, size);
        }
    }
    let items = read_rows().into_iter().find(|items| items.name == row);
    saved(&items.unwrap_or_else(|| panic!("no row '{row}'")))
}

/// Opening beside reading, in every row of the tables of reads. Times are held to half; instructions are told, since
/// those of a read take longer each.
fn beside_reads(unit: Unit) -> bool {
    let title = format!("open and read, {}", unit.words());
    println!("\n| {title} of the text | records | read | open | open/read |");
    println!("|---|---:|---:|---:|---:|");
    let mut failed = false;
    for items in read_rows() {
        let saved = saved(&items);
        saved.agree();
        let [read, open] = unit.of_opening(&items, &saved);
        let ratio = open.number / read.number;
        println!(
            "| {} | {} | {} | {} | {ratio:.2} |",
            items.name,
            saved.records(),
            read.cell,
            open.cell
        );
        let held = matches!(unit, Unit::Nanoseconds);
        failed |= held && over(&format!("{title}: {}", items.name), ratio, OF_THE_READ);
    }
    failed
}

impl Unit {
    /// Of the read of the items and of opening their trees, a byte of the texts. The runs take turns.
    fn of_opening(self, items: &Items, saved: &Saved) -> [Figure; 2] {
        match self {
            Unit::Nanoseconds => {
                let mut lent = items.room();
                let mut times = [vec![], vec![]];
                for _ in 0..RUNS {
                    times[0].push(items.run_of_reads(&mut lent));
                    times[1].push(repeat(items.bytes(), || saved.open()));
                }
                times.map(|runs| Figure::time(time_of(runs)))
            }
            Unit::Instructions => ["movesig_read", "movesig_open"].map(|function| {
                let count = count("--open", &items.name, 1, function);
                Figure::count(count, items.bytes())
            }),
        }
    }

    /// Of opening the trees of each size of a shape, a record.
    fn of_sizes(self, rows: &[(String, Saved)]) -> Vec<Figure> {
        match self {
            Unit::Nanoseconds => {
                let mut times = vec![vec![]; rows.len()];
                for _ in 0..TURNS {
                    for ((_, saved), times) in rows.iter().zip(&mut times) {
                        times.push(pass(saved));
                    }
                }
                let of = |runs| Figure::time(time_of(runs));
                times.into_iter().map(of).collect()
            }
            Unit::Instructions => rows
                .iter()
                .map(|(row, saved)| {
                    Figure::count(count("--open", row, 1, "movesig_open"), saved.records())
                })
                .collect(),
        }
    }

    /// What is told of a record.
    fn of_a_record(self) -> &'static str {
        match self {
            Unit::Nanoseconds => "nanoseconds a record",
            Unit::Instructions => "instructions a record",
        }
    }
}

/// Each size is opened so often, the sizes taking turns.
const TURNS: usize = 150;

/// The time a record of opening each tree once, which were opened just before. A tree of a million records is one call
/// of 8 ms, in which other work on the machine takes its turns: so it is the processor's time that is taken.
fn pass(saved: &Saved) -> f64 {
    saved.open();
    let start = processor_time();
    saved.open();
    (processor_time() - start) as f64 / saved.records() as f64
}

/// Nanoseconds that the processor worked for this thread.
fn processor_time() -> i64 {
    extern "C" {
        fn clock_gettime(clock: i32, time: *mut [i64; 2]) -> i32;
    }
    const THREAD_CPU: i32 = 3;
    let mut time = [0; 2];
    let result = unsafe { clock_gettime(THREAD_CPU, &mut time) };
    assert_eq!(result, 0, "Linux tells the processor's time");
    let [seconds, nanoseconds] = time;
    1_000_000_000 * seconds + nanoseconds
}

/// Trees of 100 to a million records: growth against those of 100 in the narrow form, and in the same form.
fn a_record(unit: Unit) -> bool {
    let title = format!("open, {}", unit.of_a_record());
    println!("\n| {title} | trees | records of each | | growth from 100 | in the same form |");
    println!("|---|---:|---:|---:|---:|---:|");
    let mut failed = false;
    for (shape, make, part, round) in SHAPES {
        let row = |size| (row_name(shape, size), shaped(make, part, round, size));
        let rows = SIZES.map(row);
        rows.iter().for_each(|(_, saved)| saved.agree());
        let (mut first, mut first_of_form) = (None, None);
        for ((size, (row, saved)), figure) in SIZES.iter().zip(&rows).zip(unit.of_sizes(&rows)) {
            if size.0 == 100 {
                first_of_form = Some(figure.number);
            }
            let of = |before: f64| figure.number / before - 1.0;
            let growth = of(*first.get_or_insert(figure.number));
            let of_form = of(first_of_form.unwrap_or(figure.number));
            let (trees, records) = (saved.trees.len(), saved.records() / saved.trees.len());
            println!(
                "| {row} | {trees} | {records} | {} | {:+.0} % | {:+.0} % |",
                figure.cell,
                100.0 * growth,
                100.0 * of_form
            );
            failed |= over(&format!("{title}: {row}, growth"), growth, GROWTH);
        }
    }
    failed
}

/// Walks by the children of opened trees, in instructions: in a nest each record has one child. In a flat tree each index
/// takes its own steps, which is told and not held to anything.
fn walks() -> bool {
    let title = "walk by opened_child, instructions a record";
    println!("\n| {title} | | growth |");
    println!("|---|---:|---:|");
    let mut failed = false;
    for (shape, make, part, round) in SHAPES {
        let mut first = None;
        for size in SIZES.into_iter().take(3) {
            let saved = shaped(make, part, round, size);
            let row = row_name(shape, size);
            let count = count("--walk-tree", &row, 1, "movesig_opened_child");
            let figure = Figure::count(count, saved.records());
            let growth = figure.number / *first.get_or_insert(figure.number) - 1.0;
            println!("| {row} | {} | {:+.0} % |", figure.cell, 100.0 * growth);
            let held = shape.starts_with("nested");
            failed |= held && over(&format!("{title}: {row}, growth"), growth, GROWTH);
        }
    }
    failed
}
