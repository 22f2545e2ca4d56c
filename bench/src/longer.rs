//! Measures texts of 1 MB beside those of 60 KB, and wide trees beside narrow ones: walks, reads
//! and displays by the port alone, once in nanoseconds and once in instructions.

use crate::{
    counts::count,
    over,
    runs::{
        each_length, grown, long_nests, times, Items, Kind, Task, BRACKETS, DISPLAY, FLAT_LIST,
        LONGER, READ, SPREAD_LIST, WIDE_READ,
    },
    texts, walks,
    walks::Walk,
    Time, GROWTH,
};
use oracle::answer::ItemCall;

/// How many times as long a read may take that writes a wide tree.
const WIDER: f64 = 1.5;

/// What is measured, a byte.
#[derive(Clone, Copy)]
pub enum Unit {
    Nanoseconds,
    Instructions,
}

/// Prints the tables; whether something grows too much or a wide read takes too long.
pub fn measure_all(unit: Unit) -> bool {
    let mut failed = growth_of_walks(unit);
    failed |= growth(unit, "read", READ);
    failed |= growth(unit, "display", DISPLAY);
    failed |= nests(unit, "read", READ, FLAT_LIST);
    failed |= nests(unit, "display", DISPLAY, SPREAD_LIST);
    failed |= wide_reads(unit);
    failed
}

fn growth_of_walks(unit: Unit) -> bool {
    let title = format!("walk, {}", unit.words());
    println!("\n| {title} | 60 KB | 1 MB | growth |");
    println!("|---|---:|---:|---:|");
    let mut failed = false;
    for row in texts::LONGER {
        let walks = [Walk::parts(row), Walk::longest(row)];
        walks.iter().for_each(Walk::agree);
        failed |= grows(&title, row, &unit.of_walks(row, &walks));
    }
    failed
}

/// Items of 60 KB and of 1 MB. A line can be too long at 1 MB: then the refusal is measured.
fn growth(unit: Unit, name: &str, task: Task) -> bool {
    let title = format!("{name}, {}", unit.words());
    println!("\n| {title} | 60 KB | 1 MB | growth |");
    println!("|---|---:|---:|---:|");
    let mut failed = false;
    for kind in &LONGER {
        let both = grown(kind);
        both.iter().for_each(|items| items.agree(task.call));
        let figures = unit.of_items(&both.each_ref(), [task]).concat();
        let refused = task.call == ItemCall::Display && both[1].has_no_line();
        let mark = if refused { ", refused at 1 MB" } else { "" };
        failed |= grows(&title, &format!("{}{mark}", kind.0), &figures);
    }
    failed
}

/// A list of 1 MB alone, inside brackets and as an argument.
fn nests(unit: Unit, name: &str, task: Task, list: Kind) -> bool {
    let title = format!("{name} of 1 MB, {}", unit.words());
    println!("\n| {title} | | /alone |");
    println!("|---|---:|---:|");
    let all = long_nests(list);
    all.iter().for_each(|items| items.agree(task.call));
    let figures = unit.of_items(&all.each_ref(), [task]).concat();
    let mut failed = false;
    for (items, figure) in all.iter().zip(&figures) {
        let ratio = figure.number / figures[0].number;
        println!("| {} | {} | {ratio:.2} |", items.name, figure.cell);
        failed |= over(
            &format!("{title}: {}/alone", items.name),
            ratio,
            BRACKETS as f64,
        );
    }
    failed
}

/// The same items at the front of short texts, and far behind in longer ones. A deep nest's narrow tree can
/// fit the call's own buffer where its wide one does not and is read twice: nests are told, not held.
fn wide_reads(unit: Unit) -> bool {
    let title = format!("read, {}", unit.words());
    println!("\n| {title} | narrow | wide | wide/narrow |");
    println!("|---|---:|---:|---:|");
    let mut failed = false;
    for row in each_length() {
        row.agree(ItemCall::Read);
        row.agree_in_wide();
        let [narrow, wide] = &unit.of_items(&[&row], [READ, WIDE_READ])[0];
        let ratio = wide.number / narrow.number;
        let name = &row.name;
        println!("| {name} | {} | {} | {ratio:.2} |", narrow.cell, wide.cell);
        if !name.ends_with("levels") {
            failed |= over(&format!("{title}: {name}, wide/narrow"), ratio, WIDER);
        }
    }
    failed
}

/// Prints the row of two lengths; whether the second takes too much more a byte.
fn grows(title: &str, name: &str, figures: &[Figure]) -> bool {
    let [short, long] = figures else {
        unreachable!("two lengths have two figures");
    };
    let growth = long.number / short.number - 1.0;
    println!(
        "| {name} | {} | {} | {:+.0} % |",
        short.cell,
        long.cell,
        100.0 * growth
    );
    over(&format!("{title}: {name}, growth"), growth, GROWTH)
}

/// What was measured, and how a table shows it.
#[derive(Clone)]
pub struct Figure {
    pub number: f64,
    pub cell: String,
}

impl Figure {
    pub fn time(time: Time) -> Figure {
        Figure {
            number: time.fastest,
            cell: time.cell(),
        }
    }

    pub fn count(count: u64, bytes: usize) -> Figure {
        let number = count as f64 / bytes as f64;
        Figure {
            number,
            cell: format!("{number:.2}"),
        }
    }
}

impl Unit {
    pub fn words(self) -> &'static str {
        match self {
            Unit::Nanoseconds => "nanoseconds a byte",
            Unit::Instructions => "instructions a byte",
        }
    }

    /// Of the walks of a row over 60 KB and over 1 MB.
    fn of_walks(self, row: &str, walks: &[Walk; 2]) -> Vec<Figure> {
        match self {
            Unit::Nanoseconds => walks::times(1, walks)
                .into_iter()
                .map(Figure::time)
                .collect(),
            Unit::Instructions => ["--parts-walk", "--longest-walk"]
                .iter()
                .zip(walks)
                .map(|(option, walk)| {
                    let count = count(option, row, 1, "movesig_next_token");
                    Figure::count(count, walk.bytes())
                })
                .collect(),
        }
    }

    /// Of each task for each of some items.
    fn of_items<const N: usize>(self, all: &[&Items], tasks: [Task; N]) -> Vec<[Figure; N]> {
        match self {
            Unit::Nanoseconds => times(all, tasks.map(|task| task.run))
                .into_iter()
                .map(|times| times.map(Figure::time))
                .collect(),
            Unit::Instructions => all
                .iter()
                .map(|items| {
                    tasks.map(|task| {
                        let count = count(task.option, &items.name, 1, task.function);
                        Figure::count(count, items.bytes())
                    })
                })
                .collect(),
        }
    }
}
