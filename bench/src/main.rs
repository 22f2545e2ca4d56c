//! Measures the port against the Rust: a walk over the tokens of a text, reads and
//! displays, in one process, on the same texts.

mod carrying;
mod counts;
mod displays;
mod items;
mod longer;
mod opening;
mod outlining;
mod reads;
mod runs;
mod starts;
#[path = "../../oracle/src/station.rs"]
mod station;
mod texts;
mod walks;

use longer::Unit;
use oracle::SOURCES;
use runs::TASKS;
use std::{
    env,
    hint::black_box,
    process::exit,
    time::{Duration, Instant},
};
use walks::Walk;

const HELP: &str = "\
Measures a walk over all tokens of a text, by the Rust lexer, by the port and by a
small lexer in C.

usage: bench [--check] [--displays-only | --counts-only | --longer-only | --starts-only]
             [--record]
       bench [--check] --carry-only | --carry-counts | --outline-only | --outline-counts
       bench [--check] --open-only | --open-counts
       bench --walk ROW | --short-walks ROW [--edition N]
       bench --longest-walk ROW | --parts-walk ROW [--edition N]
       bench --read ROW | --wide-read ROW | --display ROW [--edition N]
       bench --read-at ROW | --walk-to ROW
       bench --carry 'ROW: LIST' | --outline ROW
       bench --open ROW | --walk-tree ROW
       bench --help

  --check          exit status 1 where the port is slower than the Rust on some text but
                   that of line feeds, or its time a byte grows by more than a fifth from
                   1 KB to 60 KB; by the fastest runs, since other work on the machine can
                   only add time
  --displays-only  no tokens and reads
  --counts-only    no times: the instructions a token and an item
  --longer-only    only what is measured at 1 MB and in the wide form, in both
  --starts-only    only reads at offsets other than 0, in both
  --carry-only     only notes that are carried, in time and in instructions
  --carry-counts   the same in instructions alone
  --outline-only   only outlines, in time and in instructions
  --outline-counts the same in instructions alone
  --open-only      only saved trees that are opened, in time and in instructions
  --open-counts    the same in instructions alone
  --record         the counts become those that later ones are held to (bench/COUNTS)
  --walk ROW       walks once over the text of 60 KB of a row, by the port in the edition
                   (1 if left out) and, in edition 1, by the lexer in C
  --short-walks ROW   the same over the texts of 1 KB, by the port alone
  --longest-walk ROW  the same over the text of 1 MB
  --parts-walk ROW    the same over as many bytes in texts of 60 KB
  --read ROW       reads each item of a row once
  --wide-read ROW  the same before 65,536 bytes
  --display ROW    displays each item of a row once
  --read-at ROW    reads the type behind the source of a row, at its offset
  --walk-to ROW    walks over that source, and reads the type from there on
  --carry ROW      carries the notes of a list over the longest text of a row once
  --outline ROW    reads the outlines of a row's texts once
  --open ROW       opens each saved tree of a row once; of items, behind their reads
  --walk-tree ROW  asks for each child of each record of the trees of a row
  --help           these words

Prints a table in nanoseconds a byte: the median of the runs and, in brackets, the
fastest. The 1 KB are sixty different texts, so that both read as many bytes.

Where valgrind is there, the instructions a token and an item are counted too: --check
fails where a count is over the recorded one by more than 3 %, where a walk or a read in
edition 2 takes more than 3 % more than in edition 1, where a byte of edition 2's numbers
takes more than a tenth more than one of plain digits, or grows by more than a fifth.

Reads of items are measured too: see bench/README.md. --check fails where the port
is slower than the Rust on types, bindings or nests, where its time a byte grows by
more than a fifth from 2 KB to 60 KB of flat list, or where 60 brackets round such a
list cost more than 60 times as much as none. Displays of the same items are measured
against reads: --check fails where one takes more than 1.1 times as long.

Walks, reads and displays are measured at 1 MB too, beside as many bytes in texts of
60 KB: --check fails where a byte takes a fifth more, where a nest of 60 levels round a list
costs more than 60 times as much as none, or where a read that writes a wide tree takes more
than 1.5 times as much as one of the same item that writes a narrow one; each in time and in
instructions. Reads behind 1 KB, 60 KB and 1,000,000 bytes of source too: --check fails where
one takes more than 1.1 times as much as a walk of token calls over that source and the read
from there on, or where a byte of the source takes a fifth more than at 1 KB.

Notes that are carried are measured beside two pairs of walks over the longest text, each in
edition 1 and in edition 2: --check fails where 256 notes take more than 1.3 times as much, one
at the end more than 1.1 times, 256 equal ones more than one or 100,000 entries more than 257
(by a tenth in time, by a hundredth in instructions), or a byte a fifth more than in texts of
1 KB.

Outlines are measured beside a walk of token calls over the same text: --check fails where one
call over 60 KB of Move source or of comments takes more than 1.2 times as much, over 60 KB of
declarations alone or over 1 MB of anything more than 2.3 times, calls of 1,000 tokens over Move
source more than 1.25 times, or a byte a fifth more at 1 MB than at 60 KB by the same calls.

Saved trees are opened beside the reads of the same items: --check fails where opening takes
more than half as long as the read, or where a record takes a fifth more than in trees of 100
records, in trees of up to 8,191 and in wide ones of a million, in time and in instructions.
";

/// Each time is taken this often, over walks that last this long.
const RUNS: usize = 15;
const RUN: Duration = Duration::from_millis(20);

/// By how much the time a byte may grow.
const GROWTH: f64 = 0.2;

fn main() {
    let options = options();
    if let Some((what, row)) = &options.once {
        return once(what, row, options.edition);
    }
    println!("Rust sources (sha256):\n\n```\n{SOURCES}```\n");
    let failed = match options.only {
        Only::Everything => {
            all_walks()
                | counts::measure_all(options.record)
                | reads::measure_all()
                | displays::measure_all()
                | longer::measure_all(Unit::Nanoseconds)
                | counts::measure_longer()
                | starts::measure_all(Unit::Nanoseconds)
                | counts::measure_starts()
                | carrying::measure_all(Unit::Nanoseconds)
                | counts::measure_carrying()
                | outlining::measure_all(Unit::Nanoseconds)
                | counts::measure_outlines()
                | opening::measure_all(Unit::Nanoseconds)
                | counts::measure_opening()
        }
        Only::Displays => displays::measure_all(),
        Only::Counts => counts::measure_all(options.record) | counts::measure_longer(),
        Only::Longer => longer::measure_all(Unit::Nanoseconds) | counts::measure_longer(),
        Only::Starts => starts::measure_all(Unit::Nanoseconds) | counts::measure_starts(),
        Only::Carry => carrying::measure_all(Unit::Nanoseconds) | counts::measure_carrying(),
        Only::CarryCounts => counts::measure_carrying(),
        Only::Outline => outlining::measure_all(Unit::Nanoseconds) | counts::measure_outlines(),
        Only::OutlineCounts => counts::measure_outlines(),
        Only::Open => opening::measure_all(Unit::Nanoseconds) | counts::measure_opening(),
        Only::OpenCounts => counts::measure_opening(),
    };
    if options.check && failed {
        eprintln!(
            "bench: the port is too slow, its time a byte grows too much, or it takes more \
             instructions than were recorded"
        );
        exit(1);
    }
}

/// What is counted: one walk, or one call for each item of a row.
fn once(what: &str, row: &str, edition: u64) {
    match what {
        "--carry" => return carrying::once(row),
        "--outline" => return outlining::once(row),
        "--open" => return opening::once(row),
        "--walk-tree" => return opening::walk_once(row),
        _ => {}
    }
    if let Some(task) = TASKS.iter().find(|task| task.option == what) {
        return (task.once)(&runs::row(row), edition);
    }
    let walk = match what {
        "--read-at" => return starts::read_once(row),
        "--walk-to" => return starts::walk_once(row),
        "--walk" => Walk::long(row),
        "--longest-walk" => Walk::longest(row),
        "--parts-walk" => Walk::parts(row),
        _ => Walk::short(row),
    };
    for text in &walk.texts {
        walks::by_the_port_in(edition, text);
    }
    if what == "--walk" && edition == 1 {
        walks::by_the_anchor(&walk.texts[0]);
    }
}

/// Whether a number is over what it may be; tells where.
fn over(what: &str, number: f64, limit: f64) -> bool {
    let over = number > limit;
    if over {
        eprintln!("bench: {what}: {number:.3}, where {limit:.3} is allowed");
    }
    over
}

/// Walks over tokens; whether the port is too slow somewhere.
fn all_walks() -> bool {
    println!(
        "| text | tokens | Rust 60 KB | port 60 KB | port/Rust | port 1 KB | growth | C 60 KB |"
    );
    println!("|---|---:|---:|---:|---:|---:|---:|---:|");
    let mut failed = false;
    for (name, _) in texts::KINDS {
        let (long, short) = (Walk::long(name), Walk::short(name));
        let tokens = long.tokens();
        short.tokens();
        let row = measure(&long.texts, &short.texts);
        println!("| {name} | {tokens} | {} |", row.cells());
        failed |= row.grows() || (name != texts::LEVEL && row.is_slower());
    }
    failed | all_numbers()
}

/// Walks over numbers of edition 2, and over plain ones as long; whether the former are too slow.
fn all_numbers() -> bool {
    println!("\n| numbers, edition 2 | port 60 KB | port 1 KB | growth |");
    println!("|---|---:|---:|---:|");
    let rows = [texts::LATER, texts::PLAIN];
    let walks = rows.map(|row| [Walk::long(row), Walk::short(row)]);
    let times = walks::times(2, walks.as_flattened());
    for (row, times) in rows.iter().zip(times.chunks(2)) {
        let growth = 100.0 * (times[0].fastest / times[1].fastest - 1.0);
        println!(
            "| {row} | {} | {} | {growth:+.0} % |",
            times[0].cell(),
            times[1].cell()
        );
    }
    let [later, short, plain, _] = times[..] else {
        unreachable!("four walks have four times");
    };
    later.fastest > 1.1 * plain.fastest || later.fastest / short.fastest - 1.0 > GROWTH
}

/// The tables that are asked for.
#[derive(Default)]
enum Only {
    #[default]
    Everything,
    Displays,
    Counts,
    Longer,
    Starts,
    Carry,
    CarryCounts,
    Outline,
    OutlineCounts,
    Open,
    OpenCounts,
}

#[derive(Default)]
struct Options {
    check: bool,
    only: Only,
    record: bool,
    /// What is done once with a row, if nothing else is done, and in which edition.
    once: Option<(String, String)>,
    edition: u64,
}

fn options() -> Options {
    let mut options = Options {
        edition: 1,
        ..Options::default()
    };
    let mut words = env::args().skip(1);
    while let Some(word) = words.next() {
        match word.as_str() {
            "--check" => options.check = true,
            "--displays-only" => options.only = Only::Displays,
            "--counts-only" => options.only = Only::Counts,
            "--longer-only" => options.only = Only::Longer,
            "--starts-only" => options.only = Only::Starts,
            "--carry-only" => options.only = Only::Carry,
            "--carry-counts" => options.only = Only::CarryCounts,
            "--outline-only" => options.only = Only::Outline,
            "--outline-counts" => options.only = Only::OutlineCounts,
            "--open-only" => options.only = Only::Open,
            "--open-counts" => options.only = Only::OpenCounts,
            "--record" => options.record = true,
            "--walk" | "--short-walks" | "--longest-walk" | "--parts-walk" | "--read"
            | "--wide-read" | "--display" | "--read-at" | "--walk-to" | "--carry" | "--outline"
            | "--open" | "--walk-tree" => match words.next() {
                Some(row) => options.once = Some((word, row)),
                None => bad_usage(),
            },
            "--edition" => match words.next().as_deref() {
                Some("1") => options.edition = 1,
                Some("2") => options.edition = 2,
                _ => bad_usage(),
            },
            "--help" => {
                print!("{HELP}");
                exit(0)
            }
            _ => bad_usage(),
        }
    }
    options
}

fn bad_usage() -> ! {
    eprintln!("bench: bad usage\n\n{HELP}");
    exit(2)
}

/// Nanoseconds a byte, of several runs.
#[derive(Clone, Copy)]
struct Time {
    median: f64,
    fastest: f64,
}

struct Row {
    rust: Time,
    port: Time,
    port_short: Time,
    anchor: Time,
}

/// The runs take turns, so that other work on the machine falls on all alike.
fn measure(long: &[String], short: &[String]) -> Row {
    let mut times = [vec![], vec![], vec![], vec![]];
    for _ in 0..RUNS {
        times[0].push(run(long, walks::by_the_rust));
        times[1].push(run(long, walks::by_the_port));
        times[2].push(run(short, walks::by_the_port));
        times[3].push(run(long, walks::by_the_anchor));
    }
    let [rust, port, port_short, anchor] = times.map(time_of);
    Row {
        rust,
        port,
        port_short,
        anchor,
    }
}

/// Walks over all the texts again and again; the time a byte.
fn run(texts: &[String], mut walk: impl FnMut(&str)) -> f64 {
    repeat(texts.iter().map(String::len).sum(), || {
        for text in texts {
            walk(black_box(text));
        }
    })
}

/// Does again and again what looks at so many bytes; the time a byte.
fn repeat(bytes: usize, mut work: impl FnMut()) -> f64 {
    let start = Instant::now();
    let mut rounds = 0;
    while start.elapsed() < RUN {
        work();
        rounds += 1;
    }
    start.elapsed().as_nanos() as f64 / (rounds * bytes) as f64
}

fn time_of(mut runs: Vec<f64>) -> Time {
    runs.sort_by(f64::total_cmp);
    Time {
        median: runs[runs.len() / 2],
        fastest: runs[0],
    }
}

impl Time {
    fn cell(self) -> String {
        format!("{:.3} ({:.3})", self.median, self.fastest)
    }
}

impl Row {
    fn growth(&self) -> f64 {
        self.port.fastest / self.port_short.fastest - 1.0
    }

    fn is_slower(&self) -> bool {
        self.port.fastest > self.rust.fastest
    }

    fn grows(&self) -> bool {
        self.growth() > GROWTH
    }

    fn cells(&self) -> String {
        format!(
            "{} | {} | {:.2} | {} | {:+.0} % | {}",
            self.rust.cell(),
            self.port.cell(),
            self.port.fastest / self.rust.fastest,
            self.port_short.cell(),
            100.0 * self.growth(),
            self.anchor.cell()
        )
    }
}
