//! Instructions a token and an item, counted by valgrind's callgrind: unlike times they are the
//! same on a busy machine. The port's counts in edition 1 are held to those of bench/COUNTS,
//! those in edition 2 to those in edition 1.

use crate::{
    carrying,
    longer::{self, Unit},
    opening, outlining, over,
    runs::{each_length, READ},
    starts, texts,
    walks::Walk,
    GROWTH,
};
use std::{
    collections::BTreeMap,
    env, fs,
    path::PathBuf,
    process::{Command, Stdio},
};

/// By how much a count may be over the recorded one, and one in edition 2 over one in edition 1.
const OVER: f64 = 0.03;

/// By how much a byte of numbers of edition 2 may take more than one of plain digits.
const MORE: f64 = 0.1;

/// Counts each row; whether some count is too high. Without valgrind nothing is counted.
pub fn measure_all(record: bool) -> bool {
    if !there_is_valgrind() {
        println!("\nNo valgrind: no instructions are counted.");
        return false;
    }
    let mut counts = Counts {
        recorded: recorded(),
        found: vec![],
        record,
    };
    let mut failed = of_walks(&mut counts);
    failed |= of_reads(&mut counts);
    failed |= of_numbers();
    if record {
        fs::write(file(), counts.found.concat()).expect("bench/COUNTS can be written");
    }
    failed
}

/// The same for texts of 1 MB and for wide trees, which are held to shorter ones.
pub fn measure_longer() -> bool {
    there_is_valgrind() && longer::measure_all(Unit::Instructions)
}

/// The same for reads at offsets other than 0.
pub fn measure_starts() -> bool {
    there_is_valgrind() && starts::measure_all(Unit::Instructions)
}

/// The same for notes that are carried, which are held to walks.
pub fn measure_carrying() -> bool {
    there_is_valgrind() && carrying::measure_all(Unit::Instructions)
}

/// The same for outlines, which are held to walks.
pub fn measure_outlines() -> bool {
    there_is_valgrind() && outlining::measure_all(Unit::Instructions)
}

/// The same for saved trees, which are held to reads.
pub fn measure_opening() -> bool {
    there_is_valgrind() && opening::measure_all(Unit::Instructions)
}

/// The counts in edition 1: those of bench/COUNTS, by the name of the row, and the lines of those
/// that were found, which may have to become the recorded ones.
struct Counts {
    recorded: BTreeMap<String, f64>,
    found: Vec<String>,
    record: bool,
}

impl Counts {
    /// The cells of a row's counts in both editions; whether one is too high.
    fn cells(&mut self, name: &str, first: f64, later: f64) -> (String, bool) {
        self.found.push(format!("{name}: {first:.1}\n"));
        let recorded = self.recorded.get(name);
        let cell = recorded.map_or("none".to_string(), |count| format!("{count:.1}"));
        let more = first / recorded.unwrap_or(&0.0) - 1.0;
        let mut failed = over(&format!("{name}, edition 2"), later / first - 1.0, OVER);
        failed |= !self.record && over(&format!("{name}, beside the recorded"), more, OVER);
        (format!("{first:.1} | {cell} | {later:.1}"), failed)
    }
}

/// Walks over tokens, and the lexer in C beside them.
fn of_walks(counts: &mut Counts) -> bool {
    println!("\n| text | tokens | port | recorded | edition 2 | lexer in C |");
    println!("|---|---:|---:|---:|---:|---:|");
    let mut failed = false;
    for (name, _) in texts::KINDS {
        let tokens = Walk::long(name).tokens();
        let of =
            |edition, function| count("--walk", name, edition, function) as f64 / tokens as f64;
        let [first, later] = [1, 2].map(|edition| of(edition, "movesig_next_token"));
        let anchor = of(1, "anchor_next_token");
        let (cells, high) = counts.cells(name, first, later);
        println!("| {name} | {tokens} | {cells} | {anchor:.1} |");
        failed |= high;
    }
    failed
}

/// Reads of items.
fn of_reads(counts: &mut Counts) -> bool {
    println!("\n| item | items | read | recorded | edition 2 |");
    println!("|---|---:|---:|---:|---:|");
    let mut failed = false;
    for row in each_length() {
        row.agree(READ.call);
        let (name, items) = (&row.name, row.texts.len());
        let of = |edition| count(READ.option, name, edition, READ.function) as f64 / items as f64;
        let [first, later] = [1, 2].map(of);
        let (cells, high) = counts.cells(name, first, later);
        println!("| {name} | {items} | {cells} |");
        failed |= high;
    }
    failed
}

/// Numbers of edition 2 and plain ones as long, a byte; whether the former take too many.
fn of_numbers() -> bool {
    println!("\n| numbers, edition 2 | bytes | a byte | 1 KB | growth |");
    println!("|---|---:|---:|---:|---:|");
    let rows = [texts::LATER, texts::PLAIN].map(|row| {
        let (long, short) = (Walk::long(row), Walk::short(row));
        let of = |walk: &Walk, word| {
            count(word, row, 2, "movesig_next_token") as f64 / walk.bytes() as f64
        };
        let [all, parts] = [of(&long, "--walk"), of(&short, "--short-walks")];
        let growth = all / parts - 1.0;
        println!(
            "| {row} | {} | {all:.2} | {parts:.2} | {:+.0} % |",
            long.bytes(),
            100.0 * growth
        );
        (all, growth)
    });
    let [(later, growth), (plain, _)] = rows;
    later > plain * (1.0 + MORE) || growth > GROWTH
}

fn there_is_valgrind() -> bool {
    Command::new("valgrind")
        .arg("--version")
        .stdout(Stdio::null())
        .status()
        .is_ok_and(|status| status.success())
}

fn file() -> PathBuf {
    PathBuf::from(env!("CARGO_MANIFEST_DIR")).join("COUNTS")
}

/// Instructions a token or an item, by the name of the row.
fn recorded() -> BTreeMap<String, f64> {
    let lines = fs::read_to_string(file()).unwrap_or_default();
    lines
        .lines()
        .filter_map(|line| line.split_once(": "))
        .filter_map(|(name, count)| Some((name.to_string(), count.parse().ok()?)))
        .collect()
}

/// The instructions that the row takes inside the function, done as the option says.
pub fn count(option: &str, row: &str, edition: u64, function: &str) -> u64 {
    let program = env::current_exe().expect("the program knows its file");
    let output = Command::new("valgrind")
        .args(["--tool=callgrind", "--callgrind-out-file=/dev/null"])
        .arg(format!("--toggle-collect={function}"))
        .arg(program)
        .args([option, row, "--edition", &edition.to_string()])
        .output()
        .expect("valgrind runs");
    let told = String::from_utf8_lossy(&output.stderr).to_string();
    told.lines()
        .find_map(|line| line.split_once("Collected : "))
        .and_then(|(_, count)| count.trim().parse().ok())
        .unwrap_or_else(|| panic!("valgrind counts no instructions of {function}:\n{told}"))
}
