//! Measures displays: the port's display call against its read call, on the same items,
//! with the Rust's reading of them beside it.

use crate::{
    runs::{each_length, flat_lists, nests, strings, times, Items, Run, BRACKETS},
    GROWTH,
};
use oracle::answer::ItemCall;

/// How much longer than a read a display may take.
const LONGER: f64 = 1.1;

/// The same for a string, each byte of which is looked at once more.
const LONGER_FOR_A_STRING: f64 = 1.5;

const ALL: [Run; 3] = [
    Items::run_of_the_rust,
    Items::run_of_reads,
    Items::run_of_displays,
];

/// Prints the tables; whether displays are too slow somewhere.
pub fn measure_all() -> bool {
    let mut failed = against_reads();
    failed |= growth();
    failed |= in_nests();
    failed |= of_strings();
    failed
}

fn against_reads() -> bool {
    println!("\n| item | items | bytes | Rust reads | port reads | port displays | display/read |");
    println!("|---|---:|---:|---:|---:|---:|---:|");
    let mut failed = false;
    for row in each_length() {
        row.agree(ItemCall::Display);
        let [rust, read, display] = times(&[&row], ALL)[0];
        let ratio = display.fastest / read.fastest;
        println!(
            "| {} | {} | {} | {} | {} | {} | {ratio:.2} |",
            row.name,
            row.texts.len(),
            row.bytes(),
            rust.cell(),
            read.cell(),
            display.cell()
        );
        failed |= ratio > LONGER;
    }
    failed
}

/// Flat lists of 2 KB and of 60 KB.
fn growth() -> bool {
    println!("\n| flat list | display 2 KB | display 60 KB | growth | display/read at 60 KB |");
    println!("|---|---:|---:|---:|---:|");
    let mut failed = false;
    for (name, short, long) in flat_lists() {
        short.agree(ItemCall::Display);
        long.agree(ItemCall::Display);
        let two = [Items::run_of_reads as Run, Items::run_of_displays];
        let [[_, short], [read, long]] = times(&[&short, &long], two)[..] else {
            unreachable!("two rows have two times");
        };
        let growth = long.fastest / short.fastest - 1.0;
        let ratio = long.fastest / read.fastest;
        println!(
            "| {name} | {} | {} | {:+.0} % | {ratio:.2} |",
            short.cell(),
            long.cell(),
            100.0 * growth
        );
        failed |= growth > GROWTH || ratio > LONGER;
    }
    failed
}

/// Strings of 20, 200 and 60,000 bytes.
fn of_strings() -> bool {
    println!("\n| string | items | bytes | port reads | port displays | display/read |");
    println!("|---|---:|---:|---:|---:|---:|");
    let mut failed = false;
    for row in strings() {
        row.agree(ItemCall::Display);
        let two = [Items::run_of_reads as Run, Items::run_of_displays];
        let [read, display] = times(&[&row], two)[0];
        let ratio = display.fastest / read.fastest;
        println!(
            "| {} | {} | {} | {} | {} | {ratio:.2} |",
            row.name,
            row.texts.len(),
            row.bytes(),
            read.cell(),
            display.cell()
        );
        failed |= ratio > LONGER_FOR_A_STRING;
    }
    failed
}

/// A flat list of 60 KB alone, inside brackets, and as the argument of a function type
/// that is the argument of another, and so on: both need brackets to be left out or
/// shown only when what they hold is known.
fn in_nests() -> bool {
    println!("\n| list of 60 KB | Rust reads | port reads | port displays | display/alone |");
    println!("|---|---:|---:|---:|---:|");
    let all = nests();
    all.iter().for_each(|items| items.agree(ItemCall::Display));
    let times = times(&all.each_ref(), ALL);
    let [_, _, alone] = times[0];
    let mut failed = false;
    for (items, [rust, read, display]) in all.iter().zip(times) {
        let ratio = display.fastest / alone.fastest;
        println!(
            "| {} | {} | {} | {} | {ratio:.2} |",
            items.name,
            rust.cell(),
            read.cell(),
            display.cell()
        );
        failed |= ratio > BRACKETS as f64;
    }
    failed
}
