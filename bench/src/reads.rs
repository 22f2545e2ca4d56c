//! Measures reads: the port's read call against the Rust's own functions, on the same
//! items.

use crate::{
    runs::{each_length, flat_lists, nests, times, Items, Run, BRACKETS},
    GROWTH,
};
use oracle::answer::ItemCall;

const BOTH: [Run; 2] = [Items::run_of_the_rust, Items::run_of_reads];

/// Prints the tables; whether the port is too slow somewhere.
pub fn measure_all() -> bool {
    let mut failed = against_the_rust();
    failed |= growth();
    failed |= brackets();
    failed
}

fn against_the_rust() -> bool {
    println!("\n| item | items | bytes | Rust | port | port/Rust |");
    println!("|---|---:|---:|---:|---:|---:|");
    let mut failed = false;
    for row in each_length() {
        row.agree(ItemCall::Read);
        let [rust, port] = times(&[&row], BOTH)[0];
        let ratio = port.fastest / rust.fastest;
        let (count, bytes) = (row.texts.len(), row.bytes());
        println!(
            "| {} | {count} | {bytes} | {} | {} | {ratio:.2} |",
            row.name,
            rust.cell(),
            port.cell()
        );
        failed |= ratio > 1.0;
    }
    failed
}

/// Flat lists of 2 KB and of 60 KB.
fn growth() -> bool {
    println!("\n| flat list | Rust 2 KB | Rust 60 KB | port 2 KB | port 60 KB | growth |");
    println!("|---|---:|---:|---:|---:|---:|");
    let mut failed = false;
    for (name, short, long) in flat_lists() {
        short.agree(ItemCall::Read);
        long.agree(ItemCall::Read);
        let [[rust_short, port_short], [rust_long, port_long]] = times(&[&short, &long], BOTH)[..]
        else {
            unreachable!("two rows have two times");
        };
        let growth = port_long.fastest / port_short.fastest - 1.0;
        println!(
            "| {name} | {} | {} | {} | {} | {:+.0} % |",
            rust_short.cell(),
            rust_long.cell(),
            port_short.cell(),
            port_long.cell(),
            100.0 * growth
        );
        failed |= growth > GROWTH;
    }
    failed
}

/// A flat list of 60 KB alone and inside brackets.
fn brackets() -> bool {
    println!("\n| list of 60 KB | Rust | port | port/alone |");
    println!("|---|---:|---:|---:|");
    let [alone, bracketed, _] = nests();
    let all = [&alone, &bracketed];
    all.iter().for_each(|items| items.agree(ItemCall::Read));
    let times = times(&all, BOTH);
    let [_, port_alone] = times[0];
    let mut failed = false;
    for (items, [rust, port]) in all.iter().zip(times) {
        let ratio = port.fastest / port_alone.fastest;
        println!(
            "| {} | {} | {} | {ratio:.2} |",
            items.name,
            rust.cell(),
            port.cell()
        );
        failed |= ratio > BRACKETS as f64;
    }
    failed
}
