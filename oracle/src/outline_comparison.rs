//! Compares the port's outlines with what is due by the Rust's walks (oracle/src/outlining.rs), by the sets of
//! oracle/src/outline_sets.rs. The program `compare` includes this file as a module.

use crate::{grouped, item_sets::Size, station::calls::movesig_outline, Found};
use oracle::outline_sets::Comparison;
use std::time::Instant;

/// Asks the port.
fn ask(
    edition: u64,
    text: &[u8],
    at: usize,
    limit: u64,
    pending: &mut [u64; 3],
    out: &mut [u8],
    answer: &mut [u64; 6],
) -> u32 {
    // A text of no bytes may lie anywhere: here something to read lies there.
    let place = if text.is_empty() { b"a" } else { text };
    let (room, length) = (out.len(), text.len());
    let out = out.as_mut_ptr();
    unsafe {
        movesig_outline(
            edition,
            place.as_ptr(),
            length,
            at,
            limit,
            pending,
            out,
            room,
            answer,
        )
    }
}

pub fn run(size: Size) -> Found {
    let start = Instant::now();
    println!("\nOutlines:");
    let mut comparison = Comparison::new(ask, size.random(80));
    run_sets(&mut comparison, &size);
    print_summary(&comparison);
    println!("\n{:.1} s", start.elapsed().as_secs_f64());
    Found {
        different: comparison.different,
        missing: comparison.missing(),
        on_long: comparison.on_long,
    }
}

fn run_sets(comparison: &mut Comparison, size: &Size) {
    let words = size.of(6, 4);
    let name = format!("every text up to {words} words, every limit");
    set(comparison, &name, |to| to.every_text(words));
    set(
        comparison,
        "every kind and all sorts of spans handed in",
        |to| {
            for text in [
                &b""[..],
                b"f",
                b"f g",
                b"/** a */ f;",
                b";f",
                b"{ f",
                b"fun f",
                b"1_f /// a\nf",
                b"f $",
                b"f /*",
            ] {
                to.handed_in(text, size.of(400, 10));
            }
        },
    );
    set(
        comparison,
        "texts of about 65,535 bytes, from each offset",
        |to| to.layouts(),
    );
    set(
        comparison,
        "Move-like and damaged texts of 0 to 64 bytes",
        |to| {
            for turn in 0..size.of(200_000, 4_000) {
                to.move_like(turn % 65, turn % 8 == 0, 4);
            }
        },
    );
    set(
        comparison,
        "Move-like and damaged texts of 2,000 bytes",
        |to| {
            for _ in 0..size.of(4_000, 50) {
                to.move_like(2_000, false, 6);
            }
        },
    );
    set(
        comparison,
        "Move-like and damaged texts of 65,530 to 65,540",
        |to| {
            for turn in 0..size.of(66, 4) {
                to.move_like(65_530 + turn % 11, false, 4);
            }
        },
    );
    set(
        comparison,
        "Move-like and damaged texts up to 1,048,575",
        |to| {
            for turn in 0..size.of(16, 1) {
                let less = [0, 1, 2, 300_000, 700_000][turn % 5];
                to.move_like(1_048_575 - less, false, 3);
            }
            to.wrong_calls();
        },
    );
    set(
        comparison,
        "texts divided at random, and in one call",
        |to| {
            for _ in 0..size.of(1_000_000, 20_000) {
                to.divide_some();
            }
        },
    );
}

/// Runs one set and prints how many calls it compared.
fn set(comparison: &mut Comparison, name: &str, run: impl FnOnce(&mut Comparison)) {
    let (calls, different) = (comparison.calls, comparison.different);
    run(comparison);
    println!("{:<50} {:>12}", name, grouped(comparison.calls - calls));
    if comparison.different > different {
        println!("  DIFFERENT: {}", grouped(comparison.different - different));
    }
}

fn print_summary(of: &Comparison) {
    for (number, count) in of.due.iter().enumerate() {
        if *count > 0 {
            println!("{:<50} {:>12}", format!("  due: {number}"), grouped(count));
        }
    }
    for (name, count) in [
        ("calls compared", of.calls),
        (crate::ON_LONG, of.on_long),
        ("  accepted and full", of.full),
        ("  records due", of.records),
        ("  with a comment", of.commented),
        ("  with four bytes a number", of.wide),
        ("texts divided", of.divided),
        ("  their calls", of.parts),
        ("  full ones of these", of.full_parts),
        ("differences", of.different),
    ] {
        println!("{name:<50} {:>12}", grouped(count));
    }
    for shown in &of.shown {
        println!("\n  {shown}");
    }
    if of.missing() > 0 {
        println!("MISSING: a number that never was due, or a sort of answer that never came");
    }
}
