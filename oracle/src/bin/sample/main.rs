//! Writes a fixed sample of the Rust's answers, for the program that replays it.
//!
//! One case a line, single blanks between: `t` (token) or `c` (comment), the edition, the
//! start offset, the result, the six numbers and the text; or `r` (read) or `d` (display),
//! the edition, the item kind, the start offset, the room lent, the result, the six
//! numbers, the text and the bytes that must be written: the tree or the line; or `n`
//! (notes carried from edition 1 to edition 2), the result, the six numbers, the text, how
//! many notes there are, the notes, and the list behind the call; or `o` (a saved tree
//! opened), `k` (opened, and a child of it) or `h` (a child of an opened tree), the
//! record's offset and the index, of `o` 0 and 0, the result, the six numbers, the tree
//! and the text, of `h` none. Texts and bytes are in hex (`-` where there are none). First
//! stand the points of oracle/src/points.rs; behind what the Rust answers, which is edition
//! 1, stand cases of the editions, of notes and of saved trees, and last some wrong answers,
//! so that a replay that finds none of them is seen.

mod calls;
mod items;
mod notes;
mod points;
mod saved;

use oracle::{answer::ItemCall, parsing::on_a_deep_stack, reading::silence_the_rust};
use std::collections::BTreeSet;

fn main() {
    silence_the_rust();
    let points = on_a_deep_stack(points::lines);
    points.lines().for_each(print_first);
    print_new(&points, &calls::lines());
    for call in [ItemCall::Read, ItemCall::Display] {
        print_new(&points, &on_a_deep_stack(|| items::lines(call)));
    }
    EDITIONS.iter().for_each(|line| println!("{line}"));
    print!("{}", notes::lines());
    print!("{}", saved::lines());
    for line in [WRONG_READS, WRONG_DISPLAYS, WRONG_CALLS].concat() {
        print_first(line);
    }
    print!("{}", notes::wrong_lines());
    print!("{}", saved::wrong_lines());
}

/// Prints the lines that are none of the points'.
fn print_new(points: &str, lines: &str) {
    let taken: BTreeSet<_> = points.lines().collect();
    lines
        .lines()
        .filter(|line| !taken.contains(line))
        .for_each(print_first);
}

/// Prints a line, which has the call's letter first, as one of edition 1.
fn print_first(line: &str) {
    let (call, rest) = line.split_at(1);
    println!("{call} 1{rest}");
}

fn hex(bytes: &[u8]) -> String {
    if bytes.is_empty() {
        return "-".to_string();
    }
    bytes.iter().map(|byte| format!("{byte:02x}")).collect()
}

/// What the editions tell apart, as the request has it, with the edition behind the call's
/// letter: runs and types of numbers, and that an item's later tokens are of its edition.
/// Then numbers that are no edition: 19 behind 1, 2 and 3 and before what the text says.
const EDITIONS: &[&str] = &[
    // 1_000
    "t 1 0 0 1 0 1 0 0 0 315f303030",
    "t 1 1 0 4 1 5 0 0 0 315f303030",
    "t 2 0 0 1 0 5 0 0 0 315f303030",
    // 0x_1, 0x1_, 0xf_fu32
    "t 2 0 0 1 0 1 0 0 0 30785f31",
    "t 2 1 0 4 1 4 0 0 0 30785f31",
    "t 2 0 0 1 0 4 0 0 0 3078315f",
    "t 2 0 0 2 0 8 0 0 0 3078665f66753332",
    // 1_, 1_u8, 1u16, 1u32, 1u256, 0xu16, 0xu8, 0x
    "t 2 0 0 1 0 2 0 0 0 315f",
    "t 2 0 0 2 0 4 0 0 0 315f7538",
    "t 2 0 0 2 0 4 0 0 0 31753136",
    "t 2 0 0 2 0 4 0 0 0 31753332",
    "t 2 0 0 2 0 5 0 0 0 3175323536",
    "t 2 0 0 2 0 5 0 0 0 3078753136",
    "t 2 0 0 2 0 4 0 0 0 30787538",
    "t 2 0 0 1 0 1 0 0 0 3078",
    "t 1 0 0 1 0 1 0 0 0 31753136",
    // 1u2568, 1u1 and 1u25
    "t 2 0 0 2 0 5 0 0 0 317532353638",
    "t 2 5 0 1 5 6 0 0 0 317532353638",
    "t 2 0 0 1 0 1 0 0 0 317531",
    "t 2 0 0 1 0 1 0 0 0 31753235",
    // 1_x"a"
    "t 1 3 5 3 3 3 3 0 0 315f78226122",
    "t 2 0 0 1 0 2 0 0 0 315f78226122",
    "t 2 2 0 3 2 6 0 0 0 315f78226122",
    // a doc comment
    "c 2 0 0 1 0 6 3 4 0 2f2a2a612a2f",
    // the value 1_000
    "r 1 2 0 8 0 8 4 1 5 0 0 315f303030 08001f0000000100",
    "r 2 2 0 8 0 8 0 5 5 0 0 315f303030 08001f0000000500",
    "d 2 2 0 5 0 5 0 0 0 0 0 315f303030 315f303030",
    // the names 1_0::a, 1u16::a and a::1_0
    "r 1 1 0 24 10 1 3 0 1 0 0 315f303a3a61 -",
    "r 2 1 0 24 0 24 0 6 6 0 0 315f303a3a61 180004000000060008000200000003000800010005000600",
    "d 2 1 0 6 0 6 0 0 0 0 0 315f303a3a61 315f303a3a61",
    "r 2 1 0 24 10 0 4 0 4 0 0 317531363a3a61 -",
    "r 2 1 0 24 10 3 6 3 6 0 0 613a3a315f30 -",
    // the types & 1_0::a and a<1_0::b>, the bindings (1_0::S{f})
    "d 2 3 0 8 0 8 0 0 0 0 0 2620315f303a3a61 2620315f303a3a61",
    "d 2 3 0 9 0 9 0 0 0 0 0 613c315f303a3a623e 613c315f303a3a623e",
    "d 2 4 0 15 0 15 0 0 0 0 0 28315f303a3a537b667d29 28315f303a3a53207b663a20667d29",
    // 1_0 at 1: a type in edition 1, inside a number in edition 2; behind a number of edition 2
    "r 1 3 1 16 0 16 0 3 3 0 0 315f30 10000a00010003000800030001000300",
    "r 2 3 1 16 21 1 1 1 1 0 0 315f30 -",
    "d 2 3 1 16 21 1 1 1 1 0 0 315f30 -",
    "d 2 3 3 16 0 1 0 0 0 0 0 315f302061 61",
    // b"\xe9" a at 3, and inside a token with a number that is no edition
    "r 1 3 3 16 9 2 3 2 3 0 0 6222e9222061 -",
    "r 3 3 1 16 19 0 0 0 0 0 0 616263 -",
    // editions that are none
    "t 0 0 19 0 0 0 0 0 0 24",
    "t 3 0 19 0 0 0 0 0 0 24",
    "t 18446744073709551615 0 19 0 0 0 0 0 0 61",
    "t 3 2 2 0 0 0 0 0 0 24",
    "c 3 0 19 0 0 0 0 0 0 2f2a",
    "c 0 2 2 0 0 0 0 0 0 24",
    "r 0 3 0 8 19 0 0 0 0 0 0 24 -",
    "r 3 7 0 8 3 0 0 0 0 0 0 24 -",
    "d 3 3 0 8 19 0 0 0 0 0 0 24 -",
    "d 3 3 2 8 2 0 0 0 0 0 0 24 -",
];

/// Wrong in a byte of the tree, in the kind and in the end of the token that follows, in
/// a refusal's second place, and in what is written: a byte of the tree not told, one
/// told behind it, one told of a refused read.
const WRONG_READS: &[&str] = &[
    "r 3 0 16 0 16 0 1 1 0 0 61 10000a00000001000800030000000101",
    "r 3 0 16 0 16 5 1 1 0 0 61 10000a00000001000800030000000100",
    "r 3 0 16 0 16 0 1 2 0 0 61 10000a00000001000800030000000100",
    "r 3 0 80 12 3 3 1 2 0 0 613c62 -",
    "r 3 0 16 0 16 0 1 1 0 0 61 10000a000000010008000300000001",
    "r 3 0 17 0 16 0 1 1 0 0 61 10000a0000000100080003000000010000",
    "r 3 0 80 12 3 3 1 1 0 0 613c62 00",
];

/// Wrong in the line (no arguments as `||`), in its length, in telling the token that
/// follows, in a refusal's second place, and in what is written: a byte of the line not
/// told, one told behind it, one told of a refused display; last a line with a CR in it.
const WRONG_DISPLAYS: &[&str] = &[
    "d 3 0 5 0 5 0 0 0 0 0 7c207c61 7c7c202061",
    "d 3 0 5 0 4 0 0 0 0 0 7c207c61 7c207c2061",
    "d 3 0 5 0 5 0 4 4 0 0 7c207c61 7c207c2061",
    "d 3 0 80 12 3 3 1 2 0 0 613c62 -",
    "d 3 0 5 0 5 0 0 0 0 0 7c207c61 7c207c20",
    "d 3 0 6 0 5 0 0 0 0 0 7c207c61 7c207c206100",
    "d 3 0 80 12 3 3 1 1 0 0 613c62 00",
    "d 2 0 6 0 6 0 0 0 0 0 6222610d6222 6222610d6222",
];

/// Wrong in the result, in the first and in the last number.
const WRONG_CALLS: &[&str] = &[
    "t 0 5 4 0 1 0 0 0 61",
    "t 0 0 5 0 1 0 0 0 61",
    "t 0 0 4 0 1 0 0 1 61",
    "c 0 0 1 0 0 0 0 0 61",
];
