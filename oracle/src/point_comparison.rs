//! Compares the points of oracle/src/points.rs with the Rust, and the port with them. The
//! program `compare` includes this file as a module.

use crate::{read_comparison::print_text, station, station_items};
use oracle::{
    answer::Call,
    lent::Buffer,
    parsing::on_a_deep_stack,
    points::{points, Asked, Due, Point},
};

/// Makes the call of each point and prints what came of them; how many differences were found.
pub fn run() -> u64 {
    on_a_deep_stack(|| {
        let mut buffer = Buffer::new(station_items::ask);
        let (mut from_the_rust, mut different) = (0, 0);
        let all = points();
        for point in &all {
            let due = point.due();
            from_the_rust += usize::from(due.from_the_rust);
            if !point.agrees(&due) {
                different += 1;
                print(point, "the oracle says otherwise", &format!("{due:?}"));
            }
            if let Some(found) = answered_otherwise(&mut buffer, point, &due) {
                different += 1;
                print(point, "the port answers otherwise", &found);
            }
        }
        println!("Points, with P1 to P15: {}", all.len());
        println!(
            "  answered by the Rust: {from_the_rust}; it has no answer to the others, and no lines"
        );
        println!("  differences: {different}\n");
        different
    })
}

/// What the port answers to the point's call, where it is not what the point says.
fn answered_otherwise(buffer: &mut Buffer, point: &Point, due: &Due) -> Option<String> {
    match point.asked {
        Asked::Token => {
            let found = station::ask(Call::Token, 1, &point.text, 0);
            (found != point.answer).then(|| found.to_string())
        }
        Asked::Item(call, kind, room) => buffer
            .wrong(call, (kind, 1, &point.text, 0), room, point.lent(due))
            .map(|wrong| format!("{wrong:?}")),
    }
}

fn print(point: &Point, what: &str, found: &str) {
    println!("\n  {} {:?}: {what}", point.name, point.asked);
    print_text(&point.text);
    println!("    expected {}", point.answer);
    println!("    found    {found}");
}
