//! The points: the Rust's answer where it has one, else the specification's. A point that the
//! oracle answers otherwise stops the program, so no line is the point's word alone.

use crate::hex;
use oracle::{
    answer::ItemCall,
    points::{points, Asked, Point},
};

pub fn lines() -> String {
    points().iter().map(line).collect()
}

fn line(point: &Point) -> String {
    let due = point.due();
    assert!(point.agrees(&due), "{point:?}: {due:?}");
    let answer = point.answer;
    let (text, written) = (hex(&point.text), hex(&due.written));
    match point.asked {
        Asked::Token => format!("t 0 {answer} {text}\n"),
        Asked::Item(call, kind, room) => {
            let letter = match call {
                ItemCall::Read => 'r',
                ItemCall::Display => 'd',
            };
            format!("{letter} {kind} 0 {room} {answer} {text} {written}\n")
        }
    }
}
