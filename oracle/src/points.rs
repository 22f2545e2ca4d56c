//! Points: calls from 0 on short texts, each with the answer that the specification gives.
//! P1 to P15 are those that are proved of the definitions (crates/roundtrip/specs/Examples.antt);
//! behind them the dense points of the grammar, where a list is blamed, where `>>` splits, each
//! edge of the levels, those of the display line and strings with unprintable bytes. Every point is held to the Rust where
//! the Rust has an answer, and the port to both.

use crate::{
    answer::{Answer, Call, ItemCall},
    displays,
    expected::{self, Text},
    line::line_of,
    reads::{self, Lent},
};

/// Room for each tree and line here; the program that replays the sample has no more.
const ENOUGH: usize = 2048;

/// The call that a point makes: of an item with its kind and the room lent.
#[derive(Clone, Copy, Debug)]
pub enum Asked {
    Token,
    Item(ItemCall, u64, usize),
}

#[derive(Clone, Debug)]
pub struct Point {
    /// P1 to P15, or nothing.
    pub name: &'static str,
    pub asked: Asked,
    pub text: Vec<u8>,
    pub answer: Answer,
    /// The tree or the line, where the point says it.
    pub written: Option<Vec<u8>>,
}

/// What must come of a point's call.
#[derive(Clone, PartialEq, Debug)]
pub struct Due {
    pub answer: Option<Answer>,
    pub written: Vec<u8>,
    /// Whether all of it is the Rust's: no line, and nothing that it has no answer to.
    pub from_the_rust: bool,
}

impl Point {
    /// What the oracle says: the Rust's answer, or, where it has none, the answer that the
    /// specification gives to what the Rust read.
    pub fn due(&self) -> Due {
        let text = Text::new(&self.text);
        match self.asked {
            Asked::Token => {
                let given = expected::answer(Call::Token, &text, 0);
                Due {
                    answer: given.answer,
                    written: vec![],
                    from_the_rust: given.cause.is_none(),
                }
            }
            Asked::Item(call, kind, room) => {
                let read = reads::expected(kind, &text, 0);
                let given = match call {
                    ItemCall::Read => read,
                    ItemCall::Display => displays::expected(&read, &text, 0, line_of),
                };
                let lent = given.within(room);
                let line = call == ItemCall::Display && !lent.written.is_empty();
                Due {
                    answer: lent.answer,
                    written: lent.written.to_vec(),
                    from_the_rust: lent.cause.is_none() && !line,
                }
            }
        }
    }

    /// Whether the point says what is due.
    pub fn agrees(&self, due: &Due) -> bool {
        let written = self.written.as_ref();
        Some(self.answer) == due.answer && written.is_none_or(|bytes| *bytes == due.written)
    }

    /// The point's own answer and bytes; where it says no bytes, those that are due.
    pub fn lent<'d>(&'d self, due: &'d Due) -> Lent<'d> {
        Lent {
            answer: Some(self.answer),
            written: self.written.as_ref().unwrap_or(&due.written),
            cause: None,
        }
    }
}

/// Whether a line feed stands before a token, the fourth number; a refusal tells of none.
const LINE_FEEDS: &[(&str, u32, [u64; 4])] = &[
    ("/*\n*/a", 0, [4, 5, 6, 1]),
    ("/*/*\n*/*/ a", 0, [4, 10, 11, 1]),
    ("//x\na", 0, [4, 4, 5, 1]),
    ("///\n a", 0, [4, 5, 6, 1]),
    ("\na", 0, [4, 1, 2, 1]),
    ("\r\na", 0, [4, 2, 3, 1]),
    ("\n", 0, [0, 1, 1, 1]),
    ("/*\r*/a", 0, [4, 5, 6, 0]),
    ("a\n", 0, [4, 0, 1, 0]),
    ("\n$", 5, [1, 1, 1, 1]),
    ("\n/*\n", 6, [1, 3, 1, 3]),
    ("\n\r", 5, [1, 1, 1, 1]),
];

pub fn points() -> Vec<Point> {
    let mut all = proved();
    for (text, result, numbers) in LINE_FEEDS {
        all.push(token("", text, *result, *numbers));
    }
    for (kind, text, result, numbers) in READS {
        all.push(read("", *kind, text, *result, *numbers));
    }
    for (kind, (count, open, inner, close), result, numbers) in NESTS {
        let text = open.repeat(*count) + inner + &close.repeat(*count);
        let room = [numbers[0] as usize, ENOUGH][usize::from(*result > 0)];
        all.push(Point {
            asked: Asked::Item(ItemCall::Read, *kind, room),
            ..read("", *kind, &text, *result, *numbers)
        });
    }
    for (kind, text, shown) in LINES {
        all.push(line("", *kind, text, shown));
    }
    for (kind, text, room, result, numbers) in ROOMS {
        all.push(Point {
            asked: Asked::Item(ItemCall::Display, *kind, *room),
            ..read("", *kind, text, *result, *numbers)
        });
    }
    all.extend(strings());
    all
}

fn answer(result: u32, [a, b, c, d]: [u64; 4]) -> Answer {
    Answer {
        result,
        numbers: [a, b, c, d, 0, 0],
    }
}

fn token(name: &'static str, text: &str, result: u32, numbers: [u64; 4]) -> Point {
    Point {
        name,
        asked: Asked::Token,
        text: text.into(),
        answer: answer(result, numbers),
        written: None,
    }
}

fn read(name: &'static str, kind: u64, text: &str, result: u32, numbers: [u64; 4]) -> Point {
    Point {
        asked: Asked::Item(ItemCall::Read, kind, ENOUGH),
        ..token(name, text, result, numbers)
    }
}

/// A display with just enough room for its line.
fn line(name: &'static str, kind: u64, text: &str, shown: &str) -> Point {
    Point {
        asked: Asked::Item(ItemCall::Display, kind, shown.len()),
        written: Some(shown.into()),
        ..token(name, text, 0, [shown.len() as u64, 0, 0, 0])
    }
}

fn proved() -> Vec<Point> {
    let tree = vec![16, 0, 10, 0, 0, 0, 2, 0, 8, 0, 3, 0, 0, 0, 2, 0];
    vec![
        token("P1", "", 0, [0, 0, 0, 0]),
        token("P2", "0xu8", 0, [2, 0, 4, 0]),
        token("P3", "0x", 0, [1, 0, 1, 0]),
        token("P4", "&mut", 0, [8, 0, 1, 0]),
        token("P5", "/**/a", 0, [4, 4, 5, 0]),
        token("P6", "/*/", 6, [0, 2, 0, 2]),
        token("P7", "/** /*", 6, [4, 6, 4, 6]),
        token("P8", "b\"a\\\"c\"", 0, [3, 0, 7, 0]),
        token("P9", "b\"a", 8, [0, 3, 0, 3]),
        Point {
            asked: Asked::Item(ItemCall::Read, 3, tree.len()),
            written: Some(tree),
            ..read("P10", 3, "u8", 0, [16, 0, 2, 2])
        },
        line("P11", 3, "|(|u8|u8)|u8", "|(|u8| u8)| u8"),
        read("P12", 3, "(u8", 12, [3, 3, 0, 0]),
        read("P13", 1, "0x1", 10, [3, 3, 0, 3]),
        line("P14", 4, "S{f}", "(S {f: f})"),
        read("P15", 3, "a<u8>=", 12, [4, 4, 1, 1]),
    ]
}

/// Reads: the item kind, the text, the result and the first four numbers; the last two are 0.
const READS: &[(u64, &str, u32, [u64; 4])] = &[
    (3, "u8", 0, [16, 0, 2, 2]),
    (3, "(,", 11, [1, 1, 1, 1]),
    (3, "||u8", 10, [0, 2, 0, 2]),
    (2, "0x1::M", 13, [0, 3, 0, 3]),
    (3, "&,", 10, [1, 2, 1, 2]),
    (3, "|a|,", 10, [3, 4, 3, 4]),
    (4, "S{f:,}", 10, [4, 5, 4, 5]),
    (3, "(a,,", 11, [3, 3, 3, 3]),
    (1, "0x1  ", 10, [5, 5, 0, 3]),
    (1, "a::", 10, [3, 3, 3, 3]),
    (1, "1u8::a", 10, [0, 3, 0, 3]),
    (4, "1{}", 10, [1, 2, 0, 1]),
    (3, "a<1>", 10, [3, 4, 2, 3]),
    (4, "S<u8>", 10, [5, 5, 5, 5]),
    (2, "1::$", 13, [0, 1, 0, 1]),
    (2, "1u8::a", 0, [8, 23, 3, 5]),
    (2, "@0x1::a", 0, [16, 23, 4, 6]),
    (2, "1 /*", 6, [2, 4, 2, 4]),
    (2, "@", 10, [1, 1, 1, 1]),
    (3, "(a b $", 12, [3, 3, 0, 0]),
    (3, "u8 $", 5, [3, 3, 3, 3]),
    (3, "a<b>>=", 0, [32, 33, 4, 6]),
    (3, "a<>>>", 0, [16, 34, 3, 5]),
    (3, "a<b<c>>=", 12, [6, 6, 1, 1]),
    (3, "a<0>>", 10, [3, 5, 2, 3]),
    (3, "|a||b|c", 12, [2, 2, 0, 0]),
    (3, "|u8,||u8", 10, [4, 6, 4, 6]),
    (5, "||", 10, [0, 2, 0, 2]),
    (3, "&&a", 10, [0, 2, 0, 2]),
    (4, "S<<", 0, [16, 27, 1, 3]),
    (3, "a<<b>", 0, [16, 27, 1, 3]),
    (3, "( u8 , )", 0, [24, 0, 8, 8]),
    (3, "((a))", 0, [32, 0, 5, 5]),
    (3, "( ( ) )", 0, [16, 0, 7, 7]),
    (3, "(a,(b))", 0, [48, 0, 7, 7]),
    (4, "((x))", 10, [1, 2, 1, 2]),
    (6, "a", 3, [0, 0, 0, 0]),
    (0, "a", 3, [0, 0, 0, 0]),
];

/// So many openers, what is in them, and as many closers.
type Nest = (usize, &'static str, &'static str, &'static str);

/// Reads around the limit of levels, told as above, with just enough room for their trees.
const NESTS: &[(u64, Nest, u32, [u64; 4])] = &[
    (3, (63, "(", "u8", ")"), 0, [520, 0, 128, 128]),
    (3, (64, "(", "u8", ")"), 14, [64, 66, 64, 66]),
    (3, (64, "(", "", ")"), 0, [512, 0, 128, 128]),
    (3, (64, "(", "", ""), 14, [64, 64, 64, 64]),
    (3, (64, "(", ",", ""), 11, [64, 64, 64, 64]),
    (3, (64, "(", "$", ""), 5, [64, 64, 64, 64]),
    (3, (64, "(", ">>", ""), 14, [64, 66, 64, 66]),
    (3, (63, "(", "", ""), 10, [63, 63, 63, 63]),
    (4, (63, "S{f:", "x", "}"), 0, [2032, 0, 316, 316]),
    (4, (64, "S{f:", "x", "}"), 14, [254, 255, 254, 255]),
    (4, (63, "S{f:", "S<u8>{}", "}"), 14, [254, 256, 254, 256]),
    (3, (63, "& ", "u8", ""), 0, [520, 0, 128, 128]),
    (3, (64, "& ", "u8", ""), 14, [128, 130, 128, 130]),
    (3, (64, "&mut ", "u8", ""), 14, [320, 322, 320, 322]),
    (3, (64, "| | ", "u8", ""), 14, [256, 258, 256, 258]),
    (3, (32, "|(", "u8", ""), 14, [64, 66, 64, 66]),
    (3, (64, "a<", "u8", ""), 14, [128, 130, 128, 130]),
    (4, (63, "S{f:", "S{f}", ""), 14, [254, 255, 254, 255]),
];

/// Displays: the item kind, the text and the line.
const LINES: &[(u64, &str, &str)] = &[
    (3, "& mut", "& mut"),
    (3, "&mut", "& mut"),
    (3, "&mut u8", "&mut u8"),
    (3, "& mut u8", "& mut"),
    (3, "(a,(b))", "(a, (b))"),
    (3, "((a))", "((a))"),
    (3, "(u8,)", "(u8)"),
    (3, "a<>", "a"),
    (3, "a<b,c<d>>", "a<b, c<d>>"),
    (3, "| |u8", "| | u8"),
    (3, "( ( ) )", "(())"),
    (3, "|((|a|b))|c", "|((|a| b))| c"),
    (3, "|(|a|b,c)|d", "|(|a| b, c)| d"),
    (1, "0x1 :: b :: c", "0x1::b::c"),
    (2, "@ 0x1", "@0x1"),
    (4, "S<>{}", "(S<> {})"),
    (4, "S{}", "(S {})"),
    (4, "S<u8,(a)>{f:x,g,}", "(S<u8, (a)> {f: x, g: g})"),
    (4, "x", "(x)"),
    (4, "()", "()"),
    (5, "| |", "| |"),
    (5, "|x,y|", "|x, y|"),
];

/// Strings with unprintable bytes, and some without: the text, the room lent, the result and the
/// first four numbers. The byte 0x80 stands for one that is no UTF-8 alone.
const STRINGS: &[(&[u8], usize, u32, [u64; 4])] = &[
    (b"b\"a\rb\"", ENOUGH, 18, [3, 4, 3, 4]),
    (b"b\"a\rb\"", 6, 18, [3, 4, 3, 4]),
    (b"b\"a\rb\"", 0, 18, [3, 4, 3, 4]),
    (b"x\"\x7f\"", ENOUGH, 18, [2, 3, 2, 3]),
    (b"b\"\\\t\"", ENOUGH, 18, [3, 4, 3, 4]),
    (b"b\"\x1f\"", ENOUGH, 18, [2, 3, 2, 3]),
    (b"b\"\0\x1b\"", ENOUGH, 18, [2, 3, 2, 3]),
    (b" /*\r*/\tb\"a\x1b\"\r\n", ENOUGH, 18, [10, 11, 10, 11]),
    (b"b\"\t\" $", ENOUGH, 5, [5, 5, 5, 5]),
    (b"b\"\t", ENOUGH, 8, [0, 3, 0, 3]),
    (b"b\"\t\x80\"", ENOUGH, 9, [3, 4, 3, 4]),
    (b"b\" ~\"", ENOUGH, 0, [5, 0, 0, 0]),
    (b"b\" ~\"", 4, 4, [0, 0, 0, 0]),
    (b"\t\r\n/*\r*/b\"\"\t", ENOUGH, 0, [3, 0, 0, 0]),
];

/// Their displays, and the read of the first.
fn strings() -> Vec<Point> {
    let shown = |(text, room, result, numbers): &(&[u8], usize, u32, [u64; 4])| Point {
        asked: Asked::Item(ItemCall::Display, 2, *room),
        text: text.to_vec(),
        ..token("", "", *result, *numbers)
    };
    let mut all: Vec<_> = STRINGS.iter().map(shown).collect();
    let tree = vec![8, 0, 35, 0, 0, 0, 6, 0];
    all.push(Point {
        asked: Asked::Item(ItemCall::Read, 2, tree.len()),
        written: Some(tree),
        ..read("", 2, "b\"a\rb\"", 0, [8, 0, 6, 6])
    });
    all
}

/// Displays: the item kind, the text, the room lent, the result and the first four numbers.
const ROOMS: &[(u64, &str, usize, u32, [u64; 4])] = &[
    (3, "u8", ENOUGH, 0, [2, 0, 0, 0]),
    (3, "u8 $", ENOUGH, 5, [3, 3, 3, 3]),
    (3, "(a,b)", 6, 0, [6, 0, 0, 0]),
    (3, "(a,b)", 5, 4, [0, 0, 0, 0]),
    (6, "a", ENOUGH, 3, [0, 0, 0, 0]),
];

#[cfg(test)]
mod tests {
    use super::*;
    use crate::parsing::on_a_deep_stack;

    #[test]
    fn each_point_is_what_the_oracle_says() {
        on_a_deep_stack(|| {
            for point in points() {
                let due = point.due();
                assert!(point.agrees(&due), "{point:?}: {due:?}");
            }
        });
    }

    #[test]
    fn none_is_lost() {
        let names: Vec<_> = points().iter().map(|point| point.name).collect();
        let proved = names.iter().filter(|name| !name.is_empty()).count();
        assert_eq!((proved, names.len() - proved), (15, 110));
    }

    #[test]
    fn another_answer_is_found() {
        on_a_deep_stack(|| {
            let wrong = [
                read("", 3, "(u8", 12, [3, 3, 0, 1]),
                read("", 3, "u8", 0, [16, 0, 2, 3]),
                line("", 3, "& mut", "&mut "),
                token("", "0x", 0, [1, 0, 2, 0]),
                line("", 2, "b\"a\rb\"", "b\"a\rb\""),
            ];
            for point in wrong {
                assert!(!point.agrees(&point.due()), "{point:?}");
            }
        });
    }
}
