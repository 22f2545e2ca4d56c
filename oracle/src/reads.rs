//! What a read must answer and leave in the buffer: the Rust's tree or refusal or,
//! where docs/DIFFERENCES.md lists that the specification departs from it, the answer of
//! the specification. What a display must is told in the same form (displays.rs).

use crate::{
    answer::Answer,
    editions,
    expected::{self, Text, LONGEST},
    levels::strike,
    parsing::{parse, Item, ItemKind, Parse},
    reading::{Outcome, Reading},
    starts::Beginning,
};

/// The longest line that is not refused.
pub const LONGEST_LINE: usize = 65_535;

/// Why the specification, and not the Rust, decides a read or a display.
#[derive(Clone, Copy, PartialEq, Eq, Debug)]
pub enum Cause {
    TextTooLong,
    StartPastEnd,
    UnknownKind,
    NothingStarts,
    RefusedBefore,
    EmptyBlock,
    HighByteInString,
    LastCarriageReturn,
    TooManyLevels,
    UnprintableLine,
    LineTooLong,
    RoomTooSmall,
}

impl Cause {
    pub const ALL: [Cause; 12] = [
        Cause::TextTooLong,
        Cause::StartPastEnd,
        Cause::UnknownKind,
        Cause::NothingStarts,
        Cause::RefusedBefore,
        Cause::EmptyBlock,
        Cause::HighByteInString,
        Cause::LastCarriageReturn,
        Cause::TooManyLevels,
        Cause::UnprintableLine,
        Cause::LineTooLong,
        Cause::RoomTooSmall,
    ];

    pub fn words(self) -> &'static str {
        match self {
            Cause::TextTooLong => expected::Cause::TextTooLong.words(),
            Cause::StartPastEnd => expected::Cause::StartPastEnd.words(),
            Cause::UnknownKind => "item kind not 1 to 5 (refusal 3; the Rust cannot be asked)",
            Cause::NothingStarts => "an offset at which nothing starts (here refusal 21)",
            Cause::RefusedBefore => "refused in the walk from 0 to the offset (5 to 9)",
            Cause::EmptyBlock => expected::Cause::EmptyBlock.words(),
            Cause::HighByteInString => expected::Cause::HighByteInString.words(),
            Cause::LastCarriageReturn => expected::Cause::LastCarriageReturn.words(),
            Cause::TooManyLevels => "more than 64 levels (here refusal 14)",
            Cause::UnprintableLine => "a byte under 32 or 127 in a displayed string (refusal 18)",
            Cause::LineTooLong => "line over 65,535 bytes (here refusal 4)",
            Cause::RoomTooSmall => "tree or line longer than the room lent (here refusal 4)",
        }
    }
}

/// What must come of a read or a display.
#[derive(Clone, PartialEq, Debug)]
pub struct Expected {
    /// None where the Rust panicked and no listed difference explains it.
    pub answer: Option<Answer>,
    /// The tree or line that the buffer must start with; all other bytes stay.
    pub written: Vec<u8>,
    /// How long that may be, whatever the room.
    pub longest: usize,
    /// The Rust's own tree of what is accepted.
    pub item: Option<Item>,
    pub cause: Option<Cause>,
}

/// What must come of a read with room enough.
pub fn expected(kind: u64, text: &Text, at: usize) -> Expected {
    if text.bytes.len() > LONGEST {
        return by_document_01(Cause::TextTooLong, Answer::refused(1, 0, 0));
    }
    if at > text.bytes.len() {
        return by_document_01(Cause::StartPastEnd, Answer::refused(2, 0, 0));
    }
    let Some(kind) = ItemKind::numbered(kind) else {
        return by_document_01(Cause::UnknownKind, Answer::refused(3, 0, 0));
    };
    match text.beginning(at) {
        Beginning::Allowed => of_an_item(kind, text, at),
        Beginning::Nowhere => by_document_01(Cause::NothingStarts, Answer::refused(21, at, at)),
        Beginning::Refused(answer) => by_document_01(Cause::RefusedBefore, answer),
    }
}

/// The same in an edition. The text is judged from 0 on, since the walk to the offset is of that edition too.
pub fn expected_in(edition: u64, kind: u64, text: &Text, at: usize) -> Expected {
    editions::judging(edition, text, 0, usize::MAX, |text| {
        expected(kind, text, at)
    })
}

/// The same with a buffer lent.
#[derive(Clone, Copy, PartialEq, Eq, Debug)]
pub struct Lent<'e> {
    pub answer: Option<Answer>,
    pub written: &'e [u8],
    pub cause: Option<Cause>,
}

impl Expected {
    pub fn within(&self, room: usize) -> Lent<'_> {
        match self.limit(room) {
            Some(cause) => Lent {
                answer: Some(Answer::refused(4, 0, 0)),
                written: &[],
                cause: Some(cause),
            },
            None => Lent {
                answer: self.answer,
                written: &self.written,
                cause: self.cause,
            },
        }
    }

    /// Why the tree or line is too long, if it is.
    fn limit(&self, room: usize) -> Option<Cause> {
        if self.written.len() > self.longest {
            Some(Cause::LineTooLong)
        } else if self.written.len() > room {
            Some(Cause::RoomTooSmall)
        } else {
            None
        }
    }
}

fn by_document_01(cause: Cause, answer: Answer) -> Expected {
    Expected {
        answer: Some(answer),
        written: vec![],
        longest: usize::MAX,
        item: None,
        cause: Some(cause),
    }
}

fn of_an_item(kind: ItemKind, text: &Text, at: usize) -> Expected {
    let parse = parse(kind, text.for_the_rust(at), at);
    if parse.answer.is_none() {
        if let Some(blanked) = without_empty_blocks(text, at) {
            let again = of_an_item(kind, &Text::new(&blanked), at);
            let cause = again.cause.or(Some(Cause::EmptyBlock));
            return Expected { cause, ..again };
        }
    }
    let too_deep = strike(kind, text.for_the_rust(at), at);
    let reached = too_deep.map_or(parse.reached, |(start, _)| start);
    if let Some(high) = high_byte_in_a_string(text, at, reached) {
        let refusal = Answer::refused(9, high, high + 1);
        return by_document_01(Cause::HighByteInString, refusal);
    }
    match too_deep {
        Some(span) => {
            refused_no_earlier(&parse, span, text);
            by_document_01(Cause::TooManyLevels, Answer::refused(14, span.0, span.1))
        }
        None => of_the_rust(parse, text),
    }
}

/// The Rust's own answer; the end of the text's last line is the specification's.
fn of_the_rust(parse: Parse, text: &Text) -> Expected {
    if let Some(Answer { result, numbers }) = parse.answer {
        let [start, end, ..] = numbers.map(|number| number as usize);
        if let Some(whole) = expected::whole_last_line(text, result, start, end) {
            return by_document_01(Cause::LastCarriageReturn, whole);
        }
    }
    Expected {
        answer: parse.answer,
        written: parse.tree,
        longest: usize::MAX,
        item: parse.item,
        cause: None,
    }
}

/// The count of levels is the oracle's own. Where it strikes, the Rust must have
/// come as far.
fn refused_no_earlier(parse: &Parse, (start, _): (usize, usize), text: &Text) {
    if let Some(answer) = parse.answer {
        assert!(
            answer.result == 0 || answer.numbers[0] >= start as u64,
            "the walk over the levels went past a refusal ({answer}) to {start}: '{}'",
            text.bytes.escape_ascii()
        );
    }
}

/// A copy with four tabs in place of each top-level `/**/` from `at` on, on which the
/// Rust panics; None where there is none. (A space would make `&mut` before it one
/// token with it.)
pub fn without_empty_blocks(text: &Text, at: usize) -> Option<Vec<u8>> {
    let mut copy = text.bytes.to_vec();
    let mut gap = at;
    let mut found = false;
    loop {
        for block in expected::empty_blocks(text.bytes, gap) {
            copy[block..block + 4].fill(b'\t');
            gap = block + 4;
            found = true;
        }
        match Reading::new(&text.in_ascii()[gap..], gap).advance() {
            Outcome::Token { kind, end, .. } if kind != 0 => gap = end,
            _ => return found.then_some(copy),
        }
    }
}

/// The first byte of 128 or more in a closed string, among the tokens from `at` on
/// that start no later than `reached`.
fn high_byte_in_a_string(text: &Text, at: usize, reached: usize) -> Option<usize> {
    if text.bytes.is_ascii() {
        return None;
    }
    let mut reading = Reading::new(&text.in_ascii()[at..], at);
    loop {
        match reading.advance() {
            Outcome::Token { kind, start, .. } if kind != 0 && start <= reached => {
                if let Some(high) = expected::high_byte_in_token(text, kind, start) {
                    return Some(high);
                }
            }
            _ => return None,
        }
    }
}

#[cfg(test)]
mod tests {
    use super::*;
    use crate::parsing::on_a_deep_stack;

    const NAME: u64 = 1;
    const VALUE: u64 = 2;
    const TYPE: u64 = 3;
    const BINDS: u64 = 4;
    const LAMBDA: u64 = 5;

    fn read(kind: u64, text: &str) -> Expected {
        expected(kind, &Text::new(text.as_bytes()), 0)
    }

    fn refused(kind: u64, text: &str, number: u32, place: (usize, usize)) {
        refused_at_two(kind, text, number, place, place);
    }

    fn refused_at_two(
        kind: u64,
        text: &str,
        number: u32,
        place: (usize, usize),
        second: (usize, usize),
    ) {
        let answer = Answer::refused_at_two(number, place, second);
        assert_eq!(read(kind, text).answer, Some(answer), "'{text}'");
    }

    /// Each record of the tree as kind, start, end; then the token that follows.
    fn accepted(kind: u64, text: &str, records: &[[u16; 3]], next: [u64; 3]) {
        let given = read(kind, text);
        let words: Vec<u16> = given
            .written
            .chunks(2)
            .map(|pair| u16::from_le_bytes([pair[0], pair[1]]))
            .collect();
        let found: Vec<_> = words.chunks(4).map(|word| &word[1..]).collect();
        assert_eq!(found, records, "'{text}'");
        let [token, start, end] = next;
        let length = 8 * records.len();
        let answer = Answer::read(length, token, start as usize, end as usize);
        assert_eq!(given.answer, Some(answer), "'{text}'");
    }

    #[test]
    fn the_examples_of_document_01() {
        let tree = [16, 0, 10, 0, 0, 0, 2, 0, 8, 0, 3, 0, 0, 0, 2, 0];
        assert_eq!(read(TYPE, "u8").written, tree);
        refused_at_two(TYPE, "(u8", 12, (3, 3), (0, 0));
        refused_at_two(NAME, "0x1", 10, (3, 3), (0, 3));
        refused_at_two(TYPE, "a<u8>=", 12, (4, 4), (1, 1));
        refused(TYPE, "(,", 11, (1, 1));
        refused(TYPE, "||u8", 10, (0, 2));
        refused(VALUE, "0x1::M", 13, (0, 3));
        let brackets = |count, inner| format!("{}{inner}{}", "(".repeat(count), ")".repeat(count));
        assert_eq!(read(TYPE, &brackets(63, "u8")).answer.unwrap().result, 0);
        refused(TYPE, &brackets(64, "u8"), 14, (64, 66));
        assert_eq!(read(TYPE, &brackets(64, "")).answer.unwrap().result, 0);
    }

    #[test]
    fn levels() {
        let openers = |count, inner: &str| "(".repeat(count) + inner;
        refused(TYPE, &openers(64, ""), 14, (64, 64));
        refused(TYPE, &openers(64, ","), 11, (64, 64));
        refused(TYPE, &openers(64, "$"), 5, (64, 64));
        refused(TYPE, &openers(64, ">>"), 14, (64, 66));
        refused(TYPE, &openers(63, ""), 10, (63, 63));
        refused(TYPE, &openers(64, "b\"\u{e9}\""), 9, (66, 67));
        refused(TYPE, &openers(64, "a b\"\u{e9}\""), 14, (64, 65));
        refused(TYPE, &openers(64, "/**/a"), 14, (68, 69));
        refused(
            TYPE,
            &("&".to_string() + &" &".repeat(63) + " ,"),
            14,
            (128, 129),
        );
        refused(TYPE, &("| | ".repeat(64) + ")"), 14, (256, 257));
        refused(TYPE, &("|a| ".repeat(64) + ")"), 14, (253, 254));
        let structs =
            |count, inner| format!("{}{inner}{}", "S{f:".repeat(count), "}".repeat(count));
        assert_eq!(read(BINDS, &structs(63, "x")).answer.unwrap().result, 0);
        refused(BINDS, &structs(64, "x"), 14, (254, 255));
        refused(BINDS, &structs(63, "S{f}"), 14, (254, 255));
        refused(BINDS, &structs(63, "S<u8>{}"), 14, (254, 256));
        assert_eq!(read(BINDS, &structs(63, "S<>{}")).answer.unwrap().result, 0);
        assert_eq!(read(LAMBDA, &format!("|{}|", structs(63, "x"))).cause, None);
        on_a_deep_stack(|| refused(TYPE, &openers(65_535, ""), 14, (64, 65)));
    }

    #[test]
    fn refusals() {
        refused(TYPE, "&,", 10, (1, 2));
        refused(TYPE, "|a|,", 10, (3, 4));
        refused(BINDS, "S{f:,}", 10, (4, 5));
        refused(TYPE, "(a,,", 11, (3, 3));
        refused_at_two(NAME, "0x1  ", 10, (5, 5), (0, 3));
        refused(NAME, "a::", 10, (3, 3));
        refused(NAME, "1u8::a", 10, (0, 3));
        refused_at_two(BINDS, "1{}", 10, (1, 2), (0, 1));
        refused_at_two(TYPE, "a<1>", 10, (3, 4), (2, 3));
        refused(BINDS, "S<u8>", 10, (5, 5));
        refused(VALUE, "1::$", 13, (0, 1));
        refused(VALUE, "1 /*", 6, (2, 4));
        refused(VALUE, "@", 10, (1, 1));
        refused_at_two(TYPE, "(a b $", 12, (3, 3), (0, 0));
        refused(TYPE, "u8 $", 5, (3, 3));
        refused_at_two(TYPE, "a<b<c>>=", 12, (6, 6), (1, 1));
        refused_at_two(TYPE, "a<0>>", 10, (3, 5), (2, 3));
        refused_at_two(TYPE, "|a||b|c", 12, (2, 2), (0, 0));
        refused(TYPE, "|u8,||u8", 10, (4, 6));
        refused(LAMBDA, "||", 10, (0, 2));
        refused(TYPE, "&&a", 10, (0, 2));
        refused(BINDS, "((x))", 10, (1, 2));
    }

    #[test]
    fn trees() {
        let name = |start, end| [[10, start, end], [3, start, end]];
        accepted(VALUE, "1u8::a", &[[31, 0, 3]], [23, 3, 5]);
        accepted(VALUE, "@0x1::a", &[[30, 0, 4], [2, 1, 4]], [23, 4, 6]);
        accepted(VALUE, "x\"0\"", &[[34, 0, 4]], [0, 4, 4]);
        accepted(TYPE, "a<>>>", &[[10, 0, 3], [3, 0, 1]], [34, 3, 5]);
        let one = [[16, 0, 8], [10, 2, 4], [3, 2, 4]];
        accepted(TYPE, "( u8 , )", &one, [0, 8, 8]);
        let twice = [[16, 0, 5], [16, 1, 4], [10, 2, 3], [3, 2, 3]];
        accepted(TYPE, "((a))", &twice, [0, 5, 5]);
        accepted(TYPE, "( ( ) )", &[[16, 0, 7], [14, 2, 5]], [0, 7, 7]);
        accepted(TYPE, "a<<b>", &name(0, 1), [27, 1, 3]);
        let argument = [[10, 0, 4], [3, 0, 1], [10, 2, 3], [3, 2, 3]];
        accepted(TYPE, "a<b>>=", &argument, [33, 4, 6]);
        accepted(BINDS, "S<=x", &[[25, 0, 1], [20, 0, 1]], [26, 1, 3]);
        accepted(
            BINDS,
            "S<>{ f }",
            &[
                [25, 0, 8],
                [22, 0, 8],
                [3, 0, 1],
                [24, 5, 6],
                [1, 5, 6],
                [20, 5, 6],
            ],
            [0, 8, 8],
        );
        accepted(
            NAME,
            "1 :: b::c<",
            &[[5, 0, 9], [6, 0, 6], [2, 0, 1], [1, 5, 6], [1, 8, 9]],
            [25, 9, 10],
        );
    }

    #[test]
    fn what_the_caller_is_refused() {
        let long = "a".repeat(LONGEST + 1);
        assert_eq!(read(9, &long).cause, Some(Cause::TextTooLong));
        let past_end = expected(9, &Text::new(b"a"), 2);
        assert_eq!(past_end.answer, Some(Answer::refused(2, 0, 0)));
        assert_eq!(read(0, "$").answer, Some(Answer::refused(3, 0, 0)));
        let list = |count| format!("({})", "a,".repeat(count));
        let longest = read(BINDS, &list(8_190));
        assert_eq!(longest.within(65_528).written.len(), 65_528);
        let refused = (Some(Answer::refused(4, 0, 0)), &[][..]);
        let small = longest.within(65_527);
        assert_eq!((small.answer, small.written), refused);
        assert_eq!(small.cause, Some(Cause::RoomTooSmall));
        let wide = read(BINDS, &list(8_191));
        assert_eq!(wide.within(114_692).written.len(), 114_692);
        assert_eq!(wide.within(114_692).written[..6], [4, 0, 99, 0, 0, 192]);
        assert_eq!(wide.within(114_691).answer, refused.0);
    }

    /// What tells the two forms apart, in the words of the request for longer files.
    #[test]
    fn narrow_and_wide() {
        let blanks = |count| format!("a{}", " ".repeat(count));
        let narrow = read(TYPE, &blanks(65_534)).written;
        assert_eq!(narrow, [16, 0, 10, 0, 0, 0, 1, 0, 8, 0, 3, 0, 0, 0, 1, 0]);
        let wide = read(TYPE, &blanks(65_535)).written;
        let [type_, chain] = [[28, 10], [14, 3]]
            .map(|[length, kind]| [length, 0, 0, 0, kind, 0, 0, 0, 0, 0, 1, 0, 0, 0]);
        assert_eq!(wide, [&[4, 0, 99, 0][..], &type_, &chain].concat());
        // The whole text counts, not the part that is read.
        let far = " ".repeat(65_536) + "a";
        let tree = expected(TYPE, &Text::new(far.as_bytes()), 65_536).written;
        assert_eq!(
            (tree.len(), &tree[10..18]),
            (32, &[0, 0, 1, 0, 1, 0, 1, 0][..])
        );
        let list = |count| read(TYPE, &format!("({})", "a,".repeat(count)));
        assert_eq!(list(4_095).written.len(), 65_528);
        assert_eq!(list(4_096).within(114_706).written.len(), 114_706);
        let refused = Some(Answer::refused(4, 0, 0));
        assert_eq!(list(4_096).within(114_705).answer, refused);
        assert_eq!(list(5_000).written.len(), 140_018);
    }

    #[test]
    fn empty_blocks_and_high_bytes() {
        let given = read(TYPE, "/**/a/**/<//\n/**/b /**/>/**/");
        assert_eq!(given.answer, Some(Answer::read(32, 0, 28, 28)));
        assert_eq!(given.cause, Some(Cause::EmptyBlock));
        accepted(
            TYPE,
            "&mut/**/",
            &[[11, 0, 4], [10, 1, 4], [3, 1, 4]],
            [0, 8, 8],
        );
        refused(TYPE, "a b\"\u{e9}\"/**/", 9, (4, 5));
        refused(VALUE, "b\"\u{e9}\" $", 9, (2, 3));
        refused_at_two(TYPE, "(a b b\"\u{e9}\"", 12, (3, 3), (0, 0));
        refused(TYPE, "a b\"\u{e9}", 8, (2, 6));
    }
}
