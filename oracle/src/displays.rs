//! What a display must answer and leave in the buffer: the line of what the Rust read,
//! or the refusal of the read of the same item. Refusal 18 looks at the strings that the Rust
//! read, refusal 4 at the line.

use crate::{
    answer::Answer,
    expected::Text,
    parser::ast::Value_,
    parsing::{Item, Parsed},
    reads::{Cause, Expected, LONGEST_LINE},
};

/// How an item's line is written from the Rust's tree of it and the text.
pub type Show = fn(&Item, &[u8]) -> Vec<u8>;

/// What must come of a display with room enough, where this must come of the read.
pub fn expected(read: &Expected, text: &Text, at: usize, show: Show) -> Expected {
    let Some(item) = &read.item else {
        return read.clone();
    };
    if let Some(byte) = unprintable(item, &text.bytes[at..]) {
        return Expected {
            answer: Some(Answer::refused(18, at + byte, at + byte + 1)),
            written: vec![],
            longest: LONGEST_LINE,
            item: None,
            cause: Some(Cause::UnprintableLine),
        };
    }
    let line = show(item, &text.bytes[at..]);
    Expected {
        answer: Some(Answer::display(line.len())),
        written: line,
        longest: LONGEST_LINE,
        item: None,
        cause: read.cause,
    }
}

/// The first byte under 32, or of 127, of a string that the Rust read. The bytes are those of
/// the Rust's own span.
fn unprintable(item: &Item, text: &[u8]) -> Option<usize> {
    let Parsed::Value(value) = &item.parsed else {
        return None;
    };
    let (Value_::HexString(_) | Value_::ByteString(_)) = value.value else {
        return None;
    };
    let (start, end) = (value.loc.start() as usize, value.loc.end() as usize);
    (start..end).find(|place| text[*place] < 32 || text[*place] == 127)
}

#[cfg(test)]
mod tests {
    use super::*;
    use crate::{line::line_of, reads};

    fn display(kind: u64, text: &str, at: usize) -> Expected {
        let text = Text::new(text.as_bytes());
        expected(&reads::expected(kind, &text, at), &text, at, line_of)
    }

    #[test]
    fn the_line_and_its_room() {
        let given = display(3, "x a<b>>", 2);
        assert_eq!(given.answer, Some(Answer::display(4)));
        assert_eq!(given.within(4).written, b"a<b>");
        assert_eq!(given.within(3).answer, Some(Answer::refused(4, 0, 0)));
        // A top-level `/**/`, on which the Rust panics.
        assert_eq!(display(3, "/**/a/**/<b>", 0).written, b"a<b>");
    }

    #[test]
    fn refused_as_the_read_is() {
        assert_eq!(display(3, "u8 $", 0).answer, Some(Answer::refused(5, 3, 3)));
        let unclosed = Answer::refused_at_two(12, (3, 3), (0, 0));
        assert_eq!(display(3, "(u8", 0).answer, Some(unclosed));
        assert_eq!(display(0, "$", 0).answer, Some(Answer::refused(3, 0, 0)));
        for (text, at, number, place) in [("abc", 1, 21, 1), ("a  $b", 4, 5, 3)] {
            let refused = Answer::refused(number, place, place);
            assert_eq!(display(3, text, at).answer, Some(refused), "{text}");
        }
    }

    #[test]
    fn refusal_18_looks_at_strings_alone() {
        for (text, at, byte) in [
            ("b\"a\rb\"", 0, 3),
            ("x\"\x7f\"", 0, 2),
            ("b\"\\\t\"", 0, 3),
            (" b\"\x1f\x1e\"", 1, 3),
            ("\t/*\r*/b\"\t\" \r\n", 0, 8),
        ] {
            let given = display(2, text, at);
            let refused = Some(Answer::refused(18, byte, byte + 1));
            for room in [0, 1, 1 << 20] {
                assert_eq!(given.within(room).answer, refused, "{text:?}");
            }
        }
        for (text, number, place) in [
            ("b\"\t\" $", 5, (5, 5)),
            ("b\"\t", 8, (0, 3)),
            ("b\"\t\u{e9}\"", 9, (3, 4)),
        ] {
            let refused = Answer::refused(number, place.0, place.1);
            assert_eq!(display(2, text, 0).answer, Some(refused), "{text:?}");
        }
        for text in ["b\" ~\"", "x\"\"\t", "\r\n\ttrue", "@\t0x1"] {
            assert_eq!(display(2, text, 0).cause, None, "{text:?}");
        }
    }

    #[test]
    fn refusal_4_looks_at_the_line_alone() {
        let list = |count| format!("({})", "a,".repeat(count));
        let text = list(5_000);
        let refused = Some(Answer::refused(4, 0, 0));
        let read = reads::expected(3, &Text::new(text.as_bytes()), 0);
        assert_eq!(read.within(140_018).written.len(), 140_018);
        let line = display(3, &text, 0);
        assert_eq!(line.within(15_000).answer, Some(Answer::display(15_000)));
        assert_eq!(line.within(14_999).answer, refused);
        let longest = display(3, &list(21_845), 0);
        assert_eq!(longest.within(65_535).written.len(), 65_535);
        let too_long = display(3, &list(21_846), 0);
        assert_eq!(too_long.within(1 << 20).answer, refused);
    }
}
