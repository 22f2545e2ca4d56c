//! Edition 2, of which there is no Rust. The Rust judges it on another text of the same length:
//! each number is found and measured as the request says, and spelled so that the Rust takes
//! the same bytes for a number of the same kind.

use crate::{
    answer::Answer,
    expected::{empty_blocks, Text, LONGEST},
    memo::{self, Memo},
    parser::lexer::Tok,
    random::Random,
    reading::{Outcome, Reading},
};
use std::borrow::Cow;

/// Numbers that are no edition.
pub const NONE: [u64; 3] = [0, 3, u64::MAX];

/// The types behind numbers in edition 2, and what is written for them: as long, and known to
/// the Rust.
const SUFFIXES: [(&[u8], &[u8]); 6] = [
    (b"u8", b"u8"),
    (b"u16", b"u64"),
    (b"u32", b"u64"),
    (b"u64", b"u64"),
    (b"u128", b"u128"),
    (b"u256", b"u128"),
];

/// The length of the digits and underscores at the front: none where the first is no digit.
fn run(text: &[u8], is_digit: fn(&u8) -> bool) -> usize {
    match text.first() {
        Some(first) if is_digit(first) => {
            let goes_on = |byte: &&u8| is_digit(byte) || **byte == b'_';
            text.iter().take_while(goes_on).count()
        }
        _ => 0,
    }
}

/// The number of edition 2 at the front of the text, as the Rust is to read it.
fn spelled(text: &[u8]) -> Vec<u8> {
    let hex = text.starts_with(b"0x");
    let digits = match hex {
        true => 2 + run(&text[2..], u8::is_ascii_hexdigit),
        false => run(text, u8::is_ascii_digit),
    };
    let suffix = SUFFIXES
        .iter()
        .find(|(word, _)| text[digits..].starts_with(word));
    if hex && digits == 2 && suffix.is_none() {
        return b"0".to_vec();
    }
    let plain = text[..digits]
        .iter()
        .map(|byte| if *byte == b'_' { b'0' } else { *byte });
    plain
        .chain(
            suffix
                .map_or(&b""[..], |(_, written)| written)
                .iter()
                .copied(),
        )
        .collect()
}

/// The text on which the Rust answers as edition 2 must on this one, read from `at` on: up to
/// `most` tokens are looked at. In every other edition it is the text itself.
pub fn judged<'t>(edition: u64, text: &'t [u8], at: usize, most: usize) -> Cow<'t, [u8]> {
    let telling = |at: usize| match text[at] {
        b'_' => true,
        b'u' => [&b"u16"[..], b"u32", b"u256"]
            .iter()
            .any(|word| text[at..].starts_with(word)),
        _ => false,
    };
    let refused = at > text.len() || text.len() > LONGEST;
    // Most long texts have neither of these bytes, which is seen sooner.
    let may_tell = || [b'_', b'u'].iter().any(|byte| text[at..].contains(byte));
    if edition != 2 || refused || !may_tell() || !(at..text.len()).any(telling) {
        return Cow::Borrowed(text);
    }
    thread_local! {
        static LAST: Memo<Vec<u8>> = const { Memo::new(None) };
    }
    let written = || written(text, at, most);
    Cow::Owned(match at {
        0 if most == usize::MAX => memo::made(&LAST, text, written).to_vec(),
        _ => written(),
    })
}

/// That text: each number of edition 2 from `at` on is spelled as the Rust is to read it.
fn written(text: &[u8], at: usize, most: usize) -> Vec<u8> {
    let mut copy = text.to_vec();
    // Only what stands from `at` on: the text before it may be long.
    let mut ascii = Text::new(&text[at..]).in_ascii().to_string();
    let mut from = at;
    let mut left = most;
    while left > 0 {
        match Reading::new(&ascii[from - at..], from).advance() {
            Outcome::Token { kind, start, end } if kind != Tok::EOF as u64 => {
                let number = kind == Tok::NumValue as u64 || kind == Tok::NumTypedValue as u64;
                from = end;
                if number {
                    let spelled = spelled(&text[start..]);
                    from = start + spelled.len();
                    copy[start..from].copy_from_slice(&spelled);
                }
                left -= 1;
            }
            // The Rust panics on a top-level `/**/`: four tabs stand for it here.
            Outcome::Panicked => {
                let blocks = empty_blocks(text, from);
                if blocks.is_empty() {
                    break;
                }
                for block in blocks {
                    ascii.replace_range(block - at..block - at + 4, "\t\t\t\t");
                    from = block + 4;
                }
            }
            _ => break,
        }
    }
    copy
}

/// Asks about that text.
pub fn judging<R>(
    edition: u64,
    text: &Text,
    at: usize,
    most: usize,
    ask: impl FnOnce(&Text) -> R,
) -> R {
    match judged(edition, text.bytes, at, most) {
        Cow::Borrowed(_) => ask(text),
        Cow::Owned(copy) => ask(&Text::new(&copy)),
    }
}

/// What must come of a call with a number that is no edition, where this must come of it in
/// edition 1: 1, 2 and 3 come first.
pub fn of_none(due: Option<Answer>) -> Answer {
    due.filter(|answer| (1..=3).contains(&answer.result))
        .unwrap_or(Answer::refused(19, 0, 0))
}

/// What is put behind digits to spell numbers of edition 2, some of them wrong.
const MORE: [&[u8]; 10] = [
    b"_", b"_", b"_0", b"__1", b"_f", b"u16", b"u32", b"u256", b"_u8", b"_u128",
];

/// A copy of the text in which some numbers from `at` on are spelled as edition 2 has them.
pub fn respelled(random: &mut Random, text: &[u8], at: usize) -> Vec<u8> {
    let (before, rest) = text.split_at(at.min(text.len()));
    let mut copy = before.to_vec();
    for (place, byte) in rest.iter().enumerate() {
        copy.push(*byte);
        let last = !matches!(rest.get(place + 1), Some(b'x' | b'u' | b'0'..=b'9'));
        if byte.is_ascii_digit() && random.once_in(if last { 2 } else { 6 }) {
            copy.extend_from_slice(random.pick(&MORE));
        }
    }
    copy
}

#[cfg(test)]
mod tests {
    use super::*;
    use crate::reading::silence_the_rust;

    fn shown(text: &str) -> String {
        let given = judged(2, text.as_bytes(), 0, usize::MAX);
        assert_eq!(given.len(), text.len());
        String::from_utf8(given.into_owned()).expect("ASCII")
    }

    #[test]
    fn numbers_of_edition_2_as_the_rust_reads_them() {
        silence_the_rust();
        for (text, due) in [
            ("1_000", "10000"),
            ("0x_1", "0x_1"),
            ("1_", "10"),
            ("1_u8", "10u8"),
            ("0xu16", "0xu64"),
            ("1u2568", "1u1288"),
            ("1_x\"a\"", "10x\"a\""),
            ("1_0::a_1", "100::a_1"),
            ("0xf_u32 u16", "0xf0u64 u16"),
            ("a_1 1u1 1u25 1_g", "a_1 1u1 1u25 10g"),
            ("/**/1_/**/ 2_ \"", "/**/10/**/ 20 \""),
            ("$ 1_", "$ 1_"),
            ("b\"1_\" 0x1__", "b\"1_\" 0x100"),
            ("0_x1_", "00x1_"),
        ] {
            assert_eq!(shown(text), due, "'{text}'");
        }
    }

    #[test]
    fn other_editions_and_few_tokens() {
        assert_eq!(*judged(1, b"1_000", 0, 9), *b"1_000");
        assert_eq!(*judged(2, b"1_ 1_", 0, 1), *b"10 1_");
        assert_eq!(*judged(2, b"1_ 1_", 2, 9), *b"1_ 10");
        assert_eq!(*judged(2, b"1_", 3, 9), *b"1_");
    }
}
