//! Bytes made safe to show: letters as they are, and as an escape what could deceive or disturb a
//! terminal: controls, characters that turn text round, invisible ones, unassigned ones.

use std::ops::RangeInclusive;

/// A character of a text, or a byte that belongs to none, as it is shown.
pub struct Piece {
    /// Its bytes in the text: the first, and the first behind.
    pub start: usize,
    pub end: usize,
    pub shown: String,
    /// How many columns `shown` takes.
    pub width: usize,
    /// Whether it takes them on nearly all screens, and stands where it is written.
    pub certain: bool,
}

/// How a tab is shown in a line of source.
const TAB: &str = "    ";

/// So many marks, as accents are, may stand over one letter.
const MARKS: usize = 4;

/// What stands before a character, as far as it decides how that one is shown.
#[derive(Clone, Copy)]
enum Before {
    Other,
    /// A letter or digit, with so many marks.
    Letter(usize),
    Emoji,
}

/// The pieces of a line of source.
pub fn pieces(line: &[u8]) -> Vec<Piece> {
    let mut pieces = vec![];
    let mut start = 0;
    for chunk in line.utf8_chunks() {
        let mut before = Before::Other;
        let mut characters = chunk.valid().chars().peekable();
        while let Some(character) = characters.next() {
            let joins = characters.peek().is_some_and(|&next| is_emoji(next));
            let mut piece = piece_of(character, before, joins);
            before = behind(character, before, &piece);
            (piece.start, piece.end) = (start, start + character.len_utf8());
            start = piece.end;
            pieces.push(piece);
        }
        for byte in chunk.invalid() {
            let mut piece = escaped(format!("\\x{byte:02x}"));
            (piece.start, piece.end) = (start, start + 1);
            start = piece.end;
            pieces.push(piece);
        }
    }
    pieces
}

/// The pieces with every character as an escape whose width or place on the screen is not certain.
pub fn certain_pieces(line: &[u8]) -> Vec<Piece> {
    let mut pieces = pieces(line);
    for piece in &mut pieces {
        if !piece.certain {
            piece.shown = piece.shown.chars().map(escape_of).collect();
            piece.width = piece.shown.len();
            piece.certain = true;
        }
    }
    pieces
}

fn escaped(shown: String) -> Piece {
    Piece {
        start: 0,
        end: 0,
        width: shown.len(),
        shown,
        certain: true,
    }
}

/// The character as it is shown; its bytes are told later. `joins`: an emoji follows.
fn piece_of(character: char, before: Before, joins: bool) -> Piece {
    if character == '\t' {
        return escaped(TAB.to_string());
    }
    let shown = match before {
        _ if is_mark(character) => matches!(before, Before::Letter(marks) if marks < MARKS),
        // the joint between two emoji, and the choice of a coloured form
        Before::Emoji if character == '\u{200d}' => joins,
        Before::Emoji if character == '\u{fe0f}' => true,
        _ => is_visible(character),
    };
    if !shown {
        return escaped(escape_of(character));
    }
    let (width, certain) = width_of(character);
    Piece {
        width,
        certain,
        ..escaped(character.to_string())
    }
}

fn behind(character: char, before: Before, piece: &Piece) -> Before {
    match before {
        _ if piece.shown.starts_with('\\') && character != '\\' => Before::Other,
        Before::Letter(marks) if is_mark(character) => Before::Letter(marks + 1),
        Before::Emoji if matches!(character, '\u{200d}' | '\u{fe0f}') => Before::Emoji,
        _ if character.is_alphanumeric() => Before::Letter(0),
        _ if is_emoji(character) => Before::Emoji,
        _ => Before::Other,
    }
}

fn escape_of(character: char) -> String {
    if character.is_ascii() {
        format!("\\x{:02x}", character as u32)
    } else {
        format!("\\u{{{:x}}}", character as u32)
    }
}

/// A tab as an escape, not as blanks.
pub fn show_tab(piece: &mut Piece) {
    if piece.shown == TAB {
        piece.shown = escape_of('\t');
        piece.width = piece.shown.len();
    }
}

/// A line of source, its tabs as blanks.
pub fn source(line: &[u8]) -> String {
    pieces(line).into_iter().map(|piece| piece.shown).collect()
}

/// A spelling, a line or a word, its tabs visible.
pub fn line(bytes: &[u8]) -> String {
    let shown = |piece: Piece| match bytes[piece.start] {
        b'\t' => escape_of('\t'),
        _ => piece.shown,
    };
    pieces(bytes).into_iter().map(shown).collect()
}

/// The same, cut where it has more than `most` bytes.
pub fn cut(bytes: &[u8], most: usize) -> String {
    match bytes.get(..most) {
        Some(first) if bytes.len() > most => {
            format!("{}... ({} bytes)", line(first), bytes.len())
        }
        _ => line(bytes),
    }
}

/// What marks a cut.
pub const CUT: &str = "...";

/// A line of source, cut where it takes more than so many columns, with `...` for what is left out. What takes no
/// certain number of columns counts as two.
pub fn fitted(line: &[u8], columns: usize) -> String {
    let pieces = pieces(line);
    let width = |piece: &Piece| if piece.certain { piece.width } else { 2 };
    let whole: usize = pieces.iter().map(width).sum();
    if whole <= columns {
        return pieces.into_iter().map(|piece| piece.shown).collect();
    }
    let mut left = columns.saturating_sub(CUT.len());
    let fits = |piece: &Piece| {
        let rest = left.checked_sub(width(piece));
        left = rest.unwrap_or(0);
        rest.is_some()
    };
    let shown = pieces.into_iter().take_while(fits);
    let shown: String = shown.map(|piece| piece.shown).collect();
    match columns {
        0..3 => String::new(),
        _ => shown + CUT,
    }
}

/// Whether the character has a look of its own: it is assigned, and neither a control, nor formatting
/// (what turns text round is that), nor a blank other than the space, nor private.
fn is_visible(character: char) -> bool {
    if character.is_ascii() {
        return !character.is_ascii_control();
    }
    // behind a letter, so that a mark is judged as others are
    let escaped = String::from_iter(['a', character]).escape_debug().count() > 2;
    !escaped && !among(character, &INVISIBLE)
}

/// Whether it joins with the character before it and takes no column.
fn is_mark(character: char) -> bool {
    !character.is_ascii()
        && is_visible(character)
        && !among(character, &ONE_COLUMN)
        && character.escape_debug().count() > 1
}

fn is_emoji(character: char) -> bool {
    among(character, &EMOJI)
}

/// The columns that a visible character takes, and whether that is certain: of what joins with its
/// neighbours, is written from right to left or is in few fonts it is not.
fn width_of(character: char) -> (usize, bool) {
    if among(character, &ONE_COLUMN) {
        (1, true)
    } else if among(character, &TWO_COLUMNS) {
        (2, true)
    } else if is_mark(character) || !is_visible(character) {
        (0, false)
    } else {
        (if character >= '\u{1f000}' { 2 } else { 1 }, false)
    }
}

fn among(character: char, ranges: &[RangeInclusive<u32>]) -> bool {
    let number = character as u32;
    ranges.iter().any(|range| range.contains(&number))
}

/// ASCII, Latin, Greek, Cyrillic, Armenian, Georgian, punctuation, signs, arrows, mathematics, lines
/// and blocks.
const ONE_COLUMN: [RangeInclusive<u32>; 15] = [
    0x20..=0x7e,
    0xa1..=0xac,
    0xae..=0x2ff,
    0x370..=0x482,
    0x48a..=0x52f,
    0x531..=0x58a,
    0x10a0..=0x10ff,
    0x1c90..=0x1cbf,
    0x1e00..=0x1fff,
    0x2010..=0x2027,
    0x2030..=0x205e,
    0x2070..=0x20cf,
    0x2100..=0x2319,
    0x2500..=0x25fc,
    0xff61..=0xff9f,
];

/// Chinese, Japanese and Korean.
const TWO_COLUMNS: [RangeInclusive<u32>; 12] = [
    0x3001..=0x3029,
    0x3030..=0x303e,
    0x3041..=0x3096,
    0x309b..=0x30ff,
    0x3105..=0x312f,
    0x3131..=0x3163,
    0x3190..=0x31e3,
    0x3220..=0x3247,
    0x3250..=0xa48c,
    0xac00..=0xd7a3,
    0xf900..=0xfaff,
    0xff01..=0xff60,
];

/// Characters without a look of their own that are neither controls nor formatting: joiners, fillers,
/// variants, and the Braille pattern without dots.
const INVISIBLE: [RangeInclusive<u32>; 9] = [
    0x34f..=0x34f,
    0x115f..=0x1160,
    0x17b4..=0x17b5,
    0x180b..=0x180f,
    0x2800..=0x2800,
    0x3164..=0x3164,
    0xfe00..=0xfe0f,
    0xffa0..=0xffa0,
    0xe0100..=0xe01ef,
];

const EMOJI: [RangeInclusive<u32>; 6] = [
    0xa9..=0xa9,
    0xae..=0xae,
    0x203c..=0x2bff,
    0x3297..=0x3297,
    0x3299..=0x3299,
    0x1f000..=0x1faff,
];
