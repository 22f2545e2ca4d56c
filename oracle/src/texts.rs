//! Texts to compare on: pieces of Move strung together, and damage done to them.

use crate::random::Random;

pub const KEYWORDS: [&str; 26] = [
    "abort",
    "acquires",
    "as",
    "break",
    "const",
    "continue",
    "copy",
    "else",
    "false",
    "friend",
    "fun",
    "if",
    "invariant",
    "let",
    "loop",
    "module",
    "move",
    "native",
    "public",
    "return",
    "script",
    "spec",
    "struct",
    "true",
    "use",
    "while",
];

pub const MARKS: [&str; 37] = [
    "!", "!=", "%", "&", "&&", "&mut ", "(", ")", "[", "]", "*", "+", ",", "-", ".", "..", "/",
    ":", "::", ";", "<", "<=", "<<", "<==>", "=", "==", "==>", ">", ">=", ">>", "^", "{", "}", "|",
    "||", "#", "@",
];

pub const NAMES: [&str; 24] = [
    "x",
    "b",
    "_",
    "__",
    "x_",
    "b1",
    "u8",
    "u64",
    "u128",
    "mut",
    "address",
    "vector",
    "signer",
    "Coin",
    "T",
    "has",
    "key",
    "store",
    "aborts_if",
    "ensures",
    "xyz",
    "ab",
    "mod",
    "breaks",
];

const NUMBERS: [&str; 24] = [
    "0", "00", "7", "42", "0x", "0x0", "0xF", "0xcafe", "0xu", "0xu8", "0xu64", "0xu128", "1u8",
    "1u64", "1u128", "1u88", "1u6", "1u12", "0x1u8", "0xBu64", "0xbu128", "0X1", "123_456", "9u",
];

pub const STRINGS: [&str; 14] = [
    r#"b"""#,
    r#"x"""#,
    r#"b"a""#,
    r#"x"00ff""#,
    r#"b"\"""#,
    r#"b"\\""#,
    r#"b"\\\"""#,
    r#"b"a\"c""#,
    r#"x"\"""#,
    r#"b"hello, world""#,
    r#"b"// no comment""#,
    r#"b"/* no comment""#,
    r#"b"\n\t\x41""#,
    "b\"a\rb\"",
];

/// What stands round a byte whose class is asked: nothing; name bytes; `0x`; a digit; a
/// string; a line comment; a block comment; and a doc comment.
pub const ROUND_A_BYTE: [(&[u8], &[u8]); 8] = [
    (b"", b""),
    (b"a", b"b"),
    (b"0x", b"1"),
    (b"7", b"8"),
    (b"b\"", b"\" c"),
    (b"//", b"d\ne"),
    (b"/*", b"*/f"),
    (b"///", b"g\nh"),
];

pub const GAPS: [&str; 12] = [
    " ", " ", " ", " ", "\n", "\n", "\r\n", "\t", "  ", "\n\n", "\r\n\r\n", " \t\n",
];

/// Pieces of a comment; none of them opens or closes one.
const WORDS: [&str; 14] = [
    "a", " note ", "é", "→", "😀", "*", "**", "/ ", "\"", "\\", "\r", "\r\n", "`x`", "* *",
];

/// Where these stand, a text is refused or is one that the Rust does not settle.
const FAULTS: [&str; 22] = [
    "$",
    "?",
    "~",
    "'",
    "\"",
    "`",
    "\\",
    "\r",
    "é",
    "\0",
    "\x7f",
    "\u{a0}",
    "b\"open",
    "x\"open\\",
    "b\"é\"",
    "x\"a\\é\"",
    "b\"→",
    "/*",
    "/**",
    "/* /*",
    "/*/",
    "b\"a\r\n\"",
];

/// A text of Move's pieces of exactly `length` bytes, cut where it is too long.
/// Without faults its tokens are accepted, but for what the cut does.
pub fn move_like(random: &mut Random, length: usize, faults: bool) -> Vec<u8> {
    let mut text = String::new();
    while text.len() < length {
        if faults && random.once_in(24) {
            text += random.pick(&FAULTS);
        } else {
            push_piece(random, &mut text, faults);
        }
    }
    let mut bytes = text.into_bytes();
    bytes.truncate(length);
    bytes
}

fn push_piece(random: &mut Random, text: &mut String, faults: bool) {
    match random.below(16) {
        0 | 1 => *text += random.pick(&KEYWORDS),
        2 => *text += random.pick(&NAMES),
        3 | 4 => push_name(random, text),
        5 => *text += random.pick(&NUMBERS),
        6 => {
            // Behind a name a string loses its first letter: another way to a fault.
            if !faults && text.ends_with(|last: char| last.is_ascii_alphanumeric() || last == '_') {
                *text += " ";
            }
            *text += random.pick(&STRINGS);
        }
        7..=10 => {
            let mark = random.pick(&MARKS);
            *text += mark;
            // Two marks that meet may open a comment: one way to a fault.
            if mark == "/" && !faults {
                *text += " ";
            }
        }
        11 => push_comment(random, text),
        _ => *text += random.pick(&GAPS),
    }
}

pub fn push_name(random: &mut Random, text: &mut String) {
    const LETTERS: &[u8] = b"abcdefghijklmnopqrstuvwxyzABCDEFGHIJKLMNOPQRSTUVWXYZ_0123456789";
    text.push(random.pick(&LETTERS[..53]) as char);
    for _ in 0..random.below(12) {
        text.push(random.pick(LETTERS) as char);
    }
}

pub fn push_comment(random: &mut Random, text: &mut String) {
    match random.below(8) {
        0 => *text += "/**/",
        1 => *text += random.pick(&["/***/", "/*/*/ */*/", "/****/", "/*** */", "/** /**/ */"]),
        2 => push_line_comment(random, text, "//"),
        3 => push_line_comment(random, text, "////"),
        4 => push_line_comment(random, text, "///"),
        5 => push_block_comment(random, text, "/**", 3),
        _ => push_block_comment(random, text, "/*", 3),
    }
}

fn push_line_comment(random: &mut Random, text: &mut String, opener: &str) {
    *text += opener;
    for _ in 0..random.below(5) {
        *text += random.pick(&WORDS).trim_end_matches("\r\n");
    }
    *text += random.pick(&["\n", "\n", "\r\n", "\r\r\n"]);
}

fn push_block_comment(random: &mut Random, text: &mut String, opener: &str, deepest: usize) {
    *text += opener;
    *text += " ";
    for _ in 0..random.below(5) {
        if deepest > 0 && random.once_in(4) {
            let inner = random.pick(&["/*", "/**", "/***"]);
            push_block_comment(random, text, inner, deepest - 1);
        } else {
            *text += random.pick(&WORDS);
        }
        *text += " ";
    }
    *text += "*/";
}

/// A copy of `text` with one to four bytes changed, taken out or put in.
pub fn damaged(random: &mut Random, text: &[u8]) -> Vec<u8> {
    let mut copy = text.to_vec();
    for _ in 0..1 + random.below(4) {
        let byte = telling_byte(random);
        let at = random.below(copy.len() + 1);
        match random.below(4) {
            0 => copy.insert(at, byte),
            1 if at < copy.len() => copy[at] ^= 1 << random.below(8),
            2 if at < copy.len() => copy[at] = byte,
            _ if at < copy.len() => drop(copy.remove(at)),
            _ => copy.push(byte),
        }
    }
    copy
}

/// Any byte, but mostly one that the lexer looks at.
fn telling_byte(random: &mut Random) -> u8 {
    if random.once_in(4) {
        random.byte()
    } else {
        random.pick(b"/*/*\"\\\r\n \txb0u8&=<>:|.!m_a$\x80\xff")
    }
}

/// A text of which some bytes, at least one if it has any, are 128 or more and
/// stand anywhere.
pub fn not_utf8(random: &mut Random, length: usize) -> Vec<u8> {
    let mut text = if random.once_in(3) {
        (0..length).map(|_| telling_byte(random)).collect()
    } else {
        let faults = random.once_in(2);
        move_like(random, length, faults)
    };
    make_not_utf8(random, &mut text);
    text
}

/// Changes some bytes, at least one if there are any, to 128 or more.
pub fn make_not_utf8(random: &mut Random, text: &mut [u8]) {
    if !text.is_empty() {
        for _ in 0..1 + random.below(3) {
            text[random.below(text.len())] = 128 | random.byte();
        }
    }
}

/// A string with bytes of every sort inside, and where it is read from: now and then not closed,
/// or with something before it and behind.
pub fn string_value(random: &mut Random) -> (Vec<u8>, usize) {
    let before = random.pick(&["", "", "", " ", "\t", "/*\r*/", "\r\n", "//\x7f\n"]);
    let at = random.pick(&[0, before.len()]);
    let mut text = [before, random.pick(&["b\"", "x\""])].concat().into_bytes();
    let sort = random.below(4);
    for _ in 0..random.below(13) {
        let any = random.byte();
        text.push(match sort {
            0 => any,
            1 => any % 128,
            2 if any < 40 => any % 32,
            3 if any < 10 => 127,
            _ => 32 + any % 95,
        });
    }
    let closing = random.pick(&[
        "\"", "\"", "\"", "\"", "\"", "\"", "\" ", "\"\t", "\" $", "\"::a", "",
    ]);
    text.extend_from_slice(closing.as_bytes());
    (text, at)
}

/// One thing that fills a whole text of `length` bytes, for each kind of thing.
pub fn one_long_thing(length: usize) -> Vec<Vec<u8>> {
    [
        ("", "a", ""),
        ("", "7", ""),
        ("0x", "f", ""),
        ("0x", "f", "u128"),
        ("b\"", "a", "\""),
        ("b\"", "\\", "\""),
        ("x\"", "0", ""),
        ("b\"", "\u{e9}", "\""),
        ("", " ", ""),
        ("", "\r\n", "a"),
        ("", "\n", "\r"),
        ("//", "/", "\n"),
        ("///", " ", "\r"),
        ("/*", "a", "*/"),
        ("/**", "\u{e9}", "*/"),
        ("", "/*", ""),
        ("/**", " /*", ""),
        ("/**", "/**/", "*/"),
        ("", "/**/", ""),
        ("", "/* */", ""),
        ("", "//\n", ""),
        ("", "///\n", "///"),
        ("", "*/", ""),
        ("", "<==", ">"),
        ("", "&mut", " "),
    ]
    .iter()
    .map(|(before, again, after)| filled(length, before, again, after))
    .chain([nested(length)])
    .collect()
}

/// `before`, as often as it goes `again` and then its first bytes, and `after`.
pub fn filled(length: usize, before: &str, again: &str, after: &str) -> Vec<u8> {
    let middle = length.saturating_sub(before.len() + after.len());
    let mut text = before.as_bytes().to_vec();
    text.extend(again.bytes().cycle().take(middle));
    text.extend(after.bytes());
    text.truncate(length);
    text
}

/// Block comments one inside the other, all closed, and a name to fill up.
fn nested(length: usize) -> Vec<u8> {
    let depth = length / 4;
    let mut text = "/*".repeat(depth);
    text += &"*/".repeat(depth);
    text += &"a".repeat(length - text.len());
    text.into_bytes()
}
