//! The token call and the comment call. Cases that the Rust cannot answer are left out,
//! but for starts past the end.

use crate::hex;
use oracle::{
    answer::Call,
    expected::{self, Cause, Text},
    texts::{KEYWORDS, MARKS},
};
use std::collections::BTreeSet;

pub fn lines() -> String {
    let mut sample = Sample::default();
    single_bytes(&mut sample);
    keywords(&mut sample);
    marks(&mut sample);
    numbers(&mut sample);
    strings(&mut sample);
    gaps(&mut sample);
    snippets(&mut sample);
    sample.lines
}

#[derive(Default)]
struct Sample {
    lines: String,
    taken: BTreeSet<(char, usize, String)>,
}

impl Sample {
    fn add(&mut self, call: Call, text: &str, at: usize) {
        let letter = match call {
            Call::Token => 't',
            Call::Comment => 'c',
        };
        let given = expected::answer(call, &Text::new(text.as_bytes()), at);
        let from_the_rust = matches!(given.cause, None | Some(Cause::StartPastEnd));
        let new = self.taken.insert((letter, at, text.to_string()));
        if let (Some(answer), true, true) = (given.answer, from_the_rust, new) {
            self.lines += &format!("{letter} {at} {answer} {}\n", hex(text.as_bytes()));
        }
    }

    fn token(&mut self, text: &str) {
        self.add(Call::Token, text, 0);
    }

    fn both(&mut self, text: &str, at: usize) {
        self.add(Call::Token, text, at);
        self.add(Call::Comment, text, at);
    }

    /// Both calls at each character and past the end.
    fn everywhere(&mut self, text: &str) {
        for at in (0..=text.len() + 1).filter(|at| *at > text.len() || text.is_char_boundary(*at)) {
            self.both(text, at);
        }
    }

    /// Both calls at 0 and where each token ends.
    fn walk(&mut self, text: &str) {
        let mut at = 0;
        loop {
            self.both(text, at);
            let answer = expected::token(&Text::new(text.as_bytes()), at).answer;
            match answer.map(|answer| (answer.result, answer.numbers)) {
                Some((0, [kind, _, end, ..])) if kind != 0 => at = end as usize,
                _ => return,
            }
        }
    }
}

fn single_bytes(sample: &mut Sample) {
    sample.everywhere("");
    for byte in 0..128u8 {
        sample.token(&char::from(byte).to_string());
    }
    for text in ["\u{80}", "é", "→", "😀", "\u{a0}", "aé", "1é", "\u{feff}a"] {
        sample.token(text);
    }
    for (text, at) in [
        ("a", 2),
        ("a", 3),
        ("ab", 65_536),
        ("/* */", 6),
        ("a", 1 << 32),
    ] {
        sample.both(text, at);
    }
}

fn keywords(sample: &mut Sample) {
    for word in KEYWORDS {
        sample.token(word);
        sample.token(&word[..word.len() - 1]);
        sample.token(&format!("{}{}", word[..1].to_uppercase(), &word[1..]));
        for behind in ["s", "_", "0", "(", "\0", " x"] {
            sample.token(&format!("{word}{behind}"));
        }
    }
    for name in [
        "_",
        "__",
        "a1",
        "A",
        "Z9_z",
        "address",
        "u8",
        "mut",
        "x",
        "b",
        "xb",
        "bx",
        "invariants",
        "abcdefghi",
        "abcdefghij",
        "a\"",
        "x'",
        "b ",
    ] {
        sample.token(name);
    }
}

fn marks(sample: &mut Sample) {
    const BEHIND: [&str; 13] = [
        "=", ">", "<", "&", "|", ":", ".", "!", "==>", "m", " ", "=>", "*",
    ];
    for mark in MARKS {
        sample.token(mark);
        for behind in BEHIND {
            sample.token(&format!("{mark}{behind}"));
        }
    }
    for text in [
        "&mut", "&mut\t", "&mut\n", "&mut  ", "&mutx", "&mu ", "&mut/", "&&mut ", "& mut ",
        "&MUT ", "<==", "<===>", "<==<", "<==>>", "====>", "===", "=>", "!==", ">>>", ">>=", ":::",
        "...", "|||", "<<=", "<=>", "^^", "##",
    ] {
        sample.token(text);
    }
}

fn numbers(sample: &mut Sample) {
    for number in [
        "00",
        "42",
        "0123456789",
        "1a",
        "1_0",
        "0x",
        "0xg",
        "0xG",
        "0x ",
        "0xx",
        "0x_",
        "0x\"",
        "0X1",
        "00x1",
        "1x1",
        "0x0",
        "0xabcdef",
        "0xABCDEF",
        "0x0123456789aF",
        "0xfg",
        "0x1x",
        "18446744073709551616",
        "0xu",
        "0xu8",
        "0xu64",
        "0xu128",
        "0xu6",
        "0xu12",
        "0xu88",
        "0x\u{e9}",
        "0 x1",
        "0x1 u8",
    ] {
        sample.token(number);
    }
    for digits in ["0", "7", "10", "0x1", "0xbU", "0xb"] {
        for suffix in [
            "u", "u8", "u6", "u64", "u12", "u128", "u16", "u88", "u640", "u1280", "U8", "u8u8",
            "u_8", " u8", "u8x", "u64::", "u128;", "u256",
        ] {
            sample.token(&format!("{digits}{suffix}"));
        }
    }
}

fn strings(sample: &mut Sample) {
    for letter in ["x", "b"] {
        for inner in [
            "", "a", "a\\\"c", "\\\\", "\\\\\\\"", "\\n", "00fF", "a b", "//", "/*", "a\tb", "\0",
            "a\rb", "\r", "\\\r", "\x7f",
        ] {
            sample.token(&format!("{letter}\"{inner}\""));
        }
        for open in [
            "",
            "a",
            "\\",
            "\\\"",
            "a\\\\\\\"",
            "a\n\"",
            "a\r\n\"",
            "a\r\r\n\"",
            "a\r",
            "a\r\r",
            "\n",
            "\r\n",
            "\\\r\n\"",
            "\\\n\"",
            "é",
            "é\n\"",
            "a\\",
        ] {
            sample.token(&format!("{letter}\"{open}"));
        }
        sample.token(&format!("{letter}\"a\"b\""));
        sample.token(&format!("{letter} \"a\""));
        sample.token(&format!(" // é\n {letter}\"open"));
        sample.token(&format!("{letter}\"a\"é"));
    }
    sample.token("ab\"c\"");
    sample.token("X\"c\"");
    sample.token("B\"c\"");
    sample.everywhere(" b\"a\\\"c\" x\"");
}

fn gaps(sample: &mut Sample) {
    for text in [
        "/*",
        "/**",
        "/***",
        "/*/",
        "/* *",
        "/* * /",
        "/***/",
        "/****/",
        "/** */",
        "/*** */",
        "/**a*/",
        "/**\n*/",
        "/** /*",
        "/** /**",
        "/* /**",
        "/* /***",
        "/** /**/",
        "/** /* */",
        "/* /* */ */x",
        "/** /* */ */x",
        "/** /** */ */x",
        "/*/*/*",
        "/*/*/**/",
        "/*/**/*/x",
        "/* a */ /** b */ c",
        "/** a */ /** b */ c",
        "/** a */ /*",
        "/* a */ /*",
        "/// a\n/*",
        "// a\n/* b",
        "/** a */ /** b",
        "/***/ /// a",
        "//",
        "///",
        "////",
        "//a",
        "///a",
        "////a",
        "// /",
        "/// a\nx",
        "/// a\r\nx",
        "/// a\r\r\nx",
        "///\rx",
        "///a\r",
        "///a\r\r",
        "///\r",
        "///\n///a\nb",
        "// a\n/// b\nc",
        "//// a\n/// b\nc",
        "///a/*\nb",
        "///é\nx",
        "/**é*/x",
        "/*é*/x",
        "//é\nx",
        "//a\n$",
        "///a\n$",
        "/**a*/ b\"",
        "/* \"*/x",
        "/*\\*/x",
        "/*a*//*b*/c",
        "/ *",
        "/ /",
        "*/",
        "/*/*/ */*/ x",
        "/*//*/x",
        "//*\n*/x",
        "/* // */x",
        "/*\n//\n*/x",
        " ",
        "\t",
        "\n",
        "\r\n",
        "\r",
        " \r",
        "\r\r\n",
        " \t\r\n\nx",
        "\r\nx",
        "\rx",
        "\n\rx",
        "\u{c}x",
        "\u{b}x",
        "\u{a0}x",
        "\u{2028}x",
        " /// a\r\n\t/** b */ x",
    ] {
        sample.both(text, 0);
    }
    sample.everywhere("a/*/**é*/*/ ///\r\nb");
    sample.everywhere("/** /* */ /*x");
}

/// Longer texts, walked from token to token.
fn snippets(sample: &mut Sample) {
    for text in [
        "a<b>>c\n",
        "module 0x1::Coin {\n  /// A coin.\n  struct Coin<phantom T> has key { value: u64 }\r\n}\n",
        "let (x, y) = (&mut a, &b.c); // swap\n*x = *y << 1u8;",
        "public fun f<T: store>(v: &mut vector<T>): (u8, bool) acquires R {}",
        "if (a != b && !c || d >= 0xFFu128) abort 7 else return;",
        "spec fold { ensures result == old(x) ==> a <==> b; }",
        "use Std::{Vector as V, Option::{Self}};\r\n\r\nfriend A::B;",
        "const B: vector<u8> = b\"a\\\"b\\\\\"; const X: vector<u8> = x\"00\";",
        "/* a /* b */ c */ /** doc é */ native fun g(); /// tail\r\n",
        "#[test(a = @0x1)] script { fun main() { while (true) { break; }; loop {} } }",
        "S<0x1::M::T<u8>, |u8, bool| u64> { f: x, g: S { h } }",
        "x[..n] % 2 ^ 3 | 4 & 5 - 6 + 7 / 8 * 9 :: : ; ,",
        "a $ b",
        "move(x) copy(y) /* open /* closed */",
        "let invariant_ = continue1 as u64 x\"open\r\nfalse",
    ] {
        sample.walk(text);
    }
}
