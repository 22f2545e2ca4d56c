//! The texts that are measured. The same seed gives the same text.

use crate::items;
use oracle::{
    random::Random,
    texts::{KEYWORDS, MARKS},
};

/// A kind of text: its name in the table, and how to make one of about a length.
pub type Kind = (&'static str, fn(&mut Random, usize) -> String);

/// The rows of numbers, which edition 2 alone reads as such.
pub const LATER: &str = "numbers with _ and types";
pub const PLAIN: &str = "plain numbers as long";

pub const NUMBERS: [Kind; 2] = [(LATER, later_numbers), (PLAIN, plain_numbers)];

/// The rows that both editions read alike.
pub const KINDS: [Kind; 10] = [
    ("Move source", move_source),
    ("comments", comments),
    ("punctuation", punctuation),
    ("one long name", long_name),
    ("deep nested comments", nested_comments),
    ("short names", short_names),
    ("hex numbers", hex_numbers),
    ("keywords", keywords),
    ("line feeds", line_feeds),
    ("one comment", one_comment),
];

/// The row in which port and Rust take the same time, now the one less and now the other: it is
/// held to its growth alone.
pub const LEVEL: &str = "line feeds";

/// The text with the most declarations.
pub const DENSEST: Kind = ("fun f fun f", densest);

/// A list of types, as a text.
pub const LIST: Kind = ("flat list", items::flat_types);

/// The rows that are walked at 1 MB too.
pub const LONGER: [&str; 6] = [
    "Move source",
    LIST.0,
    "comments",
    "one long name",
    "punctuation",
    "one comment",
];

/// Declarations as people write them. `$m`, `$s`, `$f`, `$v` and `$n` stand for a
/// module, a struct, a function, a variable and a number.
const DECLARATIONS: [&str; 14] = [
    "\
module 0x$n::$m {
    use Std::Signer;
    use Std::Vector as V;
    use 0x1::$m::{Self, $s};
",
    "\
    /// Holds the $v of an account.
    struct $s<phantom CoinType> has key, store {
        $v: u64,
        locked: bool,
        history: vector<u8>,
    }

",
    "\
    struct $s has copy, drop { $v: u128, owner: address }

",
    "\
    const E$n: u64 = $n;
    const MAX_$s: u128 = 0xFFFF$nu128;
    const NAME: vector<u8> = b\"$m coin\";

",
    "\
    /// Moves `amount` from `$v` to the account at `to`.
    public fun $f<CoinType>(account: &signer, to: address, amount: u64) acquires $s {
        let $v = borrow_global_mut<$s<CoinType>>(Signer::address_of(account));
        assert!($v.$v >= amount, E$n);
        $v.$v = $v.$v - amount;
        $m::$f<CoinType>(to, amount);
    }

",
    "\
    public(friend) fun $f($v: &mut vector<u64>, index: u64): (u64, bool) {
        let i = 0u64;
        while (i < V::length($v)) {
            if (*V::borrow($v, i) == index) { return (i, true) };
            i = i + 1;
        };
        (i, false)
    }

",
    "\
    fun $f(a: u64, b: u64): u64 {
        // Rounds down, as the $v does.
        if (a == 0 || b == 0) 0 else (a * $n + b / 2) % b
    }

",
    "\
    public fun $f($v: $s): u128 {
        let $s { $v: value, owner: _ } = $v;
        (value as u128) << 64u8 | ($n & 0xff)
    }

",
    "\
    spec $f {
        pragma aborts_if_is_partial = true;
        aborts_if !exists<$s<CoinType>>(to) with E$n;
        ensures result == old($v) + $n ==> $v <= MAX_$s;
    }

",
    "\
    #[test(account = @0x$n)]
    #[expected_failure(abort_code = $n)]
    fun $f(account: signer) acquires $s {
        let $v = @0x$n;
        move_to(&account, $s { $v: $n, owner: copy $v });
        loop { if (!exists<$s>($v)) break; continue };
    }

",
    "\
    native public fun $f<Element>($v: &mut vector<Element>): Element;

",
    "\
    public fun $f(): vector<u8> {
        let $v = x\"00$nff\"; /* raw bytes */
        V::push_back(&mut $v, $nu8);
        $v
    }

",
    "\
    friend 0x$n::$m;

",
    "\
}

",
];

/// Comments and, last, a little code between them.
const COMMENTS: [&str; 7] = [
    "// The $v of the $m is kept here, since $f looks for it before it looks at $s.\n",
    "/// Gives the $v of `$s`, or aborts with $n where the account at `$m` holds none.\n",
    "/* $f: see the note at $m; it holds for $v / $n and for $v * $n alike. */\n",
    "\
/**
 * Returns the $v.
 *
 * Aborts with E$n where `$s` isn't there -- naïve callers of $f forget this.
 */
",
    "/* outer $v /* inner: $f($n) was here */ and the rest of $m stays commented out */\n",
    "//*******************************************************************************\n",
    "fun $f($v: u64) {}\n",
];

pub fn move_source(random: &mut Random, length: usize) -> String {
    pieces(random, length, &DECLARATIONS)
}

fn comments(random: &mut Random, length: usize) -> String {
    pieces(random, length, &COMMENTS)
}

/// One comment.
pub fn comment(random: &mut Random) -> String {
    let choice = random.pick(&COMMENTS[..COMMENTS.len() - 1]);
    fill_in(random, choice)
}

/// Pieces with their places filled in, as long as they fit.
fn pieces(random: &mut Random, length: usize, choices: &[&str]) -> String {
    let mut text = String::new();
    loop {
        let choice = random.pick(choices);
        let piece = fill_in(random, choice);
        if text.len() + piece.len() > length {
            return text;
        }
        text += &piece;
    }
}

fn fill_in(random: &mut Random, piece: &str) -> String {
    let mut parts = piece.split('$');
    let mut text = parts.next().unwrap_or_default().to_string();
    for part in parts {
        let (place, behind) = part.split_at(1);
        match place {
            "m" => text += random.pick(&["Coin", "Account", "Vault", "Registry", "BasicCoin"]),
            "s" => text += random.pick(&["Balance", "Config", "Entry", "Capability", "R"]),
            "f" => text += random.pick(&["transfer", "mint", "find_index", "f", "is_valid_name"]),
            "v" => text += random.pick(&["x", "balance", "total_supply", "i", "next_entry"]),
            _ => text += &random.below(1000).to_string(),
        }
        text += behind;
    }
    text
}

fn densest(_: &mut Random, length: usize) -> String {
    "fun f ".repeat(length / 6)
}

fn punctuation(random: &mut Random, length: usize) -> String {
    let mut text = String::new();
    while text.len() + 6 <= length {
        let mark = random.pick(&MARKS);
        text += mark;
        // Else two marks could open a comment.
        if mark == "/" {
            text += " ";
        }
    }
    text
}

pub fn long_name(random: &mut Random, length: usize) -> String {
    let mut text = String::new();
    while text.len() < length {
        text += random.pick(&["total", "supply", "of", "the", "Coin", "index", "v2", "is"]);
        text += "_";
    }
    text.truncate(length);
    text
}

fn nested_comments(random: &mut Random, length: usize) -> String {
    let (opener, closer) = ("/* a ", " b */");
    let depth = length / (opener.len() + closer.len()) - 1;
    let number = random.below(1000);
    opener.repeat(depth) + &closer.repeat(depth) + &number.to_string()
}

/// Line feeds, and a name behind them.
fn line_feeds(_: &mut Random, length: usize) -> String {
    "\n".repeat(length - 1) + "a"
}

/// One block comment whose last byte before its close is a line feed, and a name behind it.
fn one_comment(_: &mut Random, length: usize) -> String {
    let inside = "x".repeat(length - 6);
    format!("/*{inside}\n*/a")
}

/// Names of 1 to 12 bytes that mix letters, digits and `_`.
fn short_names(random: &mut Random, length: usize) -> String {
    words(random, length, |random| {
        let mut name = String::from(random.pick(&["a", "B", "c", "Z", "_"]));
        for _ in 0..random.below(12) {
            name += random.pick(&["a", "b", "k", "z", "E", "Q", "0", "7", "9", "_"]);
        }
        name
    })
}

/// `0x` with 1 to 16 digits, some with a type.
fn hex_numbers(random: &mut Random, length: usize) -> String {
    words(random, length, |random| {
        let mut number = String::from("0x");
        for _ in 0..=random.below(16) {
            number += random.pick(&["0", "1", "5", "9", "a", "c", "f", "A", "D", "F"]);
        }
        number + random.pick(&["", "", "", "u8", "u64"])
    })
}

/// `1_000_000u256` and the like.
fn later_numbers(random: &mut Random, length: usize) -> String {
    words(random, length, |random| {
        let mut number = (1 + random.below(999)).to_string();
        for _ in 0..=random.below(4) {
            number += &format!("_{:03}", random.below(1_000));
        }
        number + random.pick(&["", "u16", "u32", "u64", "u128", "u256"])
    })
}

/// The same with a digit for each other byte.
fn plain_numbers(random: &mut Random, length: usize) -> String {
    let digit = |byte: char| match byte {
        '_' | 'u' => '7',
        other => other,
    };
    later_numbers(random, length).chars().map(digit).collect()
}

fn keywords(random: &mut Random, length: usize) -> String {
    words(random, length, |random| random.pick(&KEYWORDS).to_string())
}

/// Words with a space behind each, as long as they fit.
fn words(random: &mut Random, length: usize, word: impl Fn(&mut Random) -> String) -> String {
    let mut text = String::new();
    loop {
        let next = word(random) + " ";
        if text.len() + next.len() > length {
            return text;
        }
        text += &next;
    }
}
