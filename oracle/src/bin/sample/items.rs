//! The read call and the display call. The answers are the Rust's, with the line that
//! the specification gives to its tree; refusals 2, 3, 4, 14, 18 and 21, which it does not have, and those
//! of the walk from 0 to an offset, are the specification's. Other cases that the Rust cannot answer are left out.

use crate::hex;
use oracle::{
    answer::ItemCall,
    displays,
    expected::Text,
    items,
    line::line_of,
    parsing::ItemKind,
    random::Random,
    reads::{self, Cause, Expected},
};
use std::collections::BTreeSet;

pub fn lines(call: ItemCall) -> String {
    let mut sample = Sample {
        call,
        lines: String::new(),
        taken: BTreeSet::new(),
    };
    each_kind(&mut sample);
    each_room(&mut sample);
    wrong_calls(&mut sample);
    offsets(&mut sample);
    starts(&mut sample);
    levels(&mut sample);
    random_items(&mut sample);
    strings(&mut sample);
    if call == ItemCall::Read {
        wide(&mut sample);
    }
    sample.lines
}

struct Sample {
    call: ItemCall,
    lines: String,
    taken: BTreeSet<(u64, usize, usize, Vec<u8>)>,
}

impl Sample {
    fn add(&mut self, kind: u64, text: &[u8], at: usize, room: usize) {
        self.add_expected(kind, text, at, room, &self.expected(kind, text, at))
    }

    fn expected(&self, kind: u64, text: &[u8], at: usize) -> Expected {
        let text = Text::new(text);
        let read = reads::expected(kind, &text, at);
        match self.call {
            ItemCall::Read => read,
            ItemCall::Display => displays::expected(&read, &text, at, line_of),
        }
    }

    fn add_expected(&mut self, kind: u64, text: &[u8], at: usize, room: usize, given: &Expected) {
        let due = given.within(room);
        let known = !matches!(
            due.cause,
            Some(Cause::EmptyBlock | Cause::HighByteInString | Cause::LastCarriageReturn)
        );
        let new = self.taken.insert((kind, at, room, text.to_vec()));
        if let (Some(answer), true, true) = (due.answer, known, new) {
            let letter = self.of('r', 'd');
            let (text, written) = (hex(text), hex(due.written));
            self.lines += &format!("{letter} {kind} {at} {room} {answer} {text} {written}\n");
        }
    }

    /// The sample of displays is smaller than that of reads.
    fn of<T>(&self, read: T, display: T) -> T {
        match self.call {
            ItemCall::Read => read,
            ItemCall::Display => display,
        }
    }

    /// A call with just enough room, and with one byte less. Where it is refused, with
    /// no room or some.
    fn ask(&mut self, kind: u64, text: &[u8], at: usize) {
        let given = self.expected(kind, text, at);
        match given.written.len() {
            0 => {
                let room = [0, 80][self.taken.len() % 2];
                self.add_expected(kind, text, at, room, &given);
            }
            needed => {
                self.add_expected(kind, text, at, needed, &given);
                if [true, false, false][self.taken.len() % self.of(1, 3)] {
                    self.add_expected(kind, text, at, needed - 1, &given);
                }
            }
        }
    }

    fn kinds(&mut self, text: &str) {
        for kind in ItemKind::ALL {
            self.ask(kind as u64, text.as_bytes(), 0);
        }
    }
}

/// Short texts, each read as every kind.
fn each_kind(sample: &mut Sample) {
    for text in [NAMES, VALUES, TYPES, BINDS].concat() {
        sample.kinds(text);
    }
}

/// Some items with every room from none to more than enough.
fn each_room(sample: &mut Sample) {
    for (kind, text) in [
        (1, "a::b"),
        (2, "@0x1"),
        (3, "&(u8)"),
        (3, "()"),
        (4, "S{f}"),
        (5, "|x|"),
        (3, "a $"),
        (4, "(x"),
    ] {
        for room in 0..=sample.of(49, 20) {
            sample.add(kind, text.as_bytes(), 0, room);
        }
    }
}

fn wrong_calls(sample: &mut Sample) {
    let texts = ["", "a", "a<b> ", "$", "(x", "/*"];
    for text in texts.into_iter().step_by(sample.of(1, 2)) {
        for kind in (0..=6).chain([0x103, 0x1_0003, 0x1_0000_0003, u64::MAX]) {
            for at in (0..=text.len() + 1).chain([65_536, 1 << 32, usize::MAX]) {
                let room = [0, 40][(at.wrapping_add(kind as usize)) % 2];
                sample.add(kind, text.as_bytes(), at, room);
            }
        }
    }
}

/// Texts that are read from each offset.
fn offsets(sample: &mut Sample) {
    for text in [
        "a<b<0x1::c>> d",
        "&mut | x, y |z",
        "(S<T>{f: x, g})",
        "@a b\"c\" 1u8::",
        "/* a */ b // c",
    ] {
        for at in 0..=text.len() {
            for kind in ItemKind::ALL {
                sample.ask(kind as u64, text.as_bytes(), at);
            }
        }
    }
}

/// Where reading may begin, as the request has it: values and types at each offset.
fn starts(sample: &mut Sample) {
    for text in [
        "a  b",
        "a  ",
        ">>a",
        ">>>a",
        ">=a",
        "&mut a",
        "a  $b",
        " /*",
        "a /* /*",
        "a<b>>==c",
        "// a\r\nb\r",
        " x\"0\nb",
        "1_0",
    ] {
        for at in 0..=text.len() {
            for kind in [ItemKind::Value, ItemKind::Type] {
                sample.ask(kind as u64, text.as_bytes(), at);
            }
        }
    }
}

/// Around the limit of levels: so many openers, what is in them, so many closers.
fn levels(sample: &mut Sample) {
    let nests = [
        (3, 63, "(", "u8", ")"),
        (3, 64, "(", "u8", ")"),
        (3, 64, "(", "", ")"),
        (3, 63, "(", "", ""),
        (3, 64, "(", "", ""),
        (3, 64, "(", ",", ""),
        (3, 64, "(", "$", ""),
        (3, 64, "(", ">>", ""),
        (3, 64, "(", " /* c */ a", ""),
        (3, 65, "(", "", ""),
        (3, 200, "(", "", ")"),
        (3, 63, "& ", "u8", ""),
        (3, 64, "& ", "u8", ""),
        (3, 64, "& ", ",", ""),
        (3, 64, "& ", "$", ""),
        (3, 64, "&mut ", "u8", ""),
        (3, 63, "a<", "u8", ">"),
        (3, 64, "a<", "u8", ">"),
        (3, 64, "a<", "", ">"),
        (3, 64, "a<", ">>", ""),
        (3, 63, "| | ", "u8", ""),
        (3, 64, "| | ", "u8", ""),
        (3, 64, "|a| ", "u8", ""),
        (3, 32, "|(", "u8", ")|a"),
        (3, 31, "|(", "u8", ")|a"),
        (4, 63, "S{f:", "x", "}"),
        (4, 64, "S{f:", "x", "}"),
        (4, 63, "S{f:", "S{f}", "}"),
        (4, 63, "S{f:", "S{}", "}"),
        (4, 63, "S{f:", "S<>{}", "}"),
        (4, 63, "S{f:", "S<u8>{}", "}"),
        (4, 63, "S{f:", "S{,", ""),
        (4, 63, "S{f:", "S{$", ""),
        (4, 63, "S{f:", "S{", ""),
        (4, 63, "S{f:", "", ""),
    ];
    let fewer = nests.into_iter().step_by(sample.of(1, 2));
    for (kind, count, open, inner, close) in fewer {
        let text = open.repeat(count) + inner + &close.repeat(count);
        sample.ask(kind, text.as_bytes(), 0);
        match kind {
            3 => sample.ask(4, format!("S<{text}").as_bytes(), 0),
            _ => sample.ask(5, format!("|{text}|").as_bytes(), 0),
        }
    }
}

fn random_items(sample: &mut Sample) {
    let mut random = Random::new(2024);
    for turn in 0..250 {
        let kind = ItemKind::ALL[turn % 5];
        let case = items::case(&mut random, kind, 1 + turn % 6);
        if case.text.len() <= 100 {
            sample.ask(case.kind as u64, &case.text, case.at);
        }
    }
}

fn strings(sample: &mut Sample) {
    for text in STRINGS {
        sample.ask(ItemKind::Value as u64, text.as_bytes(), 0);
    }
}

/// Reads whose trees are wide: for the length of the text, at an offset past 65,536, and for the number
/// of records. Each with just enough room alone, since their lines are long.
fn wide(sample: &mut Sample) {
    let far = " ".repeat(65_536) + "a";
    sample.add(ItemKind::Type as u64, far.as_bytes(), 65_536, 32);
    let tuple = format!("(&a,{})", "a,".repeat(4_094));
    sample.add(ItemKind::Type as u64, tuple.as_bytes(), 0, 114_692);
}

const NAMES: &[&str] = &[
    "",
    " ",
    "$",
    "a",
    " a ",
    "a::b",
    "a::b::c",
    "a::b::c::d",
    "a::",
    "a::b::",
    "::a",
    "a:b",
    "a : :b",
    "a ::b",
    "a:: b::c",
    "0",
    "0x1",
    "0x1  ",
    "0x1::a",
    "0x1::a::b",
    "0 :: a :: b ",
    "0::",
    "0::1",
    "0::a::1",
    "1u8",
    "1u8::a",
    "if",
    "a::if",
    "if::a",
    "_",
    "a::_",
    "a /* b",
    "a // b\n::/* c */d",
    "a $",
    "a::b $",
    "a b",
    "a::b c",
];

const VALUES: &[&str] = &[
    "@",
    "@a",
    "@ a",
    "@0x1",
    "@0x1::a",
    "@1u8",
    "@@a",
    "@true",
    "@$",
    "@a $",
    "true",
    "false",
    "truee",
    "true::a",
    "1",
    "1::",
    "1::$",
    "1 ::a",
    "1 : :a",
    "1 /*",
    "1u64",
    "0x1u128::a",
    "b\"\"",
    "b\"a\\\"b\" c",
    "x\"00\"",
    "x\"00\"::a",
    "b\"",
    "x\"a\nb\"",
    "1 $",
    "true $",
];

/// Strings with control bytes in them, and gaps with some.
const STRINGS: &[&str] = &[
    "b\"\r\"",
    "x\"a\x7fb\x7f\"",
    "b\"\\\\\x1b[2K\"",
    "b\"\0\"",
    "b\"~\"",
    "/*\r*/b\"a\"//\x7f",
    "b\"\t\" /*",
    "x\"\r\n\"",
];

const TYPES: &[&str] = &[
    "u8",
    "(u8)",
    "(u8,)",
    "(u8,,)",
    "(,",
    "(,)",
    "()",
    "( )",
    "( ( ) )",
    "((u8))",
    "(u8",
    "(u8,",
    "(",
    "(a b",
    "(a b $",
    "(a, b)",
    "(a, b,)",
    "( a , b , )",
    "((a, b), ())",
    "a<>",
    "a<b>",
    "a<b,>",
    "a<,",
    "a<",
    "a<b",
    "a<b c",
    "a<b<c>>",
    "a<b<c>>>",
    "a<b<c> >",
    "a<b>>=",
    "a<b>=",
    "a<u8>=",
    "a<b<c>>=",
    "a<>>>",
    "a<>>",
    "a<0>>",
    "a<0>",
    "a<1::b>>",
    "a<<b>",
    "a < b > c",
    "a<(b)>>",
    "(a>>)",
    "(a>",
    "a<b>>c",
    "a<b,>>",
    "a<b,,>",
    "a::b::c<d::e, 0x1::f::g<h>>",
    "&",
    "&a",
    "& a",
    "&&a",
    "& &a",
    "&mut a",
    "&mut  a",
    "&mut\ta",
    "&muta",
    "& mut a",
    "&,",
    "&)",
    "&mut &mut a",
    "&(a)",
    "&a<b>",
    "&mut (a, b)",
    "|",
    "||",
    "| |",
    "||a",
    "| |a",
    "| | a ",
    "|a|",
    "|a|b",
    "|a, b|c",
    "|a,|b",
    "|,|b",
    "|a|b|",
    "|a||b|c",
    "|u8,||u8",
    "|(|u8|u8)|u8",
    "|&|a|b|c",
    "|a<|b|c>|d",
    "|a|,",
    "|a|)",
    "|a|&b",
    "|a|(b, c)",
    "|a|a<b>>",
    "a|b",
    "a<|b|c>>",
    "u8 $",
    "a < $",
    "(a $",
    "(a, $",
    "&$",
    "| |$",
    "/* x */ a /* y */ < // z\r\n b > /* w */",
    "vector<address>",
    "(/* in */)",
    "{a}",
    "[a]",
    "a.b",
    "true",
    "*a",
];

const BINDS: &[&str] = &[
    "x",
    "(x)",
    "(x,)",
    "(x, y)",
    "(x,,",
    "(,",
    "()",
    "( )",
    "((x))",
    "(x",
    "(x y",
    "S{}",
    "S { }",
    "S{f}",
    "S{f,}",
    "S{f,,}",
    "S{,}",
    "S{f:x}",
    "S{f:}",
    "S{f:,}",
    "S{f::x}",
    "S{f x}",
    "S{f",
    "S{f:x",
    "S{",
    "S{f: x, g, h: T{i}}",
    "S<>{}",
    "S<>",
    "S<u8>",
    "S<u8>{}",
    "S<u8,>{f}",
    "S<a, b<c>>{f}",
    "S<a>>{}",
    "S<<",
    "S<=x",
    "S<",
    "S<,",
    "S<a",
    "a::S",
    "a::S{}",
    "a::b::S{}",
    "a::S<T>{f}",
    "0x1::S{f}",
    "0x1::S",
    "1{}",
    "1",
    "S{0}",
    "S{f:1}",
    "S{f:1::S{}}",
    "S{if}",
    "S{f:if}",
    "(S{f}, T<u8>{g: y}, z)",
    "S {f : T < u8 > {g}} $",
    "x $",
    "x{",
    "(x, $",
    "S{f $",
    "S{f: $",
    "_",
    "|x|",
    "|x, y|",
    "|x,|",
    "|,|",
    "||x|",
    "| |",
    "|x",
    "|x y|",
    "|x||",
    "|S{f}|",
    "|S<|a|b>{f}| y",
    "|(x)|",
    "|x| $",
    "|$",
    "x|y|",
    "|x /* c */ , // d\n S { f : _ } , | z",
];
