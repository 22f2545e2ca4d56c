//! Items to read: names, values, types and bindings spelled from the grammar, as deep
//! as is asked for, with gaps of all kinds, and something before and behind them.

use crate::{
    parsing::ItemKind,
    random::Random,
    texts::{push_comment, push_name, GAPS, KEYWORDS, NAMES, STRINGS},
};

/// A text, and where in it an item of a kind starts.
pub struct Case {
    pub kind: ItemKind,
    pub text: Vec<u8>,
    pub at: usize,
}

/// What stands before an item. Behind most of them reading may begin, unless the item's first token is one
/// with what stands there; the last four are refused in the walk to the item, or reach into it.
const BEFORE: [&str; 20] = [
    "", "", "", "", " ", "let ", "a::", "x: ", "T<", ">>", "/* */\t", "/** */", "///\r\n", "//\n",
    "0x1,", "x: &mut ", "/*", "b\"", "$", "\u{e9}",
];

/// What stands behind it.
const BEHIND: [&str; 28] = [
    "",
    "",
    "",
    " ",
    "\r\n",
    ";",
    ")",
    "}",
    ">",
    ">>",
    ">=",
    ">>=",
    " = 1",
    ", b",
    "::",
    "::c",
    " a",
    "<",
    "<<",
    "{",
    "|",
    "||",
    "//",
    "$",
    " /*",
    " b\"",
    " x\"\u{e9}\"",
    "/**/ \u{e9}",
];

/// An item whose deepest part is about `depth` levels down.
pub fn case(random: &mut Random, kind: ItemKind, depth: usize) -> Case {
    let before = random.pick(&BEFORE);
    let mut speller = Speller {
        text: before.to_string(),
        gaps: random.below(4),
        spine: random.below(12),
        faults: random.once_in(4),
        random,
    };
    speller.item(kind, depth);
    let behind = speller.random.pick(&BEHIND);
    Case {
        kind,
        text: (speller.text + behind).into_bytes(),
        at: before.len(),
    }
}

/// What a list consists of.
#[derive(Clone, Copy, PartialEq, Eq, Debug)]
pub enum Part {
    Type,
    Bind,
    Field,
}

/// Something that a list can have among its items, without faults.
pub fn part(random: &mut Random, part: Part, depth: usize) -> String {
    let mut speller = Speller {
        text: String::new(),
        gaps: random.below(4),
        spine: random.below(12),
        faults: false,
        random,
    };
    match part {
        Part::Type => speller.argument(depth),
        Part::Bind => speller.bind(depth),
        Part::Field => speller.field(depth),
    }
    speller.text
}

/// Writes an item token by token.
struct Speller<'r> {
    random: &'r mut Random,
    text: String,
    /// How much stands between tokens: from 0, only what must, to 3, comments too.
    gaps: usize,
    /// Which construct leads down: one for all levels or, from 8 on, any.
    spine: usize,
    /// Whether some tokens are not what the grammar asks for.
    faults: bool,
}

impl Speller<'_> {
    fn item(&mut self, kind: ItemKind, depth: usize) {
        match kind {
            ItemKind::Name => self.chain(),
            ItemKind::Value => self.value(),
            ItemKind::Type => self.type_(depth),
            ItemKind::BindList if self.random.once_in(2) => self.bind(depth),
            ItemKind::BindList => self.list("(", ")", depth, Speller::bind),
            ItemKind::LambdaBindList => self.list("|", "|", depth, Speller::bind),
        }
    }

    fn token(&mut self, token: &str) {
        let last = self.text.bytes().last().unwrap_or(b' ');
        if !meet(last, token.as_bytes()[0]) {
            self.gap();
        } else if !self.fault(64) {
            // Else the two are left to be one token.
            self.text += " ";
        }
        self.text += token;
    }

    fn gap(&mut self) {
        match self.random.below(8) {
            0 if self.gaps > 0 => self.text += " ",
            1 if self.gaps > 1 => self.text += self.random.pick(&GAPS),
            2 | 3 if self.gaps > 2 => {
                push_comment(self.random, &mut self.text);
            }
            _ => (),
        }
    }

    /// True once in `times` tries, where there are to be faults.
    fn fault(&mut self, times: usize) -> bool {
        self.faults && self.random.once_in(times)
    }

    fn name(&mut self) {
        if self.fault(100) {
            let keyword = self.random.pick(&KEYWORDS);
            return self.token(keyword);
        }
        match self.random.below(100) {
            0..=9 => {
                let mut name = String::new();
                push_name(self.random, &mut name);
                self.token(&name)
            }
            10..=39 => {
                let name = self.random.pick(&NAMES);
                self.token(name)
            }
            _ => {
                let name = self.random.pick(&["a", "S", "T", "x", "b", "u8"]);
                self.token(name)
            }
        }
    }

    fn number(&mut self) {
        let number = match self.fault(20) {
            true => self.random.pick(&["0x", "0xg", "1u8"]),
            false => self.random.pick(&["0", "1", "0x1", "42", "0xCafe"]),
        };
        self.token(number)
    }

    fn chain(&mut self) {
        let parts = self.random.pick(&[1, 1, 1, 1, 2, 3]);
        let numbered = match parts {
            1 => self.fault(100),
            _ => self.random.once_in(3),
        };
        if numbered {
            self.number();
        } else {
            self.name();
        }
        for _ in 1..parts {
            self.token("::");
            self.name();
        }
    }

    fn value(&mut self) {
        match self.random.below(8) {
            0 => self.token("true"),
            1 => self.token("false"),
            2 => self.number(),
            3 => {
                let number = self.random.pick(&["1u8", "0xu64", "0xFu128", "7u64"]);
                self.token(number)
            }
            4 | 5 => {
                let string = self.random.pick(&STRINGS);
                self.token(string)
            }
            6 => {
                self.token("@");
                self.number()
            }
            _ => {
                self.token("@");
                self.name()
            }
        }
    }

    /// One to three items, of which one leads down.
    fn list(&mut self, open: &str, close: &str, depth: usize, item: fn(&mut Self, usize)) {
        self.token(open);
        let count = self.random.pick(&[1, 1, 1, 1, 2, 3]);
        let deep = self.random.below(count);
        for at in 0..count {
            if at > 0 {
                self.token(",");
            }
            let shallow = self.random.pick(&[1, 1, 1, 2]);
            let levels = if at == deep {
                depth
            } else {
                shallow.min(depth)
            };
            item(self, levels);
        }
        if self.random.once_in(6) {
            self.token(",");
        }
        self.token(close);
    }

    fn type_(&mut self, depth: usize) {
        let way = self.way();
        self.type_by(way, depth)
    }

    /// An argument of a function type. One that starts with `|` would end the list,
    /// so it mostly gets brackets.
    fn argument(&mut self, depth: usize) {
        let way = self.way();
        let function = way == 4 || way == 5;
        let bracketed = function && !self.fault(16);
        self.type_by(if bracketed { 0 } else { way }, depth)
    }

    fn way(&mut self) -> usize {
        match self.spine {
            8.. => self.random.below(8),
            way => way,
        }
    }

    fn type_by(&mut self, way: usize, depth: usize) {
        if depth <= 1 {
            return self.flat_type();
        }
        let deeper = depth - 1;
        match way {
            0 | 1 => self.list("(", ")", deeper, Speller::type_),
            2 | 3 => {
                self.token(if way == 2 { "&" } else { "&mut " });
                self.type_(deeper)
            }
            4 => {
                self.list("|", "|", deeper, Speller::argument);
                self.type_(1)
            }
            5 => {
                self.list("|", "|", 1, Speller::argument);
                self.type_(deeper)
            }
            _ => {
                self.chain();
                self.list("<", ">", deeper, Speller::type_)
            }
        }
    }

    fn flat_type(&mut self) {
        match self.random.below(12) {
            0 => {
                self.token("(");
                self.token(")")
            }
            1 => {
                self.chain();
                self.token("<");
                self.token(">")
            }
            _ => self.chain(),
        }
    }

    fn bind(&mut self, depth: usize) {
        if depth <= 1 {
            return self.flat_bind();
        }
        let deeper = depth - 1;
        self.chain();
        match self.random.below(8) {
            0 => {
                self.list("<", ">", deeper, Speller::type_);
                return self.list("{", "}", 1, Speller::field);
            }
            1 => self.list("<", ">", 1, Speller::type_),
            _ => (),
        }
        self.list("{", "}", deeper, Speller::field)
    }

    fn flat_bind(&mut self) {
        let way = self.random.below(8);
        if way > 1 {
            return self.name();
        }
        self.chain();
        if way == 1 {
            self.token("<");
            self.token(">");
        }
        self.token("{");
        self.token("}")
    }

    fn field(&mut self, depth: usize) {
        self.name();
        if depth > 1 || self.random.once_in(2) {
            self.token(":");
            self.bind(depth)
        }
    }
}

/// Whether two bytes that meet belong, or may belong, to one token.
pub fn meet(last: u8, next: u8) -> bool {
    let word = |byte: u8| byte.is_ascii_alphanumeric() || byte == b'_';
    match (last, next) {
        (b'|', b'|') | (b'&', b'&') | (b':', b':') | (b'<', b'<') | (b'/', b'/' | b'*') => true,
        (b'x' | b'b', b'"') => true,
        _ => word(last) && word(next),
    }
}

/// Nests of `count` constructs of one sort, closed and open, round different things.
pub fn nests(count: usize) -> Vec<Case> {
    const OF_TYPES: [(&str, &str); 13] = [
        ("(", ")"),
        ("(", ",)"),
        ("(a,", ")"),
        ("(", ",a)"),
        ("& ", ""),
        ("&mut ", ""),
        ("a<", ">"),
        ("a<", ",>"),
        ("0x1::a<b,", ">"),
        ("| | ", ""),
        ("|a| ", ""),
        ("|(", ")|a"),
        ("|&", "|a"),
    ];
    const OF_BINDS: [(&str, &str); 6] = [
        ("S{f:", "}"),
        ("S{f:", ",}"),
        ("S<>{f:", "}"),
        ("S<a>{f:", "}"),
        ("S{g,f:", "}"),
        ("0::S::T{f :", ", g}"),
    ];
    const TYPES: [&str; 24] = [
        "u8",
        "",
        ",",
        "()",
        "(u8)",
        "a<>",
        "a<b>",
        "a::",
        "0",
        "0x1::a",
        "&",
        "&a",
        "&mut ",
        "| |",
        "| |a",
        "||",
        "$",
        ">>",
        ")",
        ">",
        "/*",
        "b\"\u{e9}\"",
        "/**/a",
        "a $",
    ];
    const BINDS: [&str; 24] = [
        "x",
        "",
        ",",
        "S{f}",
        "S{f:x}",
        "S{f,}",
        "S{}",
        "S{,",
        "S{",
        "S<u8>{}",
        "S<(u8)>{}",
        "S<>{}",
        "S<",
        "S",
        "0",
        "0::S{}",
        "$",
        "}",
        ">>",
        "/*",
        "b\"\u{e9}\"",
        "/**/x",
        "x $",
        "(x)",
    ];
    let mut cases = vec![];
    for (open, close) in OF_TYPES {
        for inner in TYPES {
            let nest = nest(count, open, inner, close);
            cases.push(whole(ItemKind::Type, nest));
            let half = open.repeat(count) + inner;
            cases.push(whole(ItemKind::BindList, format!("S<{half}")));
            cases.push(whole(ItemKind::Type, half));
        }
    }
    for (open, close) in OF_BINDS {
        for inner in BINDS {
            let nest = nest(count, open, inner, close);
            cases.push(whole(ItemKind::LambdaBindList, format!("|{nest}|")));
            cases.push(whole(ItemKind::BindList, format!("(y, {nest})")));
            cases.push(whole(ItemKind::BindList, nest));
            cases.push(whole(ItemKind::BindList, open.repeat(count) + inner));
        }
    }
    cases
}

fn nest(count: usize, open: &str, inner: &str, close: &str) -> String {
    open.repeat(count) + inner + &close.repeat(count)
}

/// A text that is an item.
pub fn whole(kind: ItemKind, text: String) -> Case {
    Case {
        kind,
        text: text.into_bytes(),
        at: 0,
    }
}

/// Long texts: flat lists and other items that fill a text of `length` bytes.
pub fn long(length: usize) -> Vec<Case> {
    let flat = |kind, open: &str, item: &str, close: &str| {
        let count = length.saturating_sub(open.len() + close.len()) / item.len();
        let mut text = open.to_string() + &item.repeat(count) + close;
        text += &" ".repeat(length.saturating_sub(text.len()));
        whole(kind, text)
    };
    let (types, binds, lambda) = (ItemKind::Type, ItemKind::BindList, ItemKind::LambdaBindList);
    let mut cases = vec![
        flat(types, "(", "a,", ")"),
        flat(types, "(", "a_name_of_some_length, ", ")"),
        flat(types, "|", "0x1::Module::Struct,", "|u8"),
        flat(types, "a<", "&mut T /* so */,\r\n", ">"),
        flat(types, "a<", "()", ">"),
        flat(types, "(", "/**/", "u8)"),
        flat(types, "//", "x", "\nu8"),
        flat(types, "u8", " ", ""),
        flat(types, "", " ", "u8"),
        flat(binds, "(", "x,", ")"),
        flat(binds, "(", "a_name,", ")"),
        flat(binds, "S{", "f,", "}"),
        flat(binds, "S<", "a,", ">{}"),
        flat(binds, "S{", "field_a: S { g, h: y },\n", "}"),
        flat(lambda, "|", "x,", "|"),
        flat(lambda, "|", "S { f: x, g: y }, ", "|"),
        flat(ItemKind::Name, "a", "a", "::b"),
        flat(ItemKind::Value, "b\"", "a", "\""),
        flat(ItemKind::Value, "x\"", "0", ""),
        flat(ItemKind::Value, "0x", "f", "u8"),
    ];
    if length <= 131_072 {
        // The Rust calls itself once more for each level.
        cases.extend([
            flat(types, "", "(", ""),
            flat(types, "", "& ", ""),
            flat(types, "", "a<", ""),
            flat(types, "", "| | ", "a"),
            flat(types, "", "|(", ""),
            flat(binds, "", "S{f:", ""),
        ]);
    }
    cases
}

/// Flat lists of `count` items, with and without one that takes more records.
pub fn counted(count: usize) -> Vec<Case> {
    let mut cases = vec![];
    for (kind, open, item, close) in [
        (ItemKind::Type, "(", "a,", ")"),
        (ItemKind::Type, "(&u8,", "a,", ")"),
        (ItemKind::Type, "|", "a,", "|b"),
        (ItemKind::Type, "a<", "b,", ">"),
        (ItemKind::Type, "a<(),", "b,", ">"),
        (ItemKind::BindList, "(", "a,", ")"),
        (ItemKind::BindList, "S<", "a,", ">{f}"),
        (ItemKind::BindList, "S{", "f,", "}"),
        (ItemKind::LambdaBindList, "|", "a,", "|"),
    ] {
        cases.push(whole(kind, open.to_string() + &item.repeat(count) + close));
    }
    cases
}

/// Items whose lines have 65,535 bytes or, by up to `around` items or bytes, more or less.
pub fn with_long_lines(around: usize) -> Vec<Case> {
    let (types, binds, lambda) = (ItemKind::Type, ItemKind::BindList, ItemKind::LambdaBindList);
    let list = |count| format!("({})", "a,".repeat(count));
    // Trees that are wide, and lines that are not too long.
    let mut cases = vec![whole(types, list(5_000)), whole(binds, list(10_000))];
    for step in 0..=2 * around {
        // An item takes 3 bytes of line: `a, `.
        let count = 21_845 + step - around;
        let items = "a,".repeat(count);
        let fewer = &items[2..];
        // A field that binds its own name shows it twice.
        let field = "f".repeat(32_763 + step - around);
        let name = "a".repeat(65_535 + step - around);
        for (kind, text) in [
            (types, list(count)),
            (types, format!("a<{fewer}>")),
            (types, format!("|{fewer}|a")),
            (binds, list(count)),
            (binds, format!("S<{fewer}>{{}}")),
            (binds, format!("S{{{field}}}")),
            (binds, format!("SS{{{field}}}")),
            (binds, format!("a::S<u8>{{{field}}}")),
            (lambda, format!("|{items}|")),
            (lambda, format!("|S{{{field},}}|")),
            (lambda, format!("|SS{{{field},}}|")),
            // Leaves that fill the text.
            (ItemKind::Name, name.clone()),
            (ItemKind::Value, format!("@{}", &name[1..])),
            (types, name.clone()),
            (types, format!("&{}", &name[1..])),
            (types, format!("| |{}", &name[3..])),
            (binds, name[2..].to_string()),
            (lambda, format!("|{}|", &name[2..])),
        ] {
            cases.push(whole(kind, text));
        }
    }
    cases
}

#[cfg(test)]
mod tests {
    use super::*;
    use crate::{expected::Text, reading::silence_the_rust, reads::expected};

    /// How many of a hundred items that deep are accepted, and refused with 14.
    fn accepted_and_too_deep(depth: usize) -> (usize, usize) {
        let mut random = Random::new(depth as u64);
        let results: Vec<u32> = (0..100)
            .map(|turn| {
                let kind = ItemKind::ALL[2 + turn % 3];
                let Case { text, at, .. } = case(&mut random, kind, depth);
                let given = expected(kind as u64, &Text::new(&text), at);
                given.answer.expect("a listed cause").result
            })
            .collect();
        let count = |number| results.iter().filter(|result| **result == number).count();
        (count(0), count(14))
    }

    #[test]
    fn as_deep_as_asked_for() {
        silence_the_rust();
        for depth in [1, 5, 30, 63] {
            let (accepted, too_deep) = accepted_and_too_deep(depth);
            assert!(accepted > 40 && too_deep == 0, "{depth}: {accepted}");
        }
        // the others have a fault that is met earlier, in the item or before it
        let (accepted, too_deep) = accepted_and_too_deep(65);
        assert!(accepted == 0 && too_deep > 50, "{too_deep}");
    }
}
