//! The items that are measured. The same seed gives the same item.

use crate::texts;
use oracle::random::Random;

const STRUCTS: [&str; 6] = ["Coin", "Balance", "T", "Config", "Capability", "vector"];
const MODULES: [&str; 3] = ["Coin", "Account", "Vault"];
const BASIC: [&str; 6] = ["u8", "u64", "u128", "bool", "address", "signer"];
const FIELDS: [&str; 6] = ["value", "owner", "id", "locked", "history", "x"];

/// A type of about `length` bytes.
pub fn type_of(random: &mut Random, length: usize) -> String {
    of_length(random, length, |random| one_type(random, 3))
}

/// A binding list of about `length` bytes.
pub fn bindings_of(random: &mut Random, length: usize) -> String {
    of_length(random, length, |random| one_binding(random, 2))
}

/// One item where it is to be short, else a list of some in brackets.
fn of_length(
    random: &mut Random,
    length: usize,
    mut one: impl FnMut(&mut Random) -> String,
) -> String {
    if length < 50 {
        loop {
            let item = one(random);
            if item.len().abs_diff(length) <= 2 {
                return item;
            }
        }
    }
    let mut items = vec![];
    let mut bytes = 2;
    while bytes < length {
        items.push(one(random));
        bytes += items[items.len() - 1].len() + 2;
    }
    format!("({})", items.join(", "))
}

fn one_type(random: &mut Random, levels: usize) -> String {
    if levels == 1 {
        return random.pick(&BASIC).to_string();
    }
    match random.below(10) {
        0 => random.pick(&BASIC).to_string(),
        1 => reference("&", one_type(random, levels - 1)),
        2 => reference("&mut ", one_type(random, levels - 1)),
        3 => {
            let (first, second) = (one_type(random, levels - 1), one_type(random, levels - 1));
            format!("({first}, {second})")
        }
        4 => {
            let (argument, result) = (random.pick(&BASIC), one_type(random, levels - 1));
            format!("|{argument}| {result}")
        }
        5 | 6 => qualified(random),
        7 => {
            let arguments = [one_type(random, levels - 1), one_type(random, levels - 1)];
            format!("{}<{}>", qualified(random), arguments.join(", "))
        }
        _ => {
            let argument = one_type(random, levels - 1);
            format!("{}<{argument}>", random.pick(&STRUCTS))
        }
    }
}

fn qualified(random: &mut Random) -> String {
    let (module, name) = (random.pick(&MODULES), random.pick(&STRUCTS));
    match random.below(3) {
        0 => format!("0x1::{module}::{name}"),
        1 => format!("0x1::{name}"),
        _ => format!("{module}::{name}"),
    }
}

/// Two that meet could be one token, so a reference to a reference gets a blank.
fn reference(mark: &str, inner: String) -> String {
    match inner.starts_with('&') {
        true => format!("{mark} {inner}"),
        false => format!("{mark}{inner}"),
    }
}

fn one_binding(random: &mut Random, levels: usize) -> String {
    if levels == 0 || random.once_in(3) {
        return random.pick(&FIELDS).to_string();
    }
    let name = match random.below(3) {
        0 => qualified(random),
        1 => format!("{}<{}>", random.pick(&STRUCTS), one_type(random, 2)),
        _ => random.pick(&STRUCTS).to_string(),
    };
    let mut fields = vec![];
    for _ in 0..1 + random.below(3) {
        let field = random.pick(&FIELDS);
        fields.push(match random.below(3) {
            0 => field.to_string(),
            _ => format!("{field}: {}", one_binding(random, levels - 1)),
        });
    }
    format!("{name} {{ {} }}", fields.join(", "))
}

/// A type that goes 60 levels down, by each way there is.
pub fn nested_type(random: &mut Random) -> String {
    let mut text = random.pick(&BASIC).to_string();
    for _ in 0..59 {
        text = match random.below(6) {
            0 => format!("({text})"),
            1 => reference("&", text),
            2 => reference("&mut ", text),
            3 => format!("| | {text}"),
            4 => format!("({}, {text})", random.pick(&BASIC)),
            _ => format!("{}<{text}>", random.pick(&STRUCTS)),
        };
    }
    text
}

/// A binding that goes 60 levels down.
pub fn nested_binding(random: &mut Random) -> String {
    let mut text = random.pick(&FIELDS).to_string();
    for _ in 0..59 {
        let (name, field) = (random.pick(&STRUCTS), random.pick(&FIELDS));
        text = format!("{name} {{ {field}: {text} }}");
    }
    text
}

/// A byte string or a hex string of just `length` bytes, all of which a line can hold.
pub fn string_of(random: &mut Random, length: usize) -> String {
    let mut text = random.pick(&["b\"", "x\""]).to_string();
    while text.len() + 1 < length {
        let byte = 32 + random.byte() % 95;
        text.push(if matches!(byte, b'"' | b'\\') {
            'a'
        } else {
            byte as char
        });
    }
    text + "\""
}

/// A flat list of types: names of such a length that its tree is not too long.
pub fn flat_types(random: &mut Random, length: usize) -> String {
    flat(random, length, |random, name| {
        let reference = random.pick(&["", "", "", "&"]);
        format!("{reference}{name}")
    })
}

/// A flat list of bindings.
pub fn flat_bindings(random: &mut Random, length: usize) -> String {
    flat(random, length, |random, name| match random.below(4) {
        0 => format!("{name} {{ {} }}", random.pick(&FIELDS)),
        _ => name,
    })
}

fn flat(
    random: &mut Random,
    length: usize,
    mut item: impl FnMut(&mut Random, String) -> String,
) -> String {
    let mut text = "(".to_string();
    loop {
        let first = random.pick(&["total", "Account", "Registry", "pending"]);
        let second = random.pick(&["_supply_of", "BalanceOf", "_index_in", "ConfigFor"]);
        let name = format!("{first}{second}_{}", random.pick(&STRUCTS));
        let item = item(random, name);
        if text.len() + item.len() + 3 > length {
            return text + ")";
        }
        if text.len() > 1 {
            text += ", ";
        }
        text += &item;
    }
}

/// Short types, each behind two comments: a list whose line is short.
pub fn types_among_comments(random: &mut Random, length: usize) -> String {
    spread(random, length, |random| {
        texts::comment(random) + &texts::comment(random)
    })
}

/// The same with blanks and a line feed in place of comments.
pub fn types_among_blanks(random: &mut Random, length: usize) -> String {
    spread(random, length, |random| {
        "\n".to_string() + &" ".repeat(120 + random.below(80))
    })
}

/// A flat list of short types, with a gap before each.
fn spread(random: &mut Random, length: usize, gap: impl Fn(&mut Random) -> String) -> String {
    let mut text = "(".to_string();
    loop {
        let item = gap(random) + random.pick(&["u8", "T", "Coin", "&T", "bool"]) + ",";
        if text.len() + item.len() + 1 > length {
            return text + ")";
        }
        text += &item;
    }
}
