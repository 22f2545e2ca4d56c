//! Items that could be taken for one another: sentences of few tokens, all of them, and
//! other spellings and other nestings of one item.

use crate::{
    items::meet,
    parsing::{parse, ItemKind},
    random::Random,
    reading::{Outcome, Reading},
    texts::push_comment,
};

/// Every item of up to `longest` of these tokens, and everything that such an item may
/// begin with: a text is made longer as long as the Rust reads it to its end.
pub fn every_sentence(
    kind: ItemKind,
    tokens: &[&str],
    longest: usize,
    visit: &mut impl FnMut(&str),
) {
    longer(&mut String::new(), kind, tokens, longest, visit)
}

fn longer(
    text: &mut String,
    kind: ItemKind,
    tokens: &[&str],
    left: usize,
    visit: &mut impl FnMut(&str),
) {
    visit(text);
    if left == 0 || parse(kind, text, 0).reached < text.len() {
        return;
    }
    let length = text.len();
    for token in tokens {
        push_token(text, token, "");
        longer(text, kind, tokens, left - 1, visit);
        text.truncate(length);
    }
}

/// Writes a gap and a token; a blank if the two would else meet in one token.
fn push_token(text: &mut String, token: &str, gap: &str) {
    *text += gap;
    let last = text.bytes().last().unwrap_or(b' ');
    if meet(last, token.as_bytes()[0]) {
        *text += " ";
    }
    *text += token;
}

/// Texts with the tokens of the item and other gaps, and texts whose tokens are a little
/// other ones: brackets put in, taken out or moved, commas, arguments and fields spelled
/// in another way. Most are items again.
pub fn variants(random: &mut Random, kind: ItemKind, text: &str, count: usize) -> Vec<String> {
    let parse = parse(kind, text, 0);
    let end = parse.item.map_or(text.len(), |_| parse.reached);
    let tokens = tokens_of(&text[..end]);
    (0..count)
        .map(|turn| {
            let mut tokens = tokens.clone();
            for _ in 0..turn % 4 {
                edit(random, &mut tokens);
            }
            spelled(random, &tokens)
        })
        .collect()
}

/// The tokens of the text, up to a refusal. `>>` counts as two.
fn tokens_of(text: &str) -> Vec<&str> {
    let mut reading = Reading::new(text, 0);
    let mut tokens = vec![];
    loop {
        match reading.advance() {
            Outcome::Token { kind, start, end } if kind != 0 => match &text[start..end] {
                ">>" => tokens.extend([">", ">"]),
                token => tokens.push(token),
            },
            _ => return tokens,
        }
    }
}

fn spelled(random: &mut Random, tokens: &[&str]) -> String {
    let gaps = random.below(4);
    let mut text = String::new();
    for token in tokens {
        let mut gap = String::new();
        match random.below(6) {
            0 if gaps > 0 => gap += " ",
            1 if gaps > 1 => gap += random.pick(&["  ", "\t", "\n", "\r\n"]),
            2 if gaps > 2 => push_comment(random, &mut gap),
            _ => (),
        }
        push_token(&mut text, token, &gap);
    }
    text
}

fn edit(random: &mut Random, tokens: &mut Vec<&str>) {
    match random.below(10) {
        0 | 1 => bracket(random, tokens),
        2 => unbracket(random, tokens),
        3 => {
            unbracket(random, tokens);
            bracket(random, tokens)
        }
        4 => {
            let mark = random.pick(&[")", ">", "}", "|"]);
            put_before(random, tokens, ",", mark)
        }
        5 => take_out(random, tokens, ","),
        6 => add_empty_arguments(random, tokens),
        7 => drop_empty_arguments(random, tokens),
        8 => name_a_field_in_the_other_way(random, tokens),
        _ => {
            let (mark, other) = random.pick(&[("&", "&mut "), ("&mut ", "&")]);
            if let Some(place) = one_of(random, tokens, mark) {
                tokens[place] = other;
            }
        }
    }
}

/// Puts brackets round some items that stand side by side.
fn bracket(random: &mut Random, tokens: &mut Vec<&str>) {
    let starts = |at: &usize| *at == 0 || OPENERS.contains(&tokens[*at - 1]);
    let opens: Vec<usize> = (0..=tokens.len()).filter(starts).collect();
    let open = random.pick(&opens);
    let ends = |at: &usize| tokens.get(*at).is_none_or(|token| CLOSERS.contains(token));
    let closes: Vec<usize> = whole_up_to(tokens, open).into_iter().filter(ends).collect();
    if !closes.is_empty() {
        tokens.insert(random.pick(&closes), ")");
        tokens.insert(open, "(");
    }
}

/// Tokens behind which an item starts, and tokens before which it ends.
const OPENERS: [&str; 7] = ["(", "<", "|", ",", ":", "&", "&mut "];
const CLOSERS: [&str; 5] = [")", ">", "|", ",", "}"];

/// Takes out a bracket and the one that closes it.
fn unbracket(random: &mut Random, tokens: &mut Vec<&str>) {
    if let Some(open) = one_of(random, tokens, "(") {
        let inner = whole_up_to(tokens, open + 1);
        let close = inner.into_iter().find(|at| tokens.get(*at) == Some(&")"));
        if let Some(close) = close {
            tokens.remove(close);
            tokens.remove(open);
        }
    }
}

/// The places from `start` on up to which each list that is opened is closed too.
fn whole_up_to(tokens: &[&str], start: usize) -> Vec<usize> {
    let mut places = vec![start];
    let mut open = 0;
    for (at, token) in tokens.iter().enumerate().skip(start) {
        match *token {
            "(" | "<" | "{" => open += 1,
            ")" | ">" | "}" if open == 0 => return places,
            ")" | ">" | "}" => open -= 1,
            _ => (),
        }
        if open == 0 {
            places.push(at + 1);
        }
    }
    places
}

/// One of the places where the token stands.
fn one_of(random: &mut Random, tokens: &[&str], token: &str) -> Option<usize> {
    one_where(random, tokens, |at| tokens[at] == token)
}

fn one_where(random: &mut Random, tokens: &[&str], fits: impl Fn(usize) -> bool) -> Option<usize> {
    let places: Vec<usize> = (0..tokens.len()).filter(|at| fits(*at)).collect();
    (!places.is_empty()).then(|| random.pick(&places))
}

fn take_out(random: &mut Random, tokens: &mut Vec<&str>, token: &str) {
    if let Some(place) = one_of(random, tokens, token) {
        tokens.remove(place);
    }
}

fn put_before<'t>(random: &mut Random, tokens: &mut Vec<&'t str>, token: &'t str, mark: &str) {
    if let Some(place) = one_of(random, tokens, mark) {
        tokens.insert(place, token);
    }
}

/// `S<>` for `S`.
fn add_empty_arguments(random: &mut Random, tokens: &mut Vec<&str>) {
    let name = |at: usize| tokens[at].starts_with(|byte: char| byte.is_alphabetic());
    let last = |at: usize| !matches!(tokens.get(at + 1), Some(&("::" | "<")));
    if let Some(place) = one_where(random, tokens, |at| name(at) && last(at)) {
        tokens.splice(place + 1..place + 1, ["<", ">"]);
    }
}

/// `S` for `S<>`.
fn drop_empty_arguments(random: &mut Random, tokens: &mut Vec<&str>) {
    if let Some(place) = one_of(random, tokens, "<") {
        if tokens.get(place + 1) == Some(&">") {
            tokens.drain(place..place + 2);
        }
    }
}

/// `f: f` for `f` or the other way round.
fn name_a_field_in_the_other_way(random: &mut Random, tokens: &mut Vec<&str>) {
    let first = |at: usize| at > 0 && matches!(tokens[at - 1], "{" | ",");
    let Some(place) = one_where(random, tokens, first) else {
        return;
    };
    let name = tokens[place];
    if tokens[place + 1..].starts_with(&[":", name]) {
        tokens.drain(place..place + 2);
    } else {
        tokens.splice(place..place, [name, ":"]);
    }
}

#[cfg(test)]
mod tests {
    use super::*;
    use crate::{builds::build_of, items, reading::silence_the_rust};
    use std::collections::BTreeSet;

    fn accepted(kind: ItemKind, text: &str) -> bool {
        parse(kind, text, 0).item.is_some()
    }

    #[test]
    fn sentences() {
        let mut texts = BTreeSet::new();
        every_sentence(ItemKind::Type, &["a", "(", ")", ",", "|"], 5, &mut |text| {
            if accepted(ItemKind::Type, text) {
                texts.insert(text.to_string());
            }
        });
        for text in ["a", "(a)", "(a,a)", "((a))", "|a|a", "| |a", "| | | |a"] {
            assert!(texts.contains(text), "'{text}'");
        }
        // What follows an item is one token at most.
        assert!(texts.contains("a)") && !texts.contains("a))"));
    }

    #[test]
    fn variants_of_an_item_are_items_of_several_builds() {
        silence_the_rust();
        let mut random = Random::new(1);
        let (mut items, mut builds, mut all) = (0, 0, 0);
        for _ in 0..50 {
            let case = items::case(&mut random, ItemKind::Type, 3);
            let Ok(text) = std::str::from_utf8(&case.text[case.at..]) else {
                continue;
            };
            let texts = variants(&mut random, ItemKind::Type, text, 12);
            all += texts.len();
            let different: BTreeSet<Vec<u8>> = texts
                .iter()
                .filter(|text| accepted(ItemKind::Type, text))
                .map(|text| {
                    items += 1;
                    build_of(&parse(ItemKind::Type, text, 0).tree, text.as_bytes())
                })
                .collect();
            builds += different.len();
        }
        assert!(
            items * 3 > 2 * all && builds > 75,
            "{items} {builds} of {all}"
        );
    }
}
