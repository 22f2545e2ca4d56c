//! Items whose trees are wide or just narrow: in long texts, of many records, of long names and strings.

use crate::{
    items::{self, Case, Part},
    parsing::{parse, ItemKind},
    random::Random,
    texts::filled,
};

/// Lengths of texts around the longest whose trees can be narrow, and of longer ones.
pub const LONG: [usize; 7] = [65_534, 65_535, 65_536, 65_537, 65_600, 70_000, 131_072];

/// Lengths of texts around the longest that is not refused, and a shorter one.
pub const LONGEST: [usize; 5] = [1_048_000, 1_048_574, 1_048_575, 1_048_576, 1_048_577];

/// What fills a text before an item or behind it.
const FILLINGS: [&str; 6] = [
    " ",
    "\n",
    "\r\n",
    "/*/* */ */",
    "// a line\n",
    "/** doc */\t",
];

/// The item in a text of one of the lengths, or in one that is longer by the item: behind blanks or
/// comments, at its own offset or at one before it, or in front of them.
pub fn far(random: &mut Random, case: Case, lengths: &[usize]) -> Case {
    let length = random.pick(lengths);
    let left = length
        - random
            .pick(&[0, case.text.len(), case.text.len()])
            .min(length);
    let filling = random.pick(&FILLINGS);
    if random.once_in(4) {
        // The line feed ends a comment that stands open behind the item.
        let filler = filler(filling, left.saturating_sub(1));
        let text = [&case.text, &b"\n"[..], filler.as_bytes()].concat();
        return Case { text, ..case };
    }
    let at = match random.below(8) {
        0 => 0,
        1 => random.below(left + 1),
        _ => left + case.at,
    };
    let text = [filler(filling, left).as_bytes(), &case.text].concat();
    Case { text, at, ..case }
}

/// The filling as often as it goes, then blanks.
fn filler(filling: &str, length: usize) -> String {
    let mut filler = filling.repeat(length / filling.len());
    filler += &" ".repeat(length - filler.len());
    filler
}

/// An item that is mostly a list: what opens it, something of one record that fills it up, what stands
/// behind that, the list's items, and what closes it.
#[derive(Clone, Copy)]
pub struct List<'t> {
    kind: ItemKind,
    part: Part,
    open: &'t str,
    one: &'t str,
    middle: &'t str,
    item: &'t str,
    close: &'t str,
}

impl List<'_> {
    fn spelled(&self, ones: usize, items: usize) -> Case {
        let (ones, items) = (self.one.repeat(ones), self.item.repeat(items));
        let text = [self.open, &ones, self.middle, &items, self.close].concat();
        items::whole(self.kind, text)
    }

    /// The item of exactly so many records; None where the Rust does not read it.
    fn of_records(&self, records: usize) -> Option<Case> {
        let [two, three] = [2, 3].map(|items| records_of(&self.spelled(0, items)));
        let each = three?.checked_sub(two?).filter(|each| *each > 0)?;
        let left = records.checked_sub(two?)?;
        let case = self.spelled(left % each, 2 + left / each);
        Some(case)
    }
}

/// How many records the tree of a short item has; None where the Rust does not read it.
fn records_of(case: &Case) -> Option<usize> {
    let text = std::str::from_utf8(&case.text).ok()?;
    let tree = parse(case.kind, text, case.at).tree;
    (!tree.is_empty()).then_some(tree.len() / 8)
}

/// Items of exactly so many records, by every construct that can have many.
pub fn of_records(records: usize) -> impl Iterator<Item = Case> {
    LISTS
        .iter()
        .filter_map(move |list| list.of_records(records))
}

/// A list of about as many records as a narrow tree can have, its items spelled from the grammar.
pub fn random_list(random: &mut Random) -> Case {
    loop {
        let list = random.pick(&LISTS);
        let depth = 1 + random.below(3);
        let item = items::part(random, list.part, depth) + ",";
        let records = 8_188 + random.below(12);
        let list = List {
            item: &item,
            ..list
        };
        if let Some(case) = list.of_records(records) {
            return case;
        }
    }
}

const fn list<'t>(kind: ItemKind, part: Part, spelling: [&'t str; 5]) -> List<'t> {
    let [open, one, middle, item, close] = spelling;
    List {
        kind,
        part,
        open,
        one,
        middle,
        item,
        close,
    }
}

const fn of_types(
    kind: ItemKind,
    open: &'static str,
    item: &'static str,
    close: &'static str,
) -> List<'static> {
    list(kind, Part::Type, [open, "(),", "", item, close])
}

const fn of_binds(
    kind: ItemKind,
    open: &'static str,
    item: &'static str,
    close: &'static str,
) -> List<'static> {
    list(kind, Part::Bind, [open, "x,", "", item, close])
}

const TYPE: ItemKind = ItemKind::Type;
const BINDS: ItemKind = ItemKind::BindList;
const LAMBDA: ItemKind = ItemKind::LambdaBindList;

const LISTS: [List; 23] = [
    of_types(TYPE, "(", "a,", ")"),
    of_types(TYPE, "(", "(a),", ")"),
    of_types(TYPE, "(", "&a,&mut b,", ")"),
    of_types(TYPE, "(", "a::b,0x1::c::d,", ")"),
    of_types(TYPE, "((", "a,", "))"),
    of_types(TYPE, "&(", "a,", ")"),
    of_types(TYPE, "a<", "b,", ">"),
    of_types(TYPE, "a::b<c<", "d<e>,", ">>"),
    of_types(TYPE, "|", "a,", "|b"),
    of_types(TYPE, "|(", "a,", ")|b"),
    of_types(TYPE, "| |(", "|a|b,", ")"),
    of_types(BINDS, "S<", "a,", ">{}"),
    of_types(BINDS, "S{f: T<", "a,", ">{g}}"),
    of_types(LAMBDA, "|S<", "a,", ">{}|"),
    of_binds(BINDS, "(", "y,", ")"),
    of_binds(BINDS, "(", "S{f},", ")"),
    of_binds(BINDS, "(", "a::S<b>{f: y},", ")"),
    of_binds(LAMBDA, "|", "y,", "|"),
    of_binds(LAMBDA, "|", "S{f},", "|"),
    list(BINDS, Part::Field, ["(", "x,", "S{", "f,", "})"]),
    list(BINDS, Part::Field, ["S<", "(),", ">{", "f: x,", "}"]),
    list(
        BINDS,
        Part::Field,
        ["(", "x,", "S{f: T{", "g: U{h},", "}})"],
    ),
    list(LAMBDA, Part::Field, ["|", "x,", "S{", "f,", "}|"]),
];

/// Names, numbers and strings that fill a text of `length` bytes, in each place where one can stand:
/// also strings that are not closed, hold a byte of 128 or more, or an unprintable byte, at their ends.
pub fn leaves(length: usize) -> impl Iterator<Item = Case> {
    LEAVES.iter().map(move |(kind, before, again, after)| Case {
        kind: *kind,
        text: filled(length, before, again, after),
        at: 0,
    })
}

const LEAVES: [(ItemKind, &str, &str, &str); 33] = [
    (ItemKind::Name, "", "a", ""),
    (ItemKind::Name, "a::", "b", ""),
    (ItemKind::Name, "", "a", "::b"),
    (ItemKind::Name, "0x1::b::", "c", ""),
    (ItemKind::Name, "0x1::", "b", "::c"),
    (ItemKind::Name, "0x", "f", "::a"),
    (ItemKind::Value, "@", "a", ""),
    (ItemKind::Value, "@0x", "f", ""),
    (ItemKind::Value, "", "7", ""),
    (ItemKind::Value, "0x", "f", "u128"),
    (ItemKind::Value, "b\"", "a", "\""),
    (ItemKind::Value, "x\"", "0", "\""),
    (ItemKind::Value, "b\"", "\\\"", "\" "),
    (ItemKind::Value, "b\"", "a", "\r\""),
    (ItemKind::Value, "b\"", "a", "\u{e9}\""),
    (ItemKind::Value, "b\"", "a", ""),
    (ItemKind::Value, "x\"", "0", "\n\""),
    (TYPE, "", "a", ""),
    (TYPE, "&", "a", ""),
    (TYPE, "a<", "b", ">"),
    (TYPE, "(a,", "b", ")"),
    (TYPE, "(", "a", ",b)"),
    (TYPE, "|a|", "b", ""),
    (TYPE, "(", "a", ""),
    (BINDS, "", "x", ""),
    (BINDS, "(y,", "x", ")"),
    (BINDS, "S{", "f", "}"),
    (BINDS, "S{f:", "x", "}"),
    (BINDS, "", "S", "{f}"),
    (BINDS, "S{", "f", ""),
    (LAMBDA, "|", "x", "|"),
    (LAMBDA, "|S{", "f", "}|"),
    (LAMBDA, "|", "x", ""),
];

#[cfg(test)]
mod tests {
    use super::*;
    use crate::{expected::Text, reading::silence_the_rust, reads::expected, tree::FRONT};

    fn tree_of(case: &Case) -> Vec<u8> {
        expected(case.kind as u64, &Text::new(&case.text), case.at).written
    }

    /// Each construct has trees of exactly so many records, narrow up to 8,191.
    #[test]
    fn as_many_records_as_asked_for() {
        for records in 8_190..=8_193 {
            let cases: Vec<Case> = of_records(records).collect();
            assert_eq!(cases.len(), LISTS.len());
            for case in cases {
                let tree = tree_of(&case);
                let wide = tree.starts_with(&FRONT);
                let length = if wide { 4 + 14 * records } else { 8 * records };
                assert_eq!((wide, tree.len()), (records > 8_191, length));
            }
        }
    }

    /// Random lists are mostly accepted, and of both forms.
    #[test]
    fn random_lists_of_both_forms() {
        silence_the_rust();
        let mut random = Random::new(1);
        let trees: Vec<_> = (0..60)
            .map(|_| tree_of(&random_list(&mut random)))
            .collect();
        let wide = trees.iter().filter(|tree| tree.starts_with(&FRONT)).count();
        let accepted = trees.iter().filter(|tree| !tree.is_empty()).count();
        assert!(wide > 10 && accepted - wide > 10, "{wide} of {accepted}");
    }

    /// Texts of the lengths, and longer ones; items at their offsets, also past 65,536.
    #[test]
    fn as_far_as_asked_for() {
        let mut random = Random::new(1);
        let mut exact = 0;
        for _ in 0..100 {
            let item = items::whole(ItemKind::Type, "a<b>".to_string());
            let Case { text, at, .. } = far(&mut random, item, &LONG);
            assert!(LONG.contains(&text.len()) || LONG.contains(&(text.len() - 4)));
            assert!(at <= text.len());
            exact += usize::from(LONG.contains(&text.len()) && at + 4 == text.len());
        }
        assert!(exact > 20, "{exact}");
    }

    #[test]
    fn leaves_fill_their_texts() {
        let lengths = |length| leaves(length).all(|case| case.text.len() == length);
        assert!([10, 70_000].into_iter().all(lengths));
    }
}
