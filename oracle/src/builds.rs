//! The build of the specification: a record's kind with, for a leaf, its spelling, otherwise
//! the builds of its children; no length, start or end.

use crate::tree::FRONT;

/// The build of a stored tree's outermost record, in bytes that are equal exactly
/// where the builds are: each record's kind, then the length of its spelling and the
/// spelling, or the number of its children and the children. The records must be
/// those of an item of this text.
pub fn build_of(tree: &[u8], text: &[u8]) -> Vec<u8> {
    let mut build = vec![];
    match tree.strip_prefix(&FRONT) {
        Some(record) => push_record(&mut build, record, 4, text),
        None => push_record(&mut build, tree, 2, text),
    }
    build
}

fn push_record(build: &mut Vec<u8>, record: &[u8], width: usize, text: &[u8]) {
    let [length, kind, start, end] = header(record, width);
    assert_eq!(length, record.len(), "a record fills what is left for it");
    push_number(build, kind);
    if is_leaf(kind) {
        let spelling = &text[start..end];
        push_number(build, spelling.len());
        return build.extend_from_slice(spelling);
    }
    let count_at = build.len();
    push_number(build, 0);
    let mut children = &record[2 + 3 * width..];
    let mut count = 0;
    while !children.is_empty() {
        let [length, ..] = header(children, width);
        let (child, others) = children.split_at(length);
        push_record(build, child, width, text);
        children = others;
        count += 1;
    }
    build[count_at..count_at + 4].copy_from_slice(&(count as u32).to_le_bytes());
}

/// Whether a record of the kind has a spelling. The unit, 14, has neither that nor
/// children.
fn is_leaf(kind: usize) -> bool {
    matches!(kind, 1..=3 | 20 | 31..=35)
}

/// Length, kind, start and end, of a record whose kind has two bytes and whose other numbers have
/// `width`.
fn header(record: &[u8], width: usize) -> [usize; 4] {
    let number = |at: usize, bytes: usize| {
        let digits = record[at..at + bytes].iter().rev();
        digits.fold(0, |high, &low| high << 8 | low as usize)
    };
    [
        number(0, width),
        number(width, 2),
        number(width + 2, width),
        number(2 * width + 2, width),
    ]
}

fn push_number(build: &mut Vec<u8>, number: usize) {
    build.extend_from_slice(&(number as u32).to_le_bytes())
}

#[cfg(test)]
mod tests {
    use super::*;
    use crate::parsing::{parse, ItemKind};

    fn build(kind: ItemKind, text: &str) -> Vec<u8> {
        build_of(&parse(kind, text, 0).tree, text.as_bytes())
    }

    #[test]
    fn equal_builds() {
        for (kind, one, other) in [
            (ItemKind::Type, "(a)", " ( /* c */ a , ) "),
            (ItemKind::Type, "a<>", "a"),
            (ItemKind::Type, "(( ))", "((/* c */))"),
            (ItemKind::BindList, "S{f}", "( S { f : f , } , )"),
            (ItemKind::Name, "a::b::c", "a :: b\n::c"),
        ] {
            assert_eq!(build(kind, one), build(kind, other), "'{one}' '{other}'");
        }
    }

    #[test]
    fn different_builds() {
        for (kind, one, other) in [
            (ItemKind::Type, "a", "b"),
            (ItemKind::Type, "a", "(a)"),
            (ItemKind::Type, "(a)", "((a))"),
            (ItemKind::Type, "()", "(())"),
            (ItemKind::Type, "|a|b", "|a|(b)"),
            (ItemKind::Type, "&mut a", "& a"),
            (ItemKind::Type, "(a,b,c)", "(a,(b,c))"),
            (ItemKind::Type, "((a,b),c)", "(a,(b,c))"),
            (ItemKind::Type, "|a,b|c", "|(a,b)|c"),
            (ItemKind::Type, "|(|a|b)|c", "|a|(|b|c)"),
            (ItemKind::Type, "a<b<c>,d>", "a<b<c,d>>"),
            (ItemKind::BindList, "S<>{}", "S{}"),
            (ItemKind::BindList, "S{f:x}", "S{f}"),
            (ItemKind::Name, "1::b", "a::b"),
        ] {
            assert_ne!(build(kind, one), build(kind, other), "'{one}' '{other}'");
        }
    }
}
