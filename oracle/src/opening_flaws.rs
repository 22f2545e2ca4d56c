//! Openers that are wrong on purpose, put in the place of the port's calls: the comparison must find each. They are a
//! third way to open a tree, a loop over the heads as parents that keeps the earliest fault; without a flaw it must
//! agree with the recursion.

use crate::{
    answer::Answer,
    expected::LONGEST,
    opening::{along, Form, Head, KINDS, NONE},
    opening_sets::{small, Calls, Comparison},
    random::Random,
};

const SOUND: usize = 0;
const EVERY_TREE: usize = 1;
const FIRST_MET: usize = 2;
const OUTER_BLAMED: usize = 3;
const SPAN_IN_TEXT: usize = 4;
const TYPE_BEHIND_FIELD: usize = 5;
const NONE_MISSING: usize = 6;
const LEVEL_BEFORE_TESTS: usize = 7;
const LEVEL_LATE: usize = 8;
const OUTERMOST_ALONE: usize = 9;
const NO_FRONT: usize = 10;
const NO_BRACKETS: usize = 11;
const IN_ORDER: usize = 12;
const LENGTH_NOT_TESTED: usize = 13;
const KIND_BEHIND_SPAN: usize = 14;
const FIELD_NO_LEVEL: usize = 15;
const ONE_OFF: usize = 16;
const ANY_FOURTH: usize = 17;
const CHILD_NOT_OPENED: usize = 18;
const FLAWS: usize = 19;

/// The first fault so far: where it stands, and what is blamed for what.
struct Kept {
    place: usize,
    number: u32,
    record: usize,
}

/// The kinds of children that a parent may have at an index, and how many it has at least.
fn slots(kind: usize, index: usize) -> (&'static [usize], usize) {
    const TYPES: [usize; 7] = [10, 11, 12, 13, 14, 15, 16];
    const TYPES_OR_FIELDS: [usize; 8] = [10, 11, 12, 13, 14, 15, 16, 24];
    let (all, least): ([&[usize]; 3], usize) = match kind {
        4 | 6 => ([&[1, 2], &[1], &[]], 2),
        5 => ([&[6], &[1], &[]], 2),
        10 => ([&[3, 4, 5], &TYPES, &TYPES], 1),
        11 | 12 | 16 => ([&TYPES, &[], &[]], 1),
        13 => ([&TYPES, &TYPES, &TYPES], 1),
        15 => ([&TYPES, &TYPES, &TYPES], 2),
        21 => ([&[3, 4, 5], &[24], &[24]], 1),
        22 => ([&[3, 4, 5], &TYPES_OR_FIELDS, &TYPES_OR_FIELDS], 1),
        24 => ([&[1], &[20, 21, 22], &[]], 2),
        25 | 26 => ([&[20, 21, 22], &[20, 21, 22], &[20, 21, 22]], 0),
        30 => ([&[1, 2], &[], &[]], 1),
        _ => ([&[], &[], &[]], 0),
    };
    (all[index.min(2)], least)
}

fn deepens<const FLAW: usize>(kind: usize) -> bool {
    (10..=16).contains(&kind) || kind == 24 && FLAW != FIELD_NO_LEVEL
}

/// 15 to 17 of a head in so much room, with the kinds that may stand there and the span around it.
fn fault<const FLAW: usize>(
    form: Form,
    head: Option<Head>,
    room: usize,
    allowed: Option<&[usize]>,
    (from, to): (usize, usize),
) -> u32 {
    let Some(head) = head.filter(|_| room >= form.head()) else {
        return 15;
    };
    if head.length < form.head() || head.length > room {
        return 15;
    }
    let outside = head.end < head.start || head.start < from || head.end > to;
    if FLAW == KIND_BEHIND_SPAN && outside {
        return 17;
    }
    if !KINDS.contains(&head.kind) || FLAW == NO_BRACKETS && head.kind == 16 {
        return 16;
    }
    let allowed = allowed.is_none_or(|kinds| kinds.contains(&head.kind));
    match !allowed || outside {
        true => 17,
        false => 0,
    }
}

/// What is wrong first among the children of the record at an offset.
fn children<const FLAW: usize>(
    form: Form,
    tree: &[u8],
    parent: usize,
    head: &Head,
    text: usize,
) -> Option<Kept> {
    let (mut at, end) = (parent + form.head(), parent + head.length);
    let (mut index, mut field, mut last) = (0, false, 0);
    while at < end {
        let child = Head::at(form, tree, at);
        let (kinds, _) = slots(head.kind, index);
        let span = match FLAW {
            SPAN_IN_TEXT => (0, text),
            _ => (head.start, head.end),
        };
        let mut number = fault::<FLAW>(form, child, end - at, Some(kinds), span);
        if let Some(child) = child.filter(|_| number == 0) {
            let type_behind = field && (10..=16).contains(&child.kind);
            if FLAW != TYPE_BEHIND_FIELD && type_behind || FLAW == IN_ORDER && child.start < last {
                number = 17;
            }
            last = child.start;
            field |= child.kind == 24;
        }
        if number != 0 {
            let (place, record) = (at, at);
            return Some(Kept {
                place,
                number,
                record,
            });
        }
        at += child.map_or(0, |child| child.length);
        index += 1;
    }
    let (_, least) = slots(head.kind, index);
    (index < least && FLAW != NONE_MISSING).then_some(Kept {
        place: end,
        number: 17,
        record: parent,
    })
}

/// Opens bytes over a text: the outermost head, or a refusal.
fn scanned<const FLAW: usize>(tree: &[u8], text: usize) -> Answer {
    if text > LONGEST {
        return Answer::refused(1, 0, 0);
    }
    let form = Form::of(tree);
    let first = form.first();
    let front = if FLAW == NO_FRONT { first } else { 0 };
    let refused = |number, at: usize| Answer::refused(number, at - front, at - front);
    let outermost = Head::at(form, tree, first);
    let room = tree.len() - first;
    let mut number = fault::<FLAW>(form, outermost, room, None, (0, text));
    let whole = outermost.is_none_or(|head| head.length == room);
    if !whole && FLAW != LENGTH_NOT_TESTED {
        number = 15;
    }
    let Some(head) = outermost else {
        return refused(15, first);
    };
    let Head {
        kind, start, end, ..
    } = head;
    let accepted = Answer {
        result: 0,
        numbers: [1, first, kind, start, end, 0].map(|number| number as u64),
    };
    if number != 0 && FLAW != EVERY_TREE {
        return refused(number, first);
    }
    if FLAW == EVERY_TREE || FLAW == OUTERMOST_ALONE {
        return accepted;
    }
    let end = first + head.length;
    let mut kept = Kept {
        place: end + 1,
        number: 0,
        record: 0,
    };
    let most = if FLAW == LEVEL_LATE { 65 } else { 64 };
    let mut ends: Vec<usize> = vec![];
    for at in (first..end).step_by(form.head()) {
        if at >= kept.place && FLAW != LEVEL_BEFORE_TESTS {
            break;
        }
        let Some(head) = Head::at(form, tree, at) else {
            break;
        };
        ends.retain(|end| *end > at);
        if at == first || deepens::<FLAW>(head.kind) {
            if ends.len() >= most {
                return refused(14, at);
            }
            ends.push(at + head.length);
        }
        if at >= kept.place {
            break;
        }
        if let Some(found) = children::<FLAW>(form, tree, at, &head, text) {
            let missing = found.record != found.place;
            let earlier = match FLAW {
                FIRST_MET => kept.number == 0,
                OUTER_BLAMED => found.place < kept.place,
                _ => found.place < kept.place || missing && found.place == kept.place,
            };
            if earlier {
                kept = found;
            }
        }
    }
    match kept.number {
        0 => accepted,
        number => refused(number, kept.record),
    }
}

fn open<const FLAW: usize>(tree: &[u8], text: &[u8]) -> Answer {
    scanned::<FLAW>(tree, text.len())
}

fn opened_child<const FLAW: usize>(tree: &[u8], record: u64, index: u64) -> Answer {
    let form = Form::of(tree);
    match FLAW {
        ONE_OFF => along(tree, record, index.wrapping_add(1)),
        ANY_FOURTH if form == Form::Narrow && record % 8 == 4 => along(tree, record - 4, index),
        _ => along(tree, record, index),
    }
}

fn child<const FLAW: usize>(tree: &[u8], text: &[u8], record: u64, index: u64) -> Answer {
    match scanned::<FLAW>(tree, text.len()) {
        refused if refused.result != 0 && FLAW == CHILD_NOT_OPENED => NONE,
        refused if refused.result != 0 => refused,
        _ => opened_child::<FLAW>(tree, record, index),
    }
}

/// How many answers differ, in some of each set.
fn different<const FLAW: usize>() -> u64 {
    let calls = Calls {
        open: open::<FLAW>,
        child: child::<FLAW>,
        opened_child: opened_child::<FLAW>,
    };
    let mut comparison = Comparison::new(calls, Random::new(1));
    for tree in small().iter().step_by(4) {
        for form in Form::BOTH {
            comparison.each_damage(tree, form);
        }
    }
    for _ in 0..20_000 {
        comparison.random_heads();
    }
    for _ in 0..4_000 {
        comparison.random_tree();
    }
    for levels in 63..=64 {
        comparison.levels(levels);
    }
    comparison.too_long();
    comparison.few_bytes();
    assert_eq!(comparison.missing(), 0);
    if FLAW == SOUND {
        assert_eq!(comparison.shown, Vec::<String>::new());
    }
    comparison.different
}

#[test]
fn the_scan_and_the_recursion_agree() {
    assert_eq!(different::<SOUND>(), 0);
}

#[test]
fn wrong_openers_are_found() {
    let found = [
        different::<EVERY_TREE>(),
        different::<FIRST_MET>(),
        different::<OUTER_BLAMED>(),
        different::<SPAN_IN_TEXT>(),
        different::<TYPE_BEHIND_FIELD>(),
        different::<NONE_MISSING>(),
        different::<LEVEL_BEFORE_TESTS>(),
        different::<LEVEL_LATE>(),
        different::<OUTERMOST_ALONE>(),
        different::<NO_FRONT>(),
        different::<NO_BRACKETS>(),
        different::<IN_ORDER>(),
        different::<LENGTH_NOT_TESTED>(),
        different::<KIND_BEHIND_SPAN>(),
        different::<FIELD_NO_LEVEL>(),
        different::<ONE_OFF>(),
        different::<ANY_FOURTH>(),
        different::<CHILD_NOT_OPENED>(),
    ];
    assert_eq!(found.len(), FLAWS - 1);
    println!("answers that differ, by the flaw: {found:?}");
    assert!(found.iter().all(|different| *different > 0), "{found:?}");
}
