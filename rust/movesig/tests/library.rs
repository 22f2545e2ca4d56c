//! The crate's functions: examples of the specification, all refusals, trees and their views.

use movesig::{
    comments, display, display_to_string, entry_size, library_version, next_comment, next_token,
    read, tokens, tree_room, type_room, Edition, Kind, RecordKind, Refusal, Span, TokenKind, Tree,
    LEVELS, LONGEST, LONGEST_LINE, STACK,
};
use std::error::Error;

fn span(start: usize, end: usize) -> Span {
    Span { start, end }
}

fn token(text: &[u8]) -> Result<(u8, Span), Refusal> {
    next_token(Edition::One, text, 0).map(|token| (token.kind.number(), token.span))
}

fn refused(kind: Kind, text: &[u8]) -> (u32, Span, Span) {
    let mut buffer = vec![7; tree_room(text.len())];
    let refusal = read(kind, Edition::One, text, 0, &mut buffer).expect_err("this is refused");
    assert_eq!(display_to_string(kind, Edition::One, text, 0), Err(refusal));
    assert!(buffer.iter().all(|&byte| byte == 7));
    (refusal.number(), refusal.place(), refusal.second())
}

fn line(kind: Kind, text: &[u8]) -> String {
    display_to_string(kind, Edition::One, text, 0).expect("this is accepted")
}

#[test]
fn examples_of_tokens() {
    assert_eq!(token(b""), Ok((0, span(0, 0))));
    assert_eq!(token(b"0xu8"), Ok((2, span(0, 4))));
    assert_eq!(token(b"0x"), Ok((1, span(0, 1))));
    assert_eq!(token(b"&mut"), Ok((8, span(0, 1))));
    assert_eq!(token(b"/**/a"), Ok((4, span(4, 5))));
    let opener = span(0, 2);
    assert_eq!(token(b"/*/"), Err(Refusal::CommentNotClosed { opener }));
    let opener = span(4, 6);
    assert_eq!(token(b"/** /*"), Err(Refusal::CommentNotClosed { opener }));
    assert_eq!(token(b"b\"a\\\"c\""), Ok((3, span(0, 7))));
    let rest = span(0, 3);
    assert_eq!(token(b"b\"a"), Err(Refusal::ByteStringNotClosed { rest }));
}

#[test]
fn examples_of_items() {
    let mut buffer = [0xee; 20];
    let item = read(Kind::Type, Edition::One, b"u8", 0, &mut buffer).expect("a type");
    let stored = [16, 0, 10, 0, 0, 0, 2, 0, 8, 0, 3, 0, 0, 0, 2, 0];
    assert_eq!(item.tree.as_bytes(), stored);
    assert!(item.next.is_eof());
    assert_eq!(buffer[16..], [0xee; 4]);

    // the tree that README.md shows byte by byte
    let mut buffer = [0; 32];
    let item = read(Kind::Type, Edition::One, b"a<u8>", 0, &mut buffer).expect("a type");
    let stored = [
        [0x20, 0, 0x0a, 0, 0, 0, 5, 0],
        [0x08, 0, 0x03, 0, 0, 0, 1, 0],
        [0x10, 0, 0x0a, 0, 2, 0, 4, 0],
        [0x08, 0, 0x03, 0, 2, 0, 4, 0],
    ];
    assert_eq!(item.tree.as_bytes(), stored.concat());

    assert_eq!(line(Kind::Type, b"|(|u8|u8)|u8"), "|(|u8| u8)| u8");
    assert_eq!(line(Kind::BindList, b"S{f}"), "(S {f: f})");
    let places = (12, span(3, 3), span(0, 0));
    assert_eq!(refused(Kind::Type, b"(u8"), places);
    assert_eq!(refused(Kind::Name, b"0x1"), (10, span(3, 3), span(0, 3)));
    let places = (12, span(4, 4), span(1, 1));
    assert_eq!(refused(Kind::Type, b"a<u8>="), places);
}

#[test]
fn every_refusal() {
    let long = vec![b' '; LONGEST + 1];
    assert_eq!(
        next_token(Edition::One, &long, 0),
        Err(Refusal::TextTooLong)
    );
    assert_eq!(
        next_comment(Edition::One, b"", 1),
        Err(Refusal::StartPastEnd)
    );
    assert_eq!(
        next_token(Edition::One, b"", usize::MAX),
        Err(Refusal::StartPastEnd)
    );
    let room = &mut [0; 15];
    assert_eq!(
        read(Kind::Type, Edition::One, b"u8", 0, room).err(),
        Some(Refusal::NoRoom)
    );
    assert_eq!(
        display(Kind::Type, Edition::One, b"u8", 0, &mut [0]),
        Err(Refusal::NoRoom)
    );

    let once = |number, start, end| (number, span(start, end), span(start, end));
    assert_eq!(refused(Kind::Type, b"u8 $"), once(5, 3, 3));
    assert_eq!(refused(Kind::Value, b"1 /*"), once(6, 2, 4));
    assert_eq!(refused(Kind::Value, b"x\"00"), once(7, 0, 4));
    assert_eq!(refused(Kind::Value, b"b\"a\r\n"), once(8, 0, 3));
    assert_eq!(refused(Kind::Value, b"b\"a\xff\""), once(9, 3, 4));
    assert_eq!(refused(Kind::Type, b"||u8"), once(10, 0, 2));
    assert_eq!(refused(Kind::Type, b"(,"), once(11, 1, 1));
    assert_eq!(refused(Kind::Value, b"0x1::M"), once(13, 0, 3));
    let deep = "(".repeat(64) + "u8" + &")".repeat(64);
    assert_eq!(refused(Kind::Type, deep.as_bytes()), once(14, 64, 66));
}

/// A read and a display are refused at an offset at which nothing starts, and where the text before it is; what
/// is lent from a token's end on is the same item.
#[test]
fn offsets_of_items() {
    let mut buffer = [7; 200];
    let at = span(1, 1);
    let nothing = Refusal::NothingStarts { at };
    assert_eq!((nothing.number(), nothing.is_by_caller()), (21, true));
    assert_eq!((nothing.place(), nothing.second()), (at, at));
    assert_eq!(
        nothing.to_string(),
        "refused 21: no token starts or ends here, at 1..1"
    );
    for (edition, text, at, number, place) in [
        (Edition::One, &b"abc"[..], 1, 21, span(1, 1)),
        (Edition::One, b"/* a */ b", 3, 21, span(3, 3)),
        (Edition::One, b"/* a */ b", 7, 21, span(7, 7)),
        (Edition::One, b"a  b", 2, 21, span(2, 2)),
        (Edition::One, b">=a", 1, 21, span(1, 1)),
        (Edition::One, b"a  $b", 4, 5, span(3, 3)),
        (Edition::One, b"a /* /*", 3, 6, span(5, 7)),
        (Edition::One, b"a x\"0 b", 6, 7, span(2, 7)),
        (Edition::One, b"b\"\xe9\" a", 3, 9, span(2, 3)),
        (Edition::Two, b"1_0", 1, 21, span(1, 1)),
    ] {
        let refused = read(Kind::Type, edition, text, at, &mut buffer).expect_err("refused");
        assert_eq!((refused.number(), refused.place()), (number, place));
        let line = display_to_string(Kind::Type, edition, text, at);
        assert_eq!(line, Err(refused));
        assert!(buffer.iter().all(|&byte| byte == 7));
    }
    // who goes on from token to token never meets 21, and lends the same item from there on
    let text = b"fun f<T>(x: &mut Coin< T >>, /** c */ y: (u8, >> T))\r\n{ }";
    for token in tokens(Edition::One, text, 0) {
        let Span { start, end } = token.expect("no faults").span;
        for at in [start, end] {
            let whole = display_to_string(Kind::Type, Edition::One, text, at);
            let part = display_to_string(Kind::Type, Edition::One, &text[at..], 0);
            match (whole, part) {
                (Ok(whole), Ok(part)) => assert_eq!(whole, part),
                (Err(whole), Err(part)) => {
                    assert!(!matches!(whole, Refusal::NothingStarts { .. }));
                    assert_eq!(whole.number(), part.number());
                    assert_eq!(whole.place().start, at + part.place().start);
                }
                (whole, part) => panic!("{whole:?} {part:?} at {at}"),
            }
        }
    }
}

/// A string that a line cannot hold is refused a line, with any room, and can be read.
#[test]
fn unprintable_lines() {
    let mut buffer = vec![0; LONGEST];
    for (text, byte) in [
        (&b"b\"a\rb\""[..], 3),
        (b"x\"\x7f\"", 2),
        (b"b\"\\\t\"", 3),
        (b" b\"\x1b[2K\x1b\"", 3),
    ] {
        let refusal = Refusal::LineUnprintable {
            byte: span(byte, byte + 1),
        };
        for room in [0, 1, text.len(), LONGEST] {
            let line = display(Kind::Value, Edition::One, text, 0, &mut buffer[..room]);
            assert_eq!(line, Err(refusal));
        }
        assert_eq!(
            display_to_string(Kind::Value, Edition::One, text, 0),
            Err(refusal)
        );
        assert!(!refusal.is_by_caller());
        assert_eq!(refusal.second(), refusal.place());
        assert!(read(Kind::Value, Edition::One, text, 0, &mut buffer).is_ok());
        assert_eq!(
            refusal.to_string(),
            format!(
                "refused 18: the line would hold a control byte, at {byte}..{}",
                byte + 1
            )
        );
    }
    assert_eq!(line(Kind::Value, b"\tb\" ~\"\r\n"), "b\" ~\"");
}

/// What the editions tell apart: numbers with `_`, and the types `u16`, `u32` and `u256`.
#[test]
fn editions() {
    let walk = |edition, text: &[u8]| -> Vec<(u8, usize, usize)> {
        let tokens = tokens(edition, text, 0).map_while(Result::ok);
        let all = tokens.map(|token| (token.kind.number(), token.span.start, token.span.end));
        all.filter(|&(kind, ..)| kind != 0).collect()
    };
    let (one, two) = (Edition::One, Edition::Two);
    assert_eq!(walk(one, b"1_000"), [(1, 0, 1), (4, 1, 5)]);
    assert_eq!(walk(two, b"1_000"), [(1, 0, 5)]);
    assert_eq!(walk(two, b"0x_1"), [(1, 0, 1), (4, 1, 4)]);
    assert_eq!(walk(two, b"1_"), [(1, 0, 2)]);
    assert_eq!(walk(two, b"1_u8"), [(2, 0, 4)]);
    assert_eq!(walk(two, b"0xu16"), [(2, 0, 5)]);
    assert_eq!(walk(two, b"1u2568"), [(2, 0, 5), (1, 5, 6)]);
    assert_eq!(walk(one, b"1_x\"a\""), [(1, 0, 1), (4, 1, 3)]);
    assert_eq!(walk(two, b"1_x\"a\""), [(1, 0, 2), (3, 2, 6)]);
    for (suffix, length) in [("u16", 4), ("u32", 4), ("u256", 5)] {
        let text = format!("1{suffix}");
        assert_eq!(walk(one, text.as_bytes()), [(1, 0, 1), (4, 1, length)]);
        assert_eq!(walk(two, text.as_bytes()), [(2, 0, length)]);
    }

    let shown = |edition, kind, text: &[u8]| display_to_string(kind, edition, text, 0);
    assert_eq!(shown(one, Kind::Value, b"1_000").as_deref(), Ok("1"));
    assert_eq!(shown(two, Kind::Value, b"1_000").as_deref(), Ok("1_000"));
    assert_eq!(shown(two, Kind::Name, b"1_0 :: a").as_deref(), Ok("1_0::a"));
    let refused = |edition, text: &[u8]| {
        let refusal = shown(edition, Kind::Name, text).expect_err("this is refused");
        (refusal.number(), refusal.place(), refusal.second())
    };
    assert_eq!(refused(one, b"1_0::a"), (10, span(1, 3), span(0, 1)));
    assert_eq!(refused(two, b"1u16::a"), (10, span(0, 4), span(0, 4)));

    // what stands behind an item's first token is of its edition too
    for text in ["(u8, 1_0::a)", "& 1_0::a", "a<1_0::b>", "|1_0::a| 1_0::b"] {
        assert_eq!(shown(two, Kind::Type, text.as_bytes()).as_deref(), Ok(text));
        assert!(shown(one, Kind::Type, text.as_bytes()).is_err());
    }

    assert_eq!(Edition::ALL.map(Edition::number), [1, 2]);
    assert_eq!(Refusal::NoSuchEdition.number(), 19);
    assert!(Refusal::NoSuchEdition.is_by_caller());
    let said = Refusal::NoSuchEdition.to_string();
    assert_eq!(said, "refused 19: no such edition");
}

#[test]
fn refusals_for_people() {
    let said = |text: &[u8]| {
        let error: Box<dyn Error> = next_token(Edition::One, text, 0)
            .expect_err("refused")
            .into();
        error.to_string()
    };
    assert_eq!(
        said(b" $"),
        "refused 5: no token starts with this byte, at 1..1"
    );
    assert_eq!(
        said(&vec![b' '; LONGEST + 1]),
        "refused 1: text over 1,048,575 bytes"
    );
}

/// The line is judged by its own length and not by the tree's, and the tree by its room alone.
#[test]
fn long_answers() {
    let list = |items| format!("({})", "a,".repeat(items));
    for (items, length, wide) in [
        (4_095, 65_528, false),
        (4_096, 114_706, true),
        (5_000, 140_018, true),
    ] {
        let flat = list(items);
        let mut buffer = vec![7; length + 1];
        let item =
            read(Kind::Type, Edition::One, flat.as_bytes(), 0, &mut buffer).expect("there is room");
        assert_eq!(
            (item.tree.as_bytes().len(), item.tree.is_wide()),
            (length, wide)
        );
        assert_eq!(item.tree.children().count(), items);
        assert!(item.tree.children().all(|child| child.text() == b"a"));
        assert!(item.tree.children().all(|child| child.is_wide() == wide));
        assert_eq!(buffer[length], 7);
        let refused = read(
            Kind::Type,
            Edition::One,
            flat.as_bytes(),
            0,
            &mut buffer[..length - 1],
        );
        assert_eq!(refused.err(), Some(Refusal::NoRoom));
    }
    // a line reads back: its tree has as many records, and its line is the same
    let shown = line(Kind::Type, list(5_000).as_bytes());
    assert_eq!(shown.len(), 15_000);
    let mut buffer = vec![0; 140_018];
    let item =
        read(Kind::Type, Edition::One, shown.as_bytes(), 0, &mut buffer).expect("there is room");
    assert_eq!(item.tree.as_bytes().len(), 140_018);
    assert_eq!(line(Kind::Type, shown.as_bytes()), shown);

    // the longest line, and one byte more, whatever the room
    let mut buffer = vec![0; 2 * LONGEST_LINE];
    let name = "a".repeat(LONGEST_LINE + 1);
    for (kind, text, shown) in [
        (Kind::Type, list(21_845), true),
        (Kind::Type, list(21_846), false),
        (Kind::Name, name[1..].to_string(), true),
        (Kind::Name, name, false),
    ] {
        let line = display(kind, Edition::One, text.as_bytes(), 0, &mut buffer);
        let due = if shown {
            Ok(LONGEST_LINE)
        } else {
            Err(Refusal::NoRoom)
        };
        assert_eq!(line.map(<[u8]>::len), due);
    }
}

/// A tree is wide where the whole text is long, wherever the item stands, and looks the same.
#[test]
fn long_texts() {
    let shape = |text: &[u8], at: usize| {
        let mut buffer = vec![0; 1_000];
        let item = read(Kind::Type, Edition::One, text, at, &mut buffer).expect("it is accepted");
        let raised = |tree: Tree| (tree.kind(), tree.span().start - at, tree.span().end - at);
        let mut seen = vec![raised(item.tree)];
        seen.extend(item.tree.children().map(raised));
        seen.extend(item.tree.children().flat_map(Tree::children).map(raised));
        (seen, item.tree.is_wide(), item.tree.as_bytes().len())
    };
    let item = b"&0x1::coin::Coin<u8, ()>";
    let (seen, wide, length) = shape(item, 0);
    assert_eq!((wide, length % 8), (false, 0));
    for blanks in [
        65_535 - item.len(),
        65_536 - item.len(),
        65_536,
        LONGEST - item.len(),
    ] {
        let text = [vec![b' '; blanks], item.to_vec()].concat();
        let is_wide = text.len() > 65_535;
        let long = if is_wide { 4 + length / 8 * 14 } else { length };
        assert_eq!(shape(&text, blanks), (seen.clone(), is_wide, long));
    }
    // the second tree that README.md shows byte by byte, and the one with a blank less
    let wide = [
        &[0x04, 0, 0x63, 0][..],
        &[0x1c, 0, 0, 0, 0x0a, 0, 0, 0, 0, 0, 1, 0, 0, 0],
        &[0x0e, 0, 0, 0, 0x03, 0, 0, 0, 0, 0, 1, 0, 0, 0],
    ];
    let narrow = [
        &[0x10, 0, 0x0a, 0, 0, 0, 1, 0][..],
        &[0x08, 0, 0x03, 0, 0, 0, 1, 0],
    ];
    for (blanks, stored) in [(65_535, wide.concat()), (65_534, narrow.concat())] {
        let text = [&b"a"[..], &vec![b' '; blanks]].concat();
        let mut buffer = vec![0; stored.len()];
        let item = read(Kind::Type, Edition::One, &text, 0, &mut buffer).expect("it is accepted");
        assert_eq!(item.tree.as_bytes(), stored);
        // a child is its record alone, in the same form
        let child = item.tree.children().next().expect("a chain");
        assert_eq!(
            child.as_bytes(),
            &stored[stored.len() - child.as_bytes().len()..]
        );
        assert_eq!(child.is_wide(), blanks == 65_535);
        assert_eq!(
            (child.kind(), child.span()),
            (RecordKind::OnePart, span(0, 1))
        );
        assert_eq!(line(Kind::Type, &text), "a");
        let less = stored.len() - 1;
        let refused = read(Kind::Type, Edition::One, &text, 0, &mut buffer[..less]);
        assert_eq!(refused.err(), Some(Refusal::NoRoom));
    }
}

/// Of the longest texts every tree has room, and one byte more is refused.
#[test]
fn longest_texts() {
    let fields = format!("S{{{}}}", "f,".repeat((LONGEST - 3) / 2));
    assert_eq!(fields.len(), LONGEST);
    let mut buffer = vec![0; tree_room(fields.len())];
    let read = |text: &str, buffer: &mut [u8]| {
        let item = read(Kind::BindList, Edition::One, text.as_bytes(), 0, buffer);
        item.map(|item| (item.tree.as_bytes().len(), item.next.span.start))
    };
    // a list, a struct and its name; a field has its name and its variable
    let records = 3 + (LONGEST - 3) / 2 * 3;
    let length = 4 + 14 * records;
    assert_eq!(read(&fields, &mut buffer), Ok((length, LONGEST)));
    assert_eq!(read(&fields, &mut buffer[..length]), Ok((length, LONGEST)));
    let less = read(&fields, &mut buffer[..length - 1]);
    assert_eq!(less, Err(Refusal::NoRoom));
    let more = read(&(fields + " "), &mut buffer);
    assert_eq!(more, Err(Refusal::TextTooLong));
}

/// A type has at most one record more than bytes, and just the room for that is enough; types that have as
/// many records take all of it.
#[test]
fn type_rooms() {
    let largest = |n: usize| match n {
        1 => "a".to_string(),
        2 => "&a".to_string(),
        _ => {
            let amp = if n % 2 == 1 { "&" } else { "" };
            format!("|{amp}a{}|a", ",a".repeat((n - 4) / 2))
        }
    };
    for n in [1, 2, 4, 5, 6, 7, 8_189, 8_190, 8_191, 32_768, 65_536] {
        for blanks in [0, 65_535, 65_536].map(|len: usize| len.saturating_sub(n)) {
            let text = largest(n) + &" ".repeat(blanks);
            let len = n + blanks;
            assert_eq!(text.len(), len);
            let wide = len > 65_535 || n > 8_190;
            let room = if wide { 4 + 14 * (n + 1) } else { 8 * (n + 1) };
            assert_eq!(type_room(n, len), room);
            let mut buffer = vec![0; room];
            for edition in [Edition::One, Edition::Two] {
                let read = |buffer: &mut [u8]| {
                    let item = read(Kind::Type, edition, text.as_bytes(), 0, buffer)?;
                    assert_eq!(item.tree.span(), span(0, n));
                    assert_eq!(item.next.span, span(len, len));
                    assert_eq!(
                        (item.tree.is_wide(), item.tree.as_bytes().len()),
                        (wide, room)
                    );
                    Ok(item.tree.records().count())
                };
                assert_eq!(read(&mut buffer), Ok(n + 1), "{n} bytes");
                let less = read(&mut buffer[..room - 1]);
                assert_eq!(less, Err(Refusal::NoRoom), "{n} bytes");
            }
        }
    }
    // of three bytes no type has more than three records; what is before and behind a type does not count
    for (text, bytes, records) in [
        ("(a)", 3, 3),
        ("& a", 3, 3),
        (" a ", 1, 2),
        ("a<b<c>>", 7, 6),
    ] {
        let mut buffer = vec![0; type_room(bytes, text.len())];
        let item = read(Kind::Type, Edition::One, text.as_bytes(), 0, &mut buffer);
        assert_eq!(item.expect("a type").tree.records().count(), records);
    }
    // no more than for the longest text
    assert_eq!(type_room(LONGEST, LONGEST), 14_680_068);
    assert_eq!(type_room(LONGEST - 1, LONGEST), 14_680_054);
    for huge in [LONGEST + 1, usize::MAX / 14, usize::MAX] {
        for len in [0, LONGEST, huge] {
            assert_eq!(type_room(huge, len), 14_680_068);
        }
        assert_eq!(type_room(6, huge), 102);
    }
}

/// A text that is far too long is refused, and room for its trees is no more than for the longest text. The
/// 2 GB are pages that nobody touches.
#[test]
fn huge_texts() {
    assert_eq!(tree_room(LONGEST - 1), 44_040_112);
    for length in [LONGEST + 1, 2_000_000_000, usize::MAX] {
        assert_eq!(tree_room(length), tree_room(LONGEST));
    }
    let text = vec![0; 2_000_000_000];
    let mut buffer = vec![0; tree_room(text.len())];
    let too_long = Some(Refusal::TextTooLong);
    let (kind, edition) = (Kind::Type, Edition::One);
    assert_eq!(read(kind, edition, &text, 0, &mut buffer).err(), too_long);
    let line = display(kind, edition, &text, 0, &mut buffer);
    assert_eq!(line.err(), too_long);
    assert_eq!(next_token(edition, &text, 0).err(), too_long);
    assert_eq!(next_comment(edition, &text, 0).err(), too_long);
}

fn shape(tree: Tree) -> String {
    let children: Vec<String> = tree.children().map(shape).collect();
    let name = match tree.spelling() {
        Some(spelling) => String::from_utf8_lossy(spelling).into_owned(),
        None => tree.kind().to_string(),
    };
    match children[..] {
        [] => name,
        _ => format!("{name}[{}]", children.join(" ")),
    }
}

fn shape_of(kind: Kind, text: &[u8]) -> String {
    shape(
        read(kind, Edition::One, text, 0, &mut [0; 1_000])
            .expect("this is accepted")
            .tree,
    )
}

#[test]
fn trees() {
    let name = |text: &[u8]| shape_of(Kind::Name, text);
    assert_eq!(name(b"a"), "a");
    assert_eq!(name(b"0x1::b"), "two-part chain[0x1 b]");
    assert_eq!(name(b"a::b::c"), "three-part chain[pair[a b] c]");

    let value = |text: &[u8]| shape_of(Kind::Value, text);
    assert_eq!(value(b"@0x1"), "address value[0x1]");
    assert_eq!(value(b"true"), "true");
    assert_eq!(value(b"x\"00\""), "x\"00\"");

    let types = |text: &[u8]| shape_of(Kind::Type, text);
    assert_eq!(types(b"( /* gap */ )"), "unit");
    assert_eq!(
        types(b"&mut (u8,)"),
        "mutable reference[brackets[type[u8]]]"
    );
    assert_eq!(types(b"((a))"), "brackets[brackets[type[a]]]");
    assert_eq!(types(b"(())"), "brackets[unit]");
    assert_eq!(types(b"|u8| ()"), "function type[type[u8] unit]");
    assert_eq!(types(b"(&a, b)"), "tuple[reference[type[a]] type[b]]");

    let binds = |text: &[u8]| shape_of(Kind::BindList, text);
    assert_eq!(
        binds(b"(x, S<u8> {f, g: y})"),
        "binding list[x struct with types[S type[u8] field[f f] field[g y]]]"
    );
    assert_eq!(
        shape_of(Kind::LambdaBindList, b"| |"),
        "lambda binding list"
    );
}

#[test]
fn tree_views() {
    let text = b" (u8 , bool) {";
    let mut buffer = [0; 100];
    let item = read(Kind::Type, Edition::One, text, 0, &mut buffer).expect("a type");
    assert_eq!(item.next.kind, TokenKind::L_BRACE);
    assert_eq!(item.tree.span(), span(1, 12));
    assert_eq!(item.tree.text(), b"(u8 , bool)");
    assert_eq!(item.tree.spelling(), None);
    let parts: Vec<&[u8]> = item.tree.children().map(Tree::text).collect();
    assert_eq!(parts, [&b"u8"[..], b"bool"]);
    assert_eq!(
        format!("{:?}", item.tree),
        "Tuple 1..12 [Type 2..4 [OnePart 2..4 []], Type 7..11 [OnePart 7..11 []]]"
    );
    let numbers: Vec<u16> = (item.tree.children().map(|child| child.kind().number())).collect();
    assert_eq!(numbers, [10, 10]);
    let records = item.tree.records();
    let records: Vec<(usize, &[u8])> = records.map(|(level, tree)| (level, tree.text())).collect();
    let due = [
        (0, &b"(u8 , bool)"[..]),
        (1, b"u8"),
        (2, b"u8"),
        (1, b"bool"),
        (2, b"bool"),
    ];
    assert_eq!(records, due);
}

/// The deepest records of items of 64 levels are 130 levels below the first, which is less than what is
/// indented.
#[test]
fn deepest_records() {
    let deepest = |kind, text: &str| {
        let mut buffer = vec![0; tree_room(text.len())];
        let item = read(kind, Edition::One, text.as_bytes(), 0, &mut buffer).expect("accepted");
        let levels = item.tree.records().map(|(level, _)| level).max();
        levels.expect("it has a first record")
    };
    let nest = |open: &str, inside: &str, close: &str, levels| {
        [&open.repeat(levels), inside, &close.repeat(levels)].concat()
    };
    let name = "a::b::c";
    assert_eq!(deepest(Kind::Type, &nest("& ", name, "", 63)), 66);
    assert_eq!(deepest(Kind::Type, &nest("a<", name, ">", 63)), 66);
    let binds = nest("S{f:", &format!("{name}{{}}"), "}", 63);
    assert_eq!(deepest(Kind::BindList, &binds), 130);
    let lambda = format!("|{binds}|");
    assert_eq!(deepest(Kind::LambdaBindList, &lambda), 130);
    let types = nest("S{f:", "S<a::b::c>{}", "}", 62);
    assert_eq!(deepest(Kind::BindList, &types), 129);
}

#[test]
fn walks() {
    let kinds: Vec<TokenKind> = tokens(Edition::One, b"a<b>>c", 0)
        .map(|token| token.expect("a token").kind)
        .collect();
    assert_eq!(
        kinds,
        [
            TokenKind::IDENTIFIER,
            TokenKind::LESS,
            TokenKind::IDENTIFIER,
            TokenKind::GREATER_GREATER,
            TokenKind::IDENTIFIER,
            TokenKind::EOF
        ]
    );
    assert_eq!(
        tokens(Edition::One, b"a", 7).collect::<Vec<_>>(),
        [Err(Refusal::StartPastEnd)]
    );

    let text = b"/** a */ /// b\n x /* no */ /// c\r\n y $ /// d";
    let found: Vec<Result<&[u8], u32>> = comments(Edition::One, text, 0)
        .map(|comment| match comment {
            Ok(comment) => Ok(comment.text.of(text)),
            Err(refusal) => Err(refusal.number()),
        })
        .collect();
    assert_eq!(found, [Ok(&b" a "[..]), Ok(b" b"), Ok(b" c"), Err(5)]);
}

/// A thread with a small stack is enough for the deepest item.
#[test]
fn small_stack() {
    let deep = format!("|{}x{}|", "S<u8>{g, f:".repeat(63), "}".repeat(63));
    let read = move || {
        let mut buffer = vec![0; LONGEST_LINE];
        let text = deep.as_bytes();
        let read =
            read(Kind::LambdaBindList, Edition::One, text, 0, &mut buffer).map(|item| item.next);
        let shown = display(Kind::LambdaBindList, Edition::One, text, 0, &mut buffer).is_ok();
        (read.is_ok(), shown)
    };
    let thread = std::thread::Builder::new().stack_size(STACK + (1 << 14));
    let read = thread.spawn(read).expect("a thread").join();
    assert_eq!(read.expect("it ends"), (true, true));
}

/// The header, the crate and the library have the same version and the same limits.
#[test]
fn versions() {
    let header = include_str!("../../../include/movesig.h");
    let defined = |name: &str| -> usize {
        let line = header
            .lines()
            .find_map(|line| line.strip_prefix(&format!("#define {name} ")));
        line.expect("it is there").parse().expect("a number")
    };
    let (major, minor) = library_version();
    assert_eq!(defined("MOVESIG_VERSION_MAJOR"), major as usize);
    assert_eq!(defined("MOVESIG_VERSION_MINOR"), minor as usize);
    assert!(env!("CARGO_PKG_VERSION").starts_with(&format!("{major}.{minor}.")));
    let changes = include_str!("../../../CHANGELOG.md");
    assert!(changes.contains(&format!("\n## {}\n", env!("CARGO_PKG_VERSION"))));
    assert_eq!(defined("MOVESIG_LONGEST"), LONGEST);
    assert_eq!(defined("MOVESIG_LONGEST_LINE"), LONGEST_LINE);
    assert!(header.contains(
        "#define MOVESIG_TREE_ROOM(len) \\\n    \
         (4 + 42 * ((size_t)(len) < MOVESIG_LONGEST ? (size_t)(len) : (size_t)MOVESIG_LONGEST))\n"
    ));
    assert_eq!((tree_room(0), tree_room(LONGEST)), (4, 44_040_154));
    // the names of the symbol that tells the version stand in the header's words
    let symbol = format!("movesig_version_{major}_{minor}");
    assert!(include_str!("../../../README.md").contains(&symbol));
    assert_eq!(header.matches(&format!("{symbol},")).count(), 1);
    assert_eq!(header.matches(&format!("{symbol}`")).count(), 1);
    assert_eq!(defined("MOVESIG_LEVELS"), LEVELS);
    assert!(header.contains(
        "#define MOVESIG_ENTRY_SIZE(len) ((size_t)(len) <= 65535 ? (size_t)12 : (size_t)22)\n"
    ));
    assert_eq!((entry_size(65_535), entry_size(65_536)), (12, 22));
    assert_eq!(defined("MOVESIG_MOST_NOTES"), movesig::MOST_NOTES);
    assert_eq!(defined("MOVESIG_STACK"), STACK);
}

/// What the header names is numbered as the crate numbers it.
#[test]
fn names_of_the_header() {
    let header = include_str!("../../../include/movesig.h");
    let section = |name: &str| -> Vec<(String, usize)> {
        let (_, rest) = header
            .split_once(&format!("enum {name} {{"))
            .expect("it is there");
        let (inside, _) = rest.split_once("};").expect("it ends");
        let lines = inside.lines().filter_map(|line| line.split_once(" = "));
        lines
            .map(|(name, rest)| {
                let digits: String = rest.chars().take_while(char::is_ascii_digit).collect();
                (plain(name), digits.parse().expect("a number"))
            })
            .collect()
    };
    /// Without what marks words: `MOVESIG_AMP_MUT` as `ampmut`, and `AmpMut` too.
    fn plain(name: &str) -> String {
        let name = name.trim().trim_start_matches("MOVESIG_").to_lowercase();
        name.trim_start_matches("rec_").replace(['_', '-', ' '], "")
    }
    let found = section("movesig_token");
    assert_eq!(found.len(), 68);
    for (number, (name, given)) in found.into_iter().enumerate() {
        assert_eq!(number, given);
        let token = TokenKind::from_number(number as u8).expect("a kind");
        assert_eq!(plain(token.name()), name);
    }
    assert_eq!(TokenKind::from_number(68), None);
    let names: Vec<_> = Kind::ALL
        .iter()
        .map(|kind| plain(&format!("{kind:?}")))
        .collect();
    let numbers: Vec<_> = Kind::ALL
        .iter()
        .map(|kind| kind.number() as usize)
        .collect();
    let items: Vec<_> = names.into_iter().zip(numbers).collect();
    assert_eq!(section("movesig_item"), items);
    assert_eq!(section("movesig_result").len(), 22);
    let editions = [("edition1".to_string(), 1), ("edition2".to_string(), 2)];
    assert_eq!(section("movesig_edition"), editions);
    let numbers: Vec<_> = Edition::ALL.map(|edition| edition.number() as usize).into();
    assert_eq!(numbers, [1, 2]);
    let records: Vec<_> = RecordKind::ALL
        .iter()
        .map(|kind| (plain(&format!("{kind:?}")), kind.number() as usize))
        .collect();
    assert_eq!(section("movesig_record"), records);
}
