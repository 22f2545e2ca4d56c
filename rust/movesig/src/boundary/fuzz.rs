//! Random texts, lengths, offsets, kinds, editions and rooms, between bytes that must stay as they are.
//! Some texts are as long as those from which trees are wide, and some as long as a text may be, or longer.
//! The boundary is asked and not the crate's own functions, so that kinds that no `Kind`
//! names and editions that no `Edition` names are asked too, and every number of an answer is seen.

use super::Numbers;
use std::mem::MaybeUninit;

/// What a call returned, and its six numbers, which are filled first: one that is not written
/// shows.
type Answer = (u32, [usize; 6]);

fn asked(ask: impl FnOnce(&mut Numbers) -> super::Answer<'_>) -> Answer {
    let mut numbers = Numbers(MaybeUninit::new([0xa5a5_a5a5_a5a5_a5a5; 6]));
    let answer = ask(&mut numbers);
    (
        answer.result,
        [0, 1, 2, 3, 4, 5].map(|index| answer.number(index)),
    )
}

fn next_token(edition: u64, text: &[u8], at: usize) -> Answer {
    asked(|numbers| super::next_token(edition, text, at, numbers))
}

fn next_comment(edition: u64, text: &[u8], at: usize) -> Answer {
    asked(|numbers| super::next_comment(edition, text, at, numbers))
}

fn read(kind: u64, edition: u64, text: &[u8], at: usize, out: &mut [u8]) -> Answer {
    asked(|numbers| super::read(kind, edition, text, at, out, numbers))
}

fn display(kind: u64, edition: u64, text: &[u8], at: usize, line: &mut [u8]) -> Answer {
    asked(|numbers| super::display(kind, edition, text, at, line, numbers))
}

fn outline(
    edition: u64,
    text: &[u8],
    at: usize,
    limit: u64,
    pending: &mut [u64; 3],
    out: &mut [u8],
) -> Answer {
    asked(|numbers| super::outline(edition, text, at, limit, pending, out, numbers))
}

fn open(tree: &[u8], text: &[u8]) -> Answer {
    asked(|numbers| super::open(tree, text, numbers))
}

fn child(tree: &[u8], text: &[u8], record: u64, index: u64) -> Answer {
    asked(|numbers| super::child(tree, text, record, index, numbers))
}

fn opened_child(tree: &[u8], record: u64, index: u64) -> Answer {
    asked(|numbers| super::opened_child(tree, record, index, numbers))
}

const ROUNDS: usize = 100_000;
const BESIDE: usize = 16;

/// Enough for the trees of the lists that are made here; more than any line.
const MOST_ROOM: usize = 200_000;

/// A small generator of numbers (xorshift64*), so that each run is the same.
struct Random(u64);

impl Random {
    fn next(&mut self) -> u64 {
        self.0 ^= self.0 >> 12;
        self.0 ^= self.0 << 25;
        self.0 ^= self.0 >> 27;
        self.0.wrapping_mul(0x2545_f491_4f6c_dd1d)
    }

    fn below(&mut self, bound: usize) -> usize {
        (self.next() >> 11) as usize % bound
    }

    fn of<'a>(&mut self, all: &[&'a [u8]]) -> &'a [u8] {
        all[self.below(all.len())]
    }
}

const WORDS: [&[u8]; 40] = [
    b"a",
    b"S",
    b"u8",
    b"mut",
    b"0x1",
    b"0x",
    b"1u8",
    b"1_0",
    b"u256",
    b"_",
    b"true",
    b"::",
    b":",
    b"<",
    b">",
    b">>",
    b">=",
    b"(",
    b")",
    b"|",
    b"||",
    b",",
    b"&",
    b"&mut ",
    b"{",
    b"}",
    b"@",
    b" ",
    b"\t",
    b"\r\n",
    b"/*",
    b"*/",
    b"/**",
    b"//",
    b"b\"\\\"\"",
    b"b\"a\r\"",
    b"x\"\x7f\"",
    b"b\" ~\"",
    b"x\"",
    b"\xff",
];

const DECLARING: [&[u8]; 12] = [
    b" fun ",
    b" struct S",
    b" const C",
    b" fun f",
    b"f",
    b";",
    b"{",
    b"/** a */",
    b"/// b\n",
    b" public",
    b"1_f",
    b"$",
];

const ITEMS: [&[u8]; 7] = [
    b"a",
    b"0x1::b",
    b"@0x1",
    b"a<u8>",
    b"(x, S {f: y})",
    b"|x|",
    b"| |",
];

/// The bytes over and over, so many in all.
fn repeated(bytes: &[u8], length: usize) -> Vec<u8> {
    let mut all = bytes.repeat(length.div_ceil(bytes.len()));
    all.truncate(length);
    all
}

fn text_of(random: &mut Random) -> Vec<u8> {
    match random.below(4_000) {
        0..400 => (0..random.below(40)).map(|_| random.next() as u8).collect(),
        // about as long as those from which trees are wide
        400..404 => repeated(random.of(&WORDS), 65_530 + random.below(10)),
        404..454 => {
            let mut text = repeated(b" ", 65_530 + random.below(10));
            let item = random.of(&ITEMS);
            text[..item.len()].copy_from_slice(item);
            text
        }
        // lists whose trees have about as many records as those that are wide
        454..479 => format!("({})", "a,".repeat(4_090 + random.below(10))).into(),
        479..504 => format!("S {{{}}}", "a,".repeat(2_725 + random.below(10))).into(),
        // the longest, or too long
        504 => repeated(random.of(&WORDS), crate::LONGEST + random.below(3)),
        _ => {
            let words = (0..random.below(24)).map(|_| random.of(&WORDS));
            words.collect::<Vec<_>>().concat()
        }
    }
}

fn offset_of(random: &mut Random, length: usize) -> usize {
    match random.below(8) {
        0 => length,
        1 => length + 1 + random.below(3),
        2 => usize::MAX - random.below(3),
        3 => 1 << (16 + random.below(48)),
        4 | 5 => 0,
        _ => random.below(length + 1),
    }
}

fn edition_of(random: &mut Random) -> u64 {
    match random.below(16) {
        0 => random.next(),
        1 => 0,
        2 => 3,
        3 => u64::MAX,
        4 => 1 << 32 | 2,
        other => other as u64 % 2 + 1,
    }
}

/// Which of 1, 2, 3 and 19 is due by what is asked, if any. A call without a kind has none here.
fn asked_wrongly(kind: Option<u64>, edition: u64, text: &[u8], at: usize) -> Option<u32> {
    if text.len() > crate::LONGEST {
        Some(1)
    } else if at > text.len() {
        Some(2)
    } else if kind.is_some_and(|kind| !(1..=5).contains(&kind)) {
        Some(3)
    } else {
        (!(1..=2).contains(&edition)).then_some(19)
    }
}

/// A span of a text.
fn inside(start: usize, end: usize, text: &[u8]) -> bool {
    start <= end && end <= text.len()
}

fn refused_well(number: u32, values: [usize; 6], text: &[u8], allowed: &[u32]) {
    assert!(allowed.contains(&number), "{number}");
    let [start, end, second, second_end, nothing, nothing_too] = values;
    assert!(inside(start, end, text), "{values:?}");
    assert!(inside(second, second_end, text), "{values:?}");
    assert_eq!([nothing, nothing_too], [0, 0]);
}

#[test]
fn token_and_comment() {
    let mut random = Random(1);
    let mut too_long = 0;
    for _ in 0..ROUNDS {
        let text = text_of(&mut random);
        let at = offset_of(&mut random, text.len());
        let edition = edition_of(&mut random);
        let wrong = asked_wrongly(None, edition, &text, at);
        too_long += usize::from(wrong == Some(1));
        let (number, values) = next_token(edition, &text, at);
        match number {
            _ if wrong.is_some() => assert_eq!((Some(number), values), (wrong, [0; 6])),
            0 => {
                let [kind, start, end, line_feed, rest @ ..] = values;
                assert!(kind <= 67 && at <= start && inside(start, end, &text));
                assert_eq!(kind == 0, start == end);
                assert_eq!(line_feed == 1, text[at..start].contains(&b'\n'));
                assert!(line_feed <= 1);
                assert_eq!(rest, [0; 2]);
            }
            _ => refused_well(number, values, &text, &[5, 6, 7, 8, 9]),
        }
        let (number, values) = next_comment(edition, &text, at);
        match number {
            _ if wrong.is_some() => assert_eq!((Some(number), values), (wrong, [0; 6])),
            0 => {
                let [found, start, end, from, to, nothing] = values;
                assert!(found <= 1 && inside(start, end, &text) && inside(from, to, &text));
                assert!(start <= from && to <= end);
                assert_eq!(nothing, 0);
            }
            _ => refused_well(number, values, &text, &[6]),
        }
    }
    assert!(too_long > 0);
}

/// What is asked of a call that is lent a buffer.
struct Question<'t> {
    ask: fn(u64, u64, &[u8], usize, &mut [u8]) -> Answer,
    kind: u64,
    edition: u64,
    text: &'t [u8],
    at: usize,
}

impl Question<'_> {
    /// The answer with so much room, and the bytes of the buffer that it has. All the others, and those
    /// beside the buffer, must stay as they are.
    fn asked_in<'w>(&self, whole: &'w mut [u8], room: usize, fill: u8) -> (Answer, &'w [u8]) {
        let used = &mut whole[..room + 2 * BESIDE];
        used.fill(fill);
        let lent = &mut used[BESIDE..BESIDE + room];
        let (number, values) = (self.ask)(self.kind, self.edition, self.text, self.at, lent);
        let written = if number == 0 { values[0] } else { 0 };
        assert!(written <= room);
        let kept = |place: &[u8]| place.iter().all(|&byte| byte == fill);
        assert!(kept(&used[..BESIDE]), "bytes before the buffer");
        assert!(kept(&used[BESIDE + written..]), "bytes behind");
        ((number, values), &used[BESIDE..BESIDE + written])
    }
}

/// Its record has the tree's length, and its form is the one that is due; whether it is wide.
fn tree_is_well(tree: &[u8], text: &[u8]) -> bool {
    let (length, front, head) = match tree.strip_prefix(&[4, 0, 99, 0]) {
        Some(record) => (&record[..4], 4, 14),
        None => (&tree[..2], 0, 8),
    };
    let length = length
        .iter()
        .rev()
        .fold(0, |high, &low| high << 8 | low as usize);
    assert_eq!((front + length, length % head), (tree.len(), 0));
    let wide = front == 4;
    assert_eq!(wide, text.len() > 65_535 || tree.len() > 65_535);
    wide
}

fn with_a_buffer(seed: u64, ask: fn(u64, u64, &[u8], usize, &mut [u8]) -> Answer, tree: bool) {
    let mut random = Random(seed);
    let mut whole = vec![0; MOST_ROOM + 2 * BESIDE];
    let (mut too_long, mut wide, mut unprintable, mut nowhere) = (0, 0, 0, 0);
    for _ in 0..ROUNDS {
        let text = text_of(&mut random);
        let at = offset_of(&mut random, text.len());
        let kind = match random.below(16) {
            0 => random.next(),
            1 => 0,
            2 => 6,
            3 => 1 << 32 | 3,
            other => other as u64 % 5 + 1,
        };
        let room = match random.below(1_000) {
            0..500 if text.len() > 5_000 => MOST_ROOM,
            0..100 => 0,
            100 => 65_535,
            101 => MOST_ROOM,
            _ => random.below(400),
        };
        let edition = edition_of(&mut random);
        let fill = random.next() as u8;
        let question = Question {
            ask,
            kind,
            edition,
            text: &text,
            at,
        };
        let ((number, values), written) = question.asked_in(&mut whole, room, fill);
        if let Some(wrong) = asked_wrongly(Some(kind), edition, &text, at) {
            assert_eq!((number, values), (wrong, [0; 6]));
            too_long += usize::from(wrong == 1);
        } else if number == 0 {
            let [length, token, start, end, rest @ ..] = values;
            assert_eq!(rest, [0; 2]);
            if tree {
                assert!(token <= 67 && inside(start, end, &text));
                wide += usize::from(tree_is_well(written, &text));
            } else {
                assert_eq!([token, start, end], [0; 3]);
                assert!(length <= crate::LONGEST_LINE);
                assert!(written.iter().all(|byte| (32..=126).contains(byte)));
            }
            // the room that it takes is enough, and one byte less is not
            let written = written.to_vec();
            let exact = question.asked_in(&mut whole, length, fill);
            assert_eq!(exact, ((0, values), &written[..]));
            let (less, _) = question.asked_in(&mut whole, length - 1, fill);
            assert_eq!(less, (4, [0; 6]));
        } else {
            let mut allowed: Vec<u32> = (4..=14).collect();
            // at an offset, which is its place twice
            if at > 0 && values == [at, at, at, at, 0, 0] {
                allowed.push(21);
            }
            if !tree {
                allowed.push(18);
            }
            refused_well(number, values, &text, &allowed);
            nowhere += usize::from(number == 21);
            if number == 18 {
                let [start, end, ..] = values;
                assert!(end == start + 1 && (text[start] < 32 || text[start] == 127));
                unprintable += 1;
            }
        }
    }
    assert!(too_long > 0 && nowhere > 0);
    assert_eq!(wide > 0, tree, "{wide} wide trees");
    assert_eq!(
        unprintable > 0,
        !tree,
        "{unprintable} displays refused with 18"
    );
}

#[test]
fn reading() {
    with_a_buffer(2, read, true);
}

#[test]
fn displaying() {
    with_a_buffer(3, display, false);
}

/// What any outline has: numbers that fit one another, records of one size and in order, and beside what is
/// written nothing that changed; where it is refused, nothing at all.
#[test]
fn outlining() {
    let mut random = Random(4);
    let mut whole = vec![0; MOST_ROOM + 2 * BESIDE];
    let (mut too_long, mut records, mut fulls) = (0, 0, 0);
    for _ in 0..ROUNDS {
        let text = match random.below(4) {
            0 => text_of(&mut random),
            _ => {
                let words = (0..random.below(12)).map(|_| random.of(&DECLARING));
                words.collect::<Vec<_>>().concat()
            }
        };
        let at = offset_of(&mut random, text.len());
        let (edition, fill) = (edition_of(&mut random), random.next() as u8);
        let limit = [random.below(9) as u64, u64::MAX][random.below(2)];
        let room = [random.below(40), random.below(MOST_ROOM)][usize::from(random.below(50) == 0)];
        let handed = [[0, 0, 0], [62, 0, 1], [random.next(), 1, random.next()]][random.below(3)];
        let mut pending = handed;
        let used = &mut whole[..room + 2 * BESIDE];
        used.fill(fill);
        let lent = &mut used[BESIDE..BESIDE + room];
        let (number, values) = outline(edition, &text, at, limit, &mut pending, lent);
        let written = if number == 0 { values[2] } else { 0 };
        assert!(written <= room);
        let kept = |place: &[u8]| place.iter().all(|&byte| byte == fill);
        assert!(kept(&used[..BESIDE]) && kept(&used[BESIDE + written..]));
        if number != 0 {
            assert_eq!(pending, handed);
        }
        let wrong = asked_wrongly(None, edition, &text, at);
        too_long += usize::from(wrong == Some(1));
        match number {
            _ if wrong.is_some() => assert_eq!((Some(number), values), (wrong, [0; 6])),
            0 => {
                let [full, tokens, _, end, rest @ ..] = values;
                assert!(full <= 1 && tokens as u64 <= limit && at <= end && end <= text.len());
                assert_eq!(rest, [0; 2]);
                assert!([0, 54, 62, 64].contains(&pending[0]));
                assert!(pending[1..].iter().all(|&place| place <= text.len() as u64));
                let size = crate::entry_size(text.len());
                assert_eq!(written % size, 0);
                assert!(
                    written / size <= tokens.div_ceil(2) && (full == 0 || room - written < size)
                );
                records += written / size;
                fulls += full;
            }
            _ => refused_well(number, values, &text, &[5, 6, 7, 8, 9]),
        }
    }
    let told = format!("{too_long} texts too long, {records} records, {fulls} calls full");
    assert!(
        too_long > 0 && records > ROUNDS / 20 && fulls > ROUNDS / 100,
        "{told}"
    );
}

/// Trees of random items, and the same with bytes changed, cut off or put behind: the numbers are those that may come,
/// and the three calls agree.
#[test]
fn opening() {
    let mut random = Random(5);
    let mut whole = vec![0; MOST_ROOM];
    let (mut opened, mut refused) = (0, [0; 18]);
    for _ in 0..ROUNDS / 4 {
        let text = text_of(&mut random);
        let kind = 1 + random.below(5) as u64;
        let (number, [length, ..]) = read(kind, 1, &text, 0, &mut whole);
        if number != 0 {
            continue;
        }
        let mut tree = whole[..length].to_vec();
        assert_eq!(open(&tree, &text).0, 0, "what a read wrote opens");
        for _ in 0..4 {
            match random.below(4) {
                0 => tree.truncate(random.below(tree.len() + 1)),
                1 => tree.extend((0..random.below(20)).map(|_| random.next() as u8)),
                _ if tree.is_empty() => {}
                _ => {
                    let at = random.below(tree.len());
                    tree[at] = random.next() as u8;
                }
            }
            let (number, values) = open(&tree, &text);
            let (record, index) = (random.below(tree.len() + 20) as u64, random.next() % 3);
            let asked = child(&tree, &text, record & !3, index);
            if number != 0 {
                let place = values[0];
                assert_eq!(values, [place, place, place, place, 0, 0]);
                assert!((14..=17).contains(&number) && place <= tree.len().max(4));
                assert_eq!(asked, (number, values));
                refused[number as usize] += 1;
                continue;
            }
            let [one, first, _, start, end, nothing] = values;
            assert!(one == 1 && first <= 4 && inside(start, end, &text) && nothing == 0);
            assert_eq!(asked, opened_child(&tree, record & !3, index));
            let (number, [_, at, _, start, end, _]) = asked;
            assert!(number == 0 && at < tree.len() && inside(start, end, &text));
            opened += 1;
        }
    }
    assert!(opened > 100, "{opened}");
    assert!(
        refused[15..].iter().all(|count| *count > 100),
        "{refused:?}"
    );
}

#[test]
fn empty_everything() {
    for edition in [1, 2] {
        assert_eq!(next_token(edition, &[], 0), (0, [0; 6]));
        assert_eq!(next_comment(edition, &[], 0), (0, [0; 6]));
        assert_eq!(read(3, edition, &[], 0, &mut []), (10, [0; 6]));
        assert_eq!(display(3, edition, &[], 0, &mut []), (10, [0; 6]));
        assert_eq!(read(3, edition, b"u8", 0, &mut []), (4, [0; 6]));
        assert_eq!(display(3, edition, b"u8", 0, &mut []), (4, [0; 6]));
        let mut pending = [0; 3];
        for limit in [0, 1, u64::MAX] {
            let answer = outline(edition, &[], 0, limit, &mut pending, &mut []);
            assert_eq!((answer, pending), ((0, [0; 6]), [0; 3]));
        }
    }
    assert_eq!(open(&[], &[]), (15, [0; 6]));
    assert_eq!(child(&[], &[], 0, 0), (15, [0; 6]));
    assert_eq!(opened_child(&[], u64::MAX, u64::MAX), (0, [0; 6]));
}

/// A number that is no edition is 19, behind 1, 2 and 3 and before what the text says.
#[test]
fn no_edition() {
    let long = vec![b'$'; crate::LONGEST + 1];
    for edition in [0, 3, u64::MAX] {
        assert_eq!(next_token(edition, b"$", 0), (19, [0; 6]));
        assert_eq!(next_comment(edition, b"/*", 0), (19, [0; 6]));
        assert_eq!(next_token(edition, b"$", 2), (2, [0; 6]));
        assert_eq!(next_comment(edition, &long, 0), (1, [0; 6]));
        for (text, at, number) in [(&b"$"[..], 0, 19), (b"$", 2, 2), (&long, 0, 1)] {
            let (mut pending, mut buffer) = ([9, 8, 7], [7; 20]);
            let answer = outline(edition, text, at, 0, &mut pending, &mut buffer);
            assert_eq!(
                (answer, pending, buffer),
                ((number, [0; 6]), [9, 8, 7], [7; 20])
            );
        }
        for call in [read, display] {
            let mut buffer = [7; 20];
            for kind in 1..=5 {
                for room in [0, 20] {
                    let answer = call(kind, edition, b"u8", 0, &mut buffer[..room]);
                    assert_eq!(answer, (19, [0; 6]));
                    let answer = call(kind, edition, b"$", 0, &mut buffer[..room]);
                    assert_eq!(answer, (19, [0; 6]));
                }
            }
            for kind in [0, 6, 7, u64::MAX] {
                let answer = call(kind, edition, b"$", 0, &mut buffer);
                assert_eq!(answer, (3, [0; 6]));
            }
            assert_eq!(call(3, edition, b"u8", 3, &mut buffer), (2, [0; 6]));
            assert_eq!(call(3, edition, &long, 0, &mut buffer), (1, [0; 6]));
            assert_eq!(buffer, [7; 20]);
        }
    }
}
