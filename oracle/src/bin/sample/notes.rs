//! The call that carries notes from edition 1 to edition 2. What must come of it is found by plain loops over
//! the Rust's tokens in both editions (oracle/src/carrying.rs).

use crate::hex;
use oracle::{
    answer::Answer,
    carrying::{Carried, Walks, MOST_NOTES},
    editions,
    random::Random,
    texts,
};
use std::collections::BTreeSet;

/// The program that replays the sample has no more room for a text, nor for notes.
const TEXT_ROOM: usize = 128;
const NOTES_ROOM: usize = 320;

pub fn lines() -> String {
    let mut sample = Sample::default();
    decided(&mut sample);
    all_starts(&mut sample);
    lengths(&mut sample);
    random_texts(&mut sample);
    sample.lines
}

#[derive(Default)]
struct Sample {
    lines: String,
    taken: BTreeSet<(Vec<u8>, Vec<usize>)>,
}

impl Sample {
    fn add(&mut self, text: &[u8], notes: &[usize]) {
        if self.taken.insert((text.to_vec(), notes.to_vec())) {
            self.lines += &line(text, notes, &Walks::new(text).carried(notes));
        }
    }
}

fn line(text: &[u8], notes: &[usize], carried: &Carried) -> String {
    assert!(text.len() <= TEXT_ROOM && notes.len() <= NOTES_ROOM);
    assert_eq!(carried.notes.len(), notes.len());
    let mut line = format!("n {} {} {}", carried.answer, hex(text), notes.len());
    for note in notes.iter().chain(&carried.notes) {
        line += &format!(" {note}");
    }
    line + "\n"
}

/// What the request decides.
fn decided(sample: &mut Sample) {
    for (text, notes) in [
        (&b"1_000 a"[..], &[1, 0, 7, 6][..]),
        (b"1u168 b", &[1]),
        (b"1u8x\"00\"", &[0, 3]),
        (b"a", &[0, 5, 9]),
        (b"a $", &[9]),
        (b"1_x\"a\"", &[9]),
        (b"1_ /*", &[0]),
        (b"", &[0]),
        (b"", &[1]),
        (b"a b", &[1]),
        (b"a", &[usize::MAX, 0]),
        (b"a", &[1 << 32, 1, 0]),
    ] {
        sample.add(text, notes);
    }
}

/// All starts of a text as notes: rising, falling, and with another offset at each index in turn, most of
/// them wrong. Of every text of 1 or 2 bytes that matter rising alone.
fn all_starts(sample: &mut Sample) {
    for text in TEXTS {
        let mut notes = Walks::new(text).starts();
        sample.add(text, &notes);
        notes.reverse();
        sample.add(text, &notes);
        for index in 0..notes.len() {
            let mut wrong = notes.clone();
            wrong[index] = [notes[index] + 1, text.len() + 1][index % 2];
            sample.add(text, &wrong);
        }
    }
    const BYTES: &[u8] = b"01x_u6\"b ";
    for first in BYTES {
        sample.add(&[*first], &Walks::new(&[*first]).starts());
        for second in BYTES {
            let text = [*first, *second];
            sample.add(&text, &Walks::new(&text).starts());
        }
    }
}

/// Lists about as long as they may be: all right, and with a wrong offset at their ends and at the limit.
fn lengths(sample: &mut Sample) {
    sample.add(b"a", &[0; MOST_NOTES]);
    sample.add(b"a", &[0; MOST_NOTES + 1]);
    sample.add(b"1_ $", &[0; MOST_NOTES + 1]);
    let text = b"1_0 b";
    let starts = Walks::new(text).starts();
    for length in [0, 1, 2, 255, 256, 257, 300] {
        let notes: Vec<usize> = starts.iter().copied().cycle().take(length).collect();
        sample.add(text, &notes);
        for index in [0, 255, 256, 299] {
            if index < length {
                let mut wrong = notes.clone();
                wrong[index] = text.len() + 1 + index;
                sample.add(text, &wrong);
            }
        }
    }
}

/// Pieces of Move with numbers spelled in both ways, every third damaged, with up to 12 notes in any order, some
/// of them twice; in every fourth list one is any offset.
fn random_texts(sample: &mut Sample) {
    let mut random = Random::new(2026);
    for turn in 0..150 {
        let good = texts::move_like(&mut random, 8 + turn % 48, turn % 8 == 0);
        let mut text = editions::respelled(&mut random, &good, 0);
        if turn % 3 == 2 {
            text = texts::damaged(&mut random, &text);
        }
        text.truncate(TEXT_ROOM);
        let starts = Walks::new(&text).starts();
        let count = random.below(13);
        let mut notes: Vec<usize> = (0..count)
            .filter(|_| !starts.is_empty())
            .map(|_| random.pick(&starts))
            .collect();
        if turn % 4 == 3 {
            notes.push(random.below(text.len() + 2));
        }
        sample.add(&text, &notes);
    }
}

/// Texts in which the editions part, and some that are refused.
const TEXTS: &[&[u8]] = &[
    b"",
    b"a",
    b"1_000 a",
    b"1u168 b",
    b"1u8x\"00\"",
    b"1_b\"a\"",
    b"1_x\"a\"",
    b"1 _0",
    b"1/*c*/_0",
    b"1//\n_0",
    b"/**/1_0/**/",
    b"0x_1",
    b"0x1_",
    b"0xu16",
    b"0xu8",
    b"0xf_fu32",
    b"0xf_g_1",
    b"0x0x0",
    b"1u256 1u2568 1u25",
    b"1u16u16",
    b"1_u8_u8",
    b"1__a_b",
    b"1_0::a",
    b"a<1_0>>=b",
    b"b\"1_0\" 1_0",
    b"1_0\n2_0\r\n3u16",
    b"let x = 1_000u256 + 0xff_ff;",
    b"&mut 1_0",
    b"1_\"",
    b"1_0 x\"",
    b"1_0 b\"\xff\"",
    b"1_0 /* /* */",
    b"1_0\r",
    b"1_0 \x80",
];

/// Answers that are wrong, each of them those of a program that errs so.
pub fn wrong_lines() -> String {
    let accepted = |notes: &[usize]| (Answer::carried(notes.len()), notes.to_vec());
    let bad = |index: usize, notes: &[usize]| (Answer::refused(20, index, index), notes.to_vec());
    let mut count_of_five = accepted(&[0, 0, 7, 6]);
    count_of_five.0.numbers[0] = 5;
    let mut a_sixth_number = accepted(&[0, 0, 7, 6]);
    a_sixth_number.0.numbers[5] = 1;
    let mut a_result = accepted(&[0, 0, 7, 6]);
    a_result.0.result = 20;
    let many = [0; MOST_NOTES + 1];
    let wrong: [(&[u8], &[usize], (Answer, Vec<usize>)); 14] = [
        (b"1_000 a", &[1, 0, 7, 6], count_of_five),
        (b"1_000 a", &[1, 0, 7, 6], a_sixth_number),
        (b"1_000 a", &[1, 0, 7, 6], a_result),
        // notes left as they are; the last one left; moved to the token's end
        (b"1_000 a", &[1, 0, 7, 6], accepted(&[1, 0, 7, 6])),
        (b"1_000 a", &[6, 1], accepted(&[6, 1])),
        (b"1_000 a", &[1, 0, 7, 6], accepted(&[5, 5, 7, 7])),
        // moved although another is bad; the highest bad index; a 257th note let through
        (b"1_000 a", &[1, 2], bad(1, &[0, 2])),
        (b"a", &[0, 5, 9], bad(2, &[0, 5, 9])),
        (b"a", &many, accepted(&many)),
        // starts looked for in edition 2; EOF's start refused; a byte inside a token allowed
        (b"1_0", &[1], bad(0, &[1])),
        (b"a", &[0, 1], bad(1, &[0, 1])),
        (b"ab", &[1], accepted(&[0])),
        // 20 before the text is read; edition 2's walk without that of edition 1
        (b"a $", &[9], bad(0, &[9])),
        (b"1_x\"a\"", &[0], accepted(&[0])),
    ];
    wrong
        .into_iter()
        .map(|(text, notes, (answer, after))| {
            let told = Carried {
                answer,
                notes: after,
            };
            assert_ne!(told, Walks::new(text).carried(notes));
            line(text, notes, &told)
        })
        .collect()
}
