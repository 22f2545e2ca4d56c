//! Walks over the tokens of the texts: by the Rust, by the port in each edition and by the lexer
//! in C.

use crate::{
    run, runs,
    station::{self, calls::movesig_next_token},
    texts, time_of, Time, RUNS,
};
use oracle::{
    answer::{Answer, Call},
    files::THE_FILE,
    parser::lexer::{Lexer, Tok},
    random::Random,
    reading::{Outcome, Reading},
};
use std::{hint::black_box, ops::Range};

#[link(name = "lexer", kind = "static")]
extern "C" {
    fn anchor_next_token(text: *const u8, len: usize, at: usize, answer: *mut [u64; 6]) -> u32;
}

const LONG: usize = 60_000;
const SHORT: usize = 1_000;

/// The texts of a row, which both editions read alike.
pub struct Walk {
    pub texts: Vec<String>,
}

impl Walk {
    /// One text of 60 KB.
    pub fn long(row: &str) -> Walk {
        Walk::of(row, 0..1, LONG)
    }

    /// As many bytes in texts of 1 KB.
    pub fn short(row: &str) -> Walk {
        Walk::of(row, 1..1 + LONG / SHORT, SHORT)
    }

    /// One text of 1 MB.
    pub fn longest(row: &str) -> Walk {
        Walk::of(row, 0..1, runs::LONG)
    }

    /// As many bytes in texts of 60 KB.
    pub fn parts(row: &str) -> Walk {
        Walk::of(row, 1..1 + runs::LONG / LONG, LONG)
    }

    /// A text of that length from each seed.
    fn of(row: &str, seeds: Range<usize>, length: usize) -> Walk {
        let make = maker(row);
        let texts = seeds.map(|seed| make(&mut Random::new(seed as u64), length));
        Walk {
            texts: texts.collect(),
        }
    }

    pub fn bytes(&self) -> usize {
        self.texts.iter().map(String::len).sum()
    }

    /// Stops where the three do not agree.
    pub fn agree(&self) {
        self.tokens();
    }

    /// How many tokens the texts have. Stops where the three do not agree.
    pub fn tokens(&self) -> usize {
        self.texts.iter().map(|text| same_tokens(text)).sum()
    }
}

/// The times of walks by the port in an edition. The runs take turns.
pub fn times(edition: u64, walks: &[Walk]) -> Vec<Time> {
    let mut times = vec![vec![]; walks.len()];
    for _ in 0..RUNS {
        for (walk, times) in walks.iter().zip(&mut times) {
            times.push(run(&walk.texts, |text| by_the_port_in(edition, text)));
        }
    }
    times.into_iter().map(time_of).collect()
}

fn maker(row: &str) -> fn(&mut Random, usize) -> String {
    let mut all = texts::KINDS
        .iter()
        .chain(&texts::NUMBERS)
        .chain([&texts::LIST, &texts::DENSEST]);
    let found = all.find(|(name, _)| *name == row);
    found.unwrap_or_else(|| panic!("no row '{row}'")).1
}

fn same_tokens(text: &str) -> usize {
    let mut reading = Reading::new(text, 0);
    let mut at = 0;
    let mut tokens = 0;
    loop {
        let Outcome::Token { kind, start, end } = reading.advance() else {
            panic!("the Rust refuses a text that is to be measured, behind {at}");
        };
        let line_feed = text.as_bytes()[at..start].contains(&b'\n');
        let due = Answer::token(kind, start, end, line_feed);
        for edition in [1, 2] {
            let found = station::ask(Call::Token, edition, text.as_bytes(), at);
            assert_eq!(found, due, "the token at {at}, edition {edition}");
        }
        // the lexer in C tells no line feeds
        assert_eq!(
            anchor(text, at),
            Answer::token(kind, start, end, false),
            "the token at {at}, by the lexer in C"
        );
        if kind == Tok::EOF as u64 {
            return tokens;
        }
        tokens += 1;
        at = end;
    }
}

fn anchor(text: &str, at: usize) -> Answer {
    let mut numbers = [0; 6];
    let result = unsafe { anchor_next_token(text.as_ptr(), text.len(), at, &mut numbers) };
    Answer { result, numbers }
}

pub fn by_the_rust(text: &str) {
    let mut lexer = Lexer::new(text, THE_FILE);
    loop {
        lexer.advance().expect("the text was walked before");
        if black_box(lexer.peek()) == Tok::EOF {
            return;
        }
    }
}

pub fn by_the_port(text: &str) {
    by_the_port_in(1, text);
}

pub fn by_the_port_in(edition: u64, text: &str) {
    walk(text, |start, length, at, answer| unsafe {
        movesig_next_token(edition, start, length, at, answer)
    });
}

pub fn by_the_anchor(text: &str) {
    walk(text, |start, length, at, answer| unsafe {
        anchor_next_token(start, length, at, answer)
    });
}

#[inline(always)]
fn walk(text: &str, next_token: impl Fn(*const u8, usize, usize, *mut [u64; 6]) -> u32) {
    let mut answer = [0; 6];
    loop {
        let [_, _, at, ..] = answer;
        let result = next_token(text.as_ptr(), text.len(), at as usize, &mut answer);
        assert_eq!(result, 0, "the text was walked before");
        if black_box(answer[0]) == Tok::EOF as u64 {
            return;
        }
    }
}
