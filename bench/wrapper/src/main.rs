//! Measures what the Rust crate adds to the bare calls: the same texts and the same calls of the
//! same library, once through the crate's functions and once through its C interface.

use movesig::{display, read, Edition, Kind, LONGEST_LINE};
use std::{
    env,
    hint::black_box,
    process::exit,
    time::{Duration, Instant},
};

const HELP: &str = "\
Measures what the Rust crate adds to the bare calls.

usage: wrapper [--check] [--help]

  --check  exit status 1 where it adds 5 % or more, by the fastest runs, since other
           work on the machine can only add time
  --help   these words

Prints a table in nanoseconds a call: the median of the runs and, in brackets, the
fastest.
";

/// Each time is taken this often, over calls that last this long.
const RUNS: usize = 400;
const RUN: Duration = Duration::from_millis(1);

/// So many places on the stack.
const DEPTHS: usize = 8;

/// By how much the crate's functions may take longer.
const MORE: f64 = 0.05;

/// The bare calls, of the library that the crate links.
#[allow(dead_code)] // those that are measured are made
#[path = "../../../rust/movesig/src/boundary/calls.rs"]
mod bare;

/// A file's worth of Move source.
fn source() -> Vec<u8> {
    let function = "/// Pays out.\n\
        public fun pay<T>(from: &mut Purse<T>, amount: u64): (Coin<T>, bool) acquires Purse {\n    \
            let Purse { coins, owner: _ } = from; // all of it\n    \
            assert(amount >= 1 && *owner != @0x1, 7u64);\n    \
            (split<T>(coins, amount), b\"paid\" == x\"00ff\")\n\
        }\n";
    function
        .as_bytes()
        .iter()
        .copied()
        .cycle()
        .take(60_000)
        .collect()
}

/// Short types, as signatures have them.
const TYPES: [&str; 8] = [
    "u8",
    "&mut Purse<T>",
    "(Coin<T>, bool)",
    "vector<vector<u8>>",
    "0x1::Coin::Coin<0x1::XUS::XUS>",
    "|u64, &T| bool",
    "&signer",
    "Table<address, Option<u128>>",
];

fn main() {
    let check = check_is_asked();
    let text = source();
    let mut buffer = vec![0; LONGEST_LINE];
    let mut other = vec![0; LONGEST_LINE];
    println!("| calls | bare | crate | more |");
    println!("|---|---:|---:|---:|");
    let mut failed = false;
    let mut row = |name: &str, times: [Time; 2]| {
        let [bare, through] = times;
        let more = through.fastest / bare.fastest - 1.0;
        let cells = format!(
            "{} | {} | {:+.1} %",
            bare.cell(),
            through.cell(),
            100.0 * more
        );
        println!("| {name} | {cells} |");
        failed |= more >= MORE;
    };
    row(
        "the iterator over all tokens",
        measure([&mut || bare_tokens(&text), &mut || crate_tokens(&text)]),
    );
    row(
        "the same, call by call",
        measure([&mut || bare_tokens(&text), &mut || crate_next_tokens(&text)]),
    );
    row(
        "comment and token at each token",
        measure([&mut || bare_comments(&text), &mut || crate_comments(&text)]),
    );
    row(
        "reads of short types",
        measure([&mut || bare_reads(&mut buffer), &mut || {
            crate_reads(&mut other)
        }]),
    );
    row(
        "lines of short types",
        measure([&mut || bare_displays(&mut buffer), &mut || {
            crate_displays(&mut other)
        }]),
    );
    if check && failed {
        eprintln!("wrapper: the crate adds too much to a bare call");
        exit(1);
    }
}

fn check_is_asked() -> bool {
    let words: Vec<String> = env::args().skip(1).collect();
    match words.iter().map(String::as_str).collect::<Vec<_>>()[..] {
        [] => false,
        ["--check"] => true,
        ["--help"] => {
            print!("{HELP}");
            exit(0)
        }
        _ => {
            eprintln!("wrapper: bad usage\n\n{HELP}");
            exit(2)
        }
    }
}

/// What some calls came to: how many there were, and the sum of what they gave, so that both ways
/// must look at every number and can be held to the same.
#[derive(Clone, Copy, Default, PartialEq, Debug)]
struct Done {
    calls: usize,
    sum: usize,
}

impl Done {
    fn add<const N: usize>(&mut self, given: [usize; N]) {
        self.calls += 1;
        self.sum = given
            .iter()
            .fold(self.sum, |sum, number| sum.wrapping_add(*number));
    }
}

/// All tokens.
fn bare_tokens(text: &[u8]) -> Done {
    let mut done = Done::default();
    let mut answer = [0; 6];
    let mut at = 0;
    loop {
        let (start, length) = (text.as_ptr(), text.len());
        let number = unsafe { bare::movesig_next_token(1, start, length, at, &mut answer) };
        assert_eq!(number, 0, "a token is accepted");
        at = answer[2] as usize;
        done.add([answer[0] as usize, answer[1] as usize, at]);
        if answer[0] == 0 {
            return done;
        }
    }
}

fn crate_tokens(text: &[u8]) -> Done {
    let mut done = Done::default();
    for token in movesig::tokens(Edition::One, text, 0) {
        let token = token.expect("a token is accepted");
        done.add([token.kind.number().into(), token.span.start, token.span.end]);
    }
    done
}

fn crate_next_tokens(text: &[u8]) -> Done {
    let mut done = Done::default();
    let mut at = 0;
    loop {
        let token = movesig::next_token(Edition::One, text, at).expect("a token is accepted");
        at = token.span.end;
        done.add([token.kind.number().into(), token.span.start, at]);
        if token.is_eof() {
            return done;
        }
    }
}

/// The comment and the token at each token.
fn bare_comments(text: &[u8]) -> Done {
    let mut done = Done::default();
    let mut answer = [0; 6];
    let mut at = 0;
    loop {
        let (start, length) = (text.as_ptr(), text.len());
        let number = unsafe { bare::movesig_next_comment(1, start, length, at, &mut answer) };
        assert_eq!(number, 0, "a gap is accepted");
        if answer[0] != 0 {
            done.add([answer[1] as usize, answer[4] as usize]);
        }
        let number = unsafe { bare::movesig_next_token(1, start, length, at, &mut answer) };
        assert_eq!(number, 0, "a token is accepted");
        at = answer[2] as usize;
        done.add([answer[0] as usize, at]);
        if answer[0] == 0 {
            return done;
        }
    }
}

fn crate_comments(text: &[u8]) -> Done {
    let mut done = Done::default();
    let mut at = 0;
    loop {
        if let Some(comment) =
            movesig::next_comment(Edition::One, text, at).expect("a gap is accepted")
        {
            done.add([comment.span.start, comment.text.end]);
        }
        let token = movesig::next_token(Edition::One, text, at).expect("a token is accepted");
        at = token.span.end;
        done.add([token.kind.number().into(), at]);
        if token.is_eof() {
            return done;
        }
    }
}

/// The types, each by one call.
fn bare_items(buffer: &mut [u8], call: impl Fn(&[u8], &mut [u8], &mut [u64; 6]) -> u32) -> Done {
    let mut done = Done::default();
    let mut answer = [0; 6];
    for text in TYPES {
        let text = black_box(text.as_bytes());
        let number = call(text, buffer, &mut answer);
        assert_eq!(number, 0, "a type is accepted");
        done.add([answer[0] as usize, answer[1] as usize, answer[3] as usize]);
    }
    done
}

fn bare_reads(buffer: &mut [u8]) -> Done {
    bare_items(buffer, |text, out, answer| unsafe {
        let (start, room) = (out.as_mut_ptr(), out.len());
        bare::movesig_read(3, 1, text.as_ptr(), text.len(), 0, start, room, answer)
    })
}

fn bare_displays(buffer: &mut [u8]) -> Done {
    bare_items(buffer, |text, line, answer| unsafe {
        let (start, room) = (line.as_mut_ptr(), line.len());
        bare::movesig_display(3, 1, text.as_ptr(), text.len(), 0, start, room, answer)
    })
}

fn crate_reads(buffer: &mut [u8]) -> Done {
    let mut done = Done::default();
    for text in TYPES {
        let text = black_box(text.as_bytes());
        let item = read(Kind::Type, Edition::One, text, 0, buffer).expect("a type is accepted");
        let next = item.next;
        let length = item.tree.as_bytes().len();
        done.add([length, next.kind.number().into(), next.span.end]);
    }
    done
}

fn crate_displays(buffer: &mut [u8]) -> Done {
    let mut done = Done::default();
    for text in TYPES {
        let text = black_box(text.as_bytes());
        let line = display(Kind::Type, Edition::One, text, 0, buffer).expect("a type is accepted");
        done.add([line.len()]);
    }
    done
}

/// Nanoseconds a call, of several runs.
struct Time {
    median: f64,
    fastest: f64,
}

impl Time {
    fn cell(&self) -> String {
        format!("{:.2} ({:.2})", self.median, self.fastest)
    }
}

/// The runs take turns, so that other work on the machine falls on both alike.
fn measure(works: [&mut dyn FnMut() -> Done; 2]) -> [Time; 2] {
    let mut times = [vec![], vec![]];
    let [one, two] = works;
    assert_eq!(one(), two(), "both ways give the same");
    for round in 0..RUNS {
        times[0].push(lower(round % DEPTHS, one));
        times[1].push(lower(round % DEPTHS, two));
    }
    times.map(|mut runs| {
        runs.sort_by(f64::total_cmp);
        Time {
            median: runs[runs.len() / 2],
            fastest: runs[0],
        }
    })
}

/// A run further down the stack. Where the six numbers lie in the processor's cache changes the
/// time of both ways by some hundredths, so each has its turn at several places.
#[inline(never)]
fn lower(depth: usize, work: &mut dyn FnMut() -> Done) -> f64 {
    let room = black_box([0_u8; 16]);
    let time = match depth {
        0 => run(work),
        _ => lower(depth - 1, work),
    };
    black_box(room);
    time
}

fn run(work: &mut dyn FnMut() -> Done) -> f64 {
    let start = Instant::now();
    let mut calls = 0;
    while start.elapsed() < RUN {
        calls += black_box(work()).calls;
    }
    start.elapsed().as_nanos() as f64 / calls as f64
}
