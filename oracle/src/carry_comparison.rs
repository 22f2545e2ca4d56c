//! Compares the port's carrying of notes with what is due by the Rust's walks (oracle/src/carrying.rs). The
//! program `compare` includes this file as a module.

use crate::{every_text, grouped, item_sets::Size, station::calls::movesig_carry, Found};
use oracle::{
    answer::Answer,
    carrying::{Carried, Walks, MOST_NOTES},
    editions,
    random::Random,
    texts,
};
use std::time::Instant;

/// So many entries on each side of a lent list are watched, and hold this.
const GUARD: usize = 4;
const UNTOUCHED: usize = 0x5a5a_5a5a_5a5a_5a5a;

/// A number that no call answers: it shows what was not written.
const UNWRITTEN: u64 = 0xa5a5_a5a5_a5a5_a5a5;

/// How many differences are shown.
const SHOWN: u64 = 5;

/// The numbers that a call can return.
const NUMBERS: [u32; 8] = [0, 1, 5, 6, 7, 8, 9, 20];

pub fn run(size: Size) -> Found {
    let start = Instant::now();
    println!("\nNotes carried from edition 1 to edition 2:");
    let mut comparison = Comparison::new(size.random(70));
    run_sets(&mut comparison, &size);
    comparison.print_summary();
    println!("\n{:.1} s", start.elapsed().as_secs_f64());
    Found {
        different: comparison.different,
        missing: comparison.missing(),
        on_long: comparison.on_long,
    }
}

fn run_sets(comparison: &mut Comparison, size: &Size) {
    let longest = size.of(7, 5);
    let name = format!("every text up to {longest} bytes, all starts");
    comparison.set(&name, |to| {
        every_text(b"01x_u6\"b ", longest, |text| to.in_three_orders(text))
    });
    let name = format!("every text up to {longest} bytes, one wrong offset");
    comparison.set(&name, |to| {
        every_text(b"01x_u6\"b ", longest, |text| to.one_wrong(text))
    });
    comparison.set("lists of 0, 1, 255, 256, 257 and 100,000 notes", |to| {
        for text in [
            &b""[..],
            b"a",
            b"1_0 0x1_fu256 b",
            b"1_ $",
            b"b\"\xff\"",
            b"1_ b\"",
            b"x\"",
        ] {
            to.each_length(text);
        }
    });
    comparison.set("Move-like texts of 0 to 64 bytes", |to| {
        for turn in 0..size.of(400_000, 10_000) {
            to.move_like(turn % 65, turn % 8 == 0);
        }
    });
    comparison.set("Move-like texts of 2,000 bytes", |to| {
        for _ in 0..size.of(6_000, 200) {
            to.move_like(2_000, false);
        }
    });
    comparison.set("Move-like texts of 65,530 to 65,540 bytes", |to| {
        for turn in 0..size.of(66, 6) {
            to.move_like(65_530 + turn % 11, false);
        }
    });
    comparison.set("Move-like texts of about 1,048,575 bytes", |to| {
        for turn in 0..size.of(12, 2) {
            to.move_like(1_048_575 - turn % 3, false);
        }
        to.too_long();
    });
}

struct Comparison {
    random: Random,
    calls: u64,
    on_long: u64,
    /// How often each number was due.
    due: [u64; 32],
    /// Notes that moved, and those that two or more came to lie on.
    moved: u64,
    met: u64,
    different: u64,
    /// Lent, with its guards.
    lent: Vec<usize>,
}

impl Comparison {
    fn new(random: Random) -> Comparison {
        Comparison {
            random,
            calls: 0,
            on_long: 0,
            due: [0; 32],
            moved: 0,
            met: 0,
            different: 0,
            lent: vec![],
        }
    }

    /// Runs one set and prints how many calls it compared.
    fn set(&mut self, name: &str, run: impl FnOnce(&mut Comparison)) {
        let (calls, different) = (self.calls, self.different);
        run(self);
        println!("{:<50} {:>12}", name, grouped(self.calls - calls));
        if self.different > different {
            println!("  DIFFERENT: {}", grouped(self.different - different));
        }
    }

    /// All starts of a text as notes: rising, falling and in another order, some of them twice.
    fn in_three_orders(&mut self, text: &[u8]) {
        let walks = Walks::new(text);
        let mut notes = walks.starts();
        if notes.is_empty() {
            notes.push(self.random.below(text.len() + 2));
        }
        self.carry(text, &walks, &notes);
        notes.reverse();
        self.carry(text, &walks, &notes);
        self.shuffle(&mut notes);
        let again = self.random.pick(&notes);
        notes.push(again);
        self.carry(text, &walks, &notes);
    }

    /// All starts with a wrong offset at each index in turn.
    fn one_wrong(&mut self, text: &[u8]) {
        let walks = Walks::new(text);
        let mut notes = walks.starts();
        self.shuffle(&mut notes);
        for index in 0..notes.len() {
            let right = notes[index];
            notes[index] = self.wrong_offset(text, &walks);
            self.carry(text, &walks, &notes);
            notes[index] = right;
        }
    }

    /// The text's starts over and over, in lists of lengths that matter, and wrong ones at both ends.
    fn each_length(&mut self, text: &[u8]) {
        let walks = Walks::new(text);
        let mut starts = walks.starts();
        starts.push(*starts.first().unwrap_or(&0));
        for length in [0, 1, 2, 255, 256, 257, 258, 300, 100_000] {
            let right: Vec<usize> = starts.iter().copied().cycle().take(length).collect();
            self.carry(text, &walks, &right);
            for index in [0, 1, 128, 254, 255, 256, 257, 299, 99_999] {
                if index < length {
                    let mut notes = right.clone();
                    notes[index] = self.wrong_offset(text, &walks);
                    self.carry(text, &walks, &notes);
                    let other = self.random.below(length);
                    notes[other] = self.wrong_offset(text, &walks);
                    self.carry(text, &walks, &notes);
                }
            }
        }
    }

    /// A text of pieces of Move whose numbers are spelled in both ways, and a damaged copy of it, each with
    /// several lists of up to 300 notes.
    fn move_like(&mut self, length: usize, faults: bool) {
        let good = texts::move_like(&mut self.random, length, faults);
        let mut text = editions::respelled(&mut self.random, &good, 0);
        text.truncate(length);
        self.with_lists(&text);
        let bad = texts::damaged(&mut self.random, &text);
        self.with_lists(&bad[..bad.len().min(length)]);
    }

    fn with_lists(&mut self, text: &[u8]) {
        let walks = Walks::new(text);
        let starts = walks.starts();
        for turn in 0..4 {
            let count = match self.random.below(4) {
                0 => self.random.below(301),
                1 => self.random.below(4),
                2 => MOST_NOTES - self.random.below(2),
                _ => self.random.below(40),
            };
            let mut notes: Vec<usize> = (0..count)
                .map(|_| match starts.len() {
                    0 => self.random.below(text.len() + 2),
                    all => starts[self.random.below(all)],
                })
                .collect();
            if turn == 3 && count > 0 {
                for _ in 0..1 + self.random.below(3) {
                    let index = self.random.below(count);
                    notes[index] = self.wrong_offset(text, &walks);
                }
            }
            self.carry(text, &walks, &notes);
        }
    }

    fn too_long(&mut self) {
        for length in [1_048_576, 1_048_577, 2_000_000] {
            let text = vec![b'$'; length];
            let walks = Walks::new(&text);
            for notes in [&[][..], &[0], &[9; 300]] {
                self.carry(&text, &walks, notes);
            }
        }
    }

    /// An offset that starts no token of edition 1: one of the text, of the new tokens, or past the end.
    fn wrong_offset(&mut self, text: &[u8], walks: &Walks) -> usize {
        for _ in 0..4 {
            let offset = match walks.new.tokens.len() {
                0 => self.random.below(text.len() + 1),
                all if self.random.once_in(2) => {
                    let (start, end) = walks.new.tokens[self.random.below(all)];
                    self.random
                        .pick(&[start, start + 1, end, end.saturating_sub(1)])
                }
                _ => self.random.below(text.len() + 1),
            };
            if !walks.is_start(offset) {
                return offset;
            }
        }
        let past = [1, 2, 7, 1 << 16, 1 << 32, 1 << 63];
        match self.random.below(4) {
            0 => usize::MAX - self.random.below(2),
            1 => text.len() + self.random.pick(&past),
            _ => text.len() + 1,
        }
    }

    fn shuffle(&mut self, notes: &mut [usize]) {
        for index in (1..notes.len()).rev() {
            notes.swap(index, self.random.below(index + 1));
        }
    }

    /// Makes the call, and compares its answer, the list and what stands round it with what is due.
    fn carry(&mut self, text: &[u8], walks: &Walks, notes: &[usize]) {
        let due = walks.carried(notes);
        let found = self.asked(text, notes);
        self.calls += 1;
        self.on_long += u64::from((65_536..=1_048_575).contains(&text.len()));
        self.due[due.answer.result as usize] += 1;
        if due.answer.result == 0 {
            self.moved += notes.iter().zip(&due.notes).filter(|(a, b)| a != b).count() as u64;
            let two = |pair: &[(usize, usize)]| pair[0].0 != pair[1].0 && pair[0].1 == pair[1].1;
            let pairs = notes.iter().copied().zip(due.notes.iter().copied());
            let mut pairs: Vec<_> = pairs.collect();
            pairs.sort_unstable();
            self.met += pairs.windows(2).filter(|pair| two(pair)).count() as u64;
        }
        if found != due {
            self.different += 1;
            if self.different <= SHOWN {
                print(text, notes, &due, &found);
            }
        }
    }

    /// What the port makes of the list. Entries and numbers beside what is lent must stay as they are.
    fn asked(&mut self, text: &[u8], notes: &[usize]) -> Carried {
        self.lent.clear();
        self.lent.resize(GUARD, UNTOUCHED);
        self.lent.extend_from_slice(notes);
        self.lent.resize(notes.len() + 2 * GUARD, UNTOUCHED);
        let mut numbers = [UNWRITTEN; 8];
        // A text of no bytes may lie anywhere: here something to read lies there.
        let place = if text.is_empty() { b"a" } else { text };
        let result = unsafe {
            movesig_carry(
                place.as_ptr(),
                text.len(),
                self.lent.as_mut_ptr().add(GUARD),
                notes.len(),
                numbers.as_mut_ptr().add(1).cast(),
            )
        };
        let (front, rest) = self.lent.split_at(GUARD);
        let (list, behind) = rest.split_at(notes.len());
        let beside = front.iter().chain(behind);
        assert!(
            beside.into_iter().all(|entry| *entry == UNTOUCHED),
            "the port wrote beside the list of notes: '{}', {notes:?}",
            text[..text.len().min(200)].escape_ascii()
        );
        assert!(
            numbers[0] == UNWRITTEN && numbers[7] == UNWRITTEN,
            "the port wrote beside the six numbers: '{}', {notes:?}",
            text[..text.len().min(200)].escape_ascii()
        );
        let [_, a, b, c, d, e, f, _] = numbers;
        Carried {
            answer: Answer {
                result,
                numbers: [a, b, c, d, e, f],
            },
            notes: list.to_vec(),
        }
    }

    /// How many of the numbers that can come never came; one more where no note moved, or none met another.
    fn missing(&self) -> u64 {
        let never = NUMBERS
            .iter()
            .filter(|number| self.due[**number as usize] == 0);
        never.count() as u64 + u64::from(self.moved == 0) + u64::from(self.met == 0)
    }

    fn print_summary(&self) {
        println!("{:<50} {:>12}", "calls compared", grouped(self.calls));
        println!("{:<50} {:>12}", crate::ON_LONG, grouped(self.on_long));
        for (number, count) in self.due.iter().enumerate() {
            if *count > 0 {
                println!("{:<50} {:>12}", format!("  due: {number}"), grouped(count));
            }
        }
        println!("{:<50} {:>12}", "  notes that moved", grouped(self.moved));
        println!(
            "{:<50} {:>12}",
            "  notes that met another",
            grouped(self.met)
        );
        println!("{:<50} {:>12}", "differences", grouped(self.different));
        if self.missing() > 0 {
            println!("MISSING: a number that never was due, or no note that moved or met another");
        }
    }
}

fn print(text: &[u8], notes: &[usize], due: &Carried, found: &Carried) {
    let cut = &text[..text.len().min(200)];
    println!("\n  text of {} bytes: '{}'", text.len(), cut.escape_ascii());
    let told = |notes: &[usize]| format!("{:?} of {}", &notes[..notes.len().min(300)], notes.len());
    println!("    notes    {}", told(notes));
    println!("    expected {}, {}", due.answer, told(&due.notes));
    println!("    found    {}, {}", found.answer, told(&found.notes));
}
