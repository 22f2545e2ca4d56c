//! Compares outlines with what is due, and divided ones with whole ones. How the call is made is told from outside: the
//! program `compare` makes the port's, the tests here make wrong ones, which must be found.

use crate::{
    answer::Answer,
    editions,
    outlining::{Outlined, Walk},
    random::Random,
    texts,
};

/// How a call is made: the edition, the text, the offset, the limit, what is pending, the room lent and the six
/// numbers. Gives the result.
pub type Ask = fn(u64, &[u8], usize, u64, &mut [u64; 3], &mut [u8], &mut [u64; 6]) -> u32;

/// What is asked.
#[derive(Clone, Copy, Debug)]
pub struct Question {
    pub edition: u64,
    pub at: usize,
    pub limit: u64,
    pub pending: [u64; 3],
    pub room: usize,
}

/// What a call did: as what must come of it, and what it did to the buffer that it should not have.
struct Found {
    outlined: Outlined,
    fault: Option<String>,
}

/// So many bytes on each side of a lent buffer are watched.
const GUARD: usize = 32;

/// A number that no call answers: it shows what was not written.
const UNWRITTEN: u64 = 0xa5a5_a5a5_a5a5_a5a5;

/// How many differences are kept to be shown.
const SHOWN: usize = 5;

/// The numbers that a call can return.
const NUMBERS: [usize; 9] = [0, 1, 2, 5, 6, 7, 8, 9, 19];

/// The words of the enumerated texts.
const WORDS: [&str; 8] = ["fun", "struct", "f", "1_f", ";", "{", "/**a*/", "$"];

pub struct Comparison {
    ask: Ask,
    random: Random,
    pub calls: u64,
    pub on_long: u64,
    /// How often each number was due.
    pub due: [u64; 32],
    /// Accepted calls that were full, records that were due, those of them with a comment, those in the layout of
    /// longer texts.
    pub full: u64,
    pub records: u64,
    pub commented: u64,
    pub wide: u64,
    /// Texts that were divided, how many calls they took, and how many of these were full.
    pub divided: u64,
    pub parts: u64,
    pub full_parts: u64,
    pub different: u64,
    pub shown: Vec<String>,
    lent: Vec<u8>,
}

impl Comparison {
    pub fn new(ask: Ask, random: Random) -> Comparison {
        Comparison {
            ask,
            random,
            calls: 0,
            on_long: 0,
            due: [0; 32],
            full: 0,
            records: 0,
            commented: 0,
            wide: 0,
            divided: 0,
            parts: 0,
            full_parts: 0,
            different: 0,
            shown: vec![],
            lent: vec![],
        }
    }

    /// How many of the numbers that can come never came; one more for each sort of answer that never did.
    pub fn missing(&self) -> u64 {
        let never = NUMBERS.iter().filter(|number| self.due[**number] == 0);
        let sorts = [
            self.full,
            self.records,
            self.commented,
            self.wide,
            self.divided,
            self.full_parts,
        ];
        let absent = sorts.iter().filter(|count| **count == 0);
        (never.count() + absent.count()) as u64
    }

    /// Every text of up to so many words, with and without blanks between them, in both editions: every limit, and the
    /// rooms that matter; and once with something handed in, at some offset.
    pub fn every_text(&mut self, most: usize) {
        for words in 0..=most {
            for choice in 0..WORDS.len().pow(words as u32) {
                let word =
                    |place: usize| WORDS[choice / WORDS.len().pow(place as u32) % WORDS.len()];
                let words: Vec<&str> = (0..words).map(word).collect();
                self.every_limit(words.join(" ").as_bytes());
                if words.len() < most {
                    self.every_limit(words.concat().as_bytes());
                }
            }
        }
    }

    fn every_limit(&mut self, text: &[u8]) {
        for edition in [1, 2] {
            let walk = Walk::new(edition, text, 0);
            let all = walk.steps.len() as u64;
            for limit in (0..=all + 1).chain([u64::MAX]) {
                for room in [0, 11, 12, 24] {
                    let asked = Question {
                        edition,
                        at: 0,
                        limit,
                        pending: [0; 3],
                        room,
                    };
                    self.judge(text, &walk, asked);
                }
            }
            let asked = self.some_question(text);
            self.ask_anew(text, asked);
        }
    }

    /// Each kind from 0 to 68 and some greater numbers, handed in with spans inside the text, at its end, past it and
    /// backwards.
    pub fn handed_in(&mut self, text: &[u8], spans: usize) {
        let length = text.len() as u64;
        let past = [length + 1, 1 << 32, 1 << 63, u64::MAX];
        let kinds = (0..=68).chain([1 << 32 | 62, u64::MAX]);
        for kind in kinds {
            for edition in [1, 2] {
                let at = self.random.pick(&[0, 0, text.len() / 2, text.len()]);
                let walk = Walk::new(edition, text, at);
                for _ in 0..spans {
                    let mut place = || match self.random.below(4) {
                        0 => self.random.pick(&past),
                        1 => length - self.random.below(2).min(text.len()) as u64,
                        _ => self.random.below(text.len() + 1) as u64,
                    };
                    let (start, end) = (place(), place());
                    let limit = self.random.pick(&[0, 1, 2, 9, u64::MAX]);
                    let room = self.random.pick(&[0, 11, 12, 22, 24, 44, 100]);
                    let pending = [kind, start, end];
                    let asked = Question {
                        edition,
                        at,
                        limit,
                        pending,
                        room,
                    };
                    self.judge(text, &walk, asked);
                }
            }
        }
    }

    /// A Move-like text, one with more declarations, and damaged copies of both, each with some questions.
    pub fn move_like(&mut self, length: usize, faults: bool, questions: usize) {
        let source = texts::move_like(&mut self.random, length, faults);
        let declaring = self.declaring(length);
        for good in [source, declaring] {
            let mut text = editions::respelled(&mut self.random, &good, 0);
            text.truncate(length);
            self.some_questions(&text, questions);
            let bad = texts::damaged(&mut self.random, &text);
            self.some_questions(&bad[..bad.len().min(length)], questions);
        }
    }

    /// A text of about so many bytes in which names are often declared, all of whose tokens are accepted.
    fn declaring(&mut self, length: usize) -> Vec<u8> {
        let mut text = String::new();
        let random = &mut self.random;
        while text.len() < length {
            match random.below(12) {
                0..4 => {
                    text += random.pick(&[" fun", " struct", " const", "\nfun", " public fun"]);
                    text += random.pick(&[" ", " ", "\n", " /*a*/ ", " /** b */", "("]);
                    texts::push_name(random, &mut text);
                }
                4 => {
                    text += random.pick(&[";", "{", "}", " fun fun ", "()", " 1_0 ", " 0x1_fu256 "])
                }
                5 => text += random.pick(&["/// d\n", "/** e */", "/// f\n/// g\n"]),
                6 => texts::push_comment(random, &mut text),
                7 => text += random.pick(&texts::KEYWORDS),
                8 => text += random.pick(&texts::GAPS),
                9 => text += &[" ", random.pick(&texts::STRINGS)].concat(),
                10 => text += &[random.pick(&texts::MARKS), " "].concat(),
                _ => text += random.pick(&texts::NAMES),
            }
        }
        text.into_bytes()
    }

    fn some_questions(&mut self, text: &[u8], questions: usize) {
        for _ in 0..questions {
            let asked = self.some_question(text);
            self.ask_anew(text, asked);
        }
    }

    /// Texts of about 65,535 bytes with declarations at their end, asked from 0 and from there on: the whole text tells
    /// the layout.
    pub fn layouts(&mut self) {
        for length in 65_530..=65_540 {
            for tail in ["fun f", "/// d\nfun f fun g", "struct S {} const C;"] {
                let text = [" ".repeat(length - tail.len()), tail.to_string()].concat();
                let text = text.as_bytes();
                for edition in [1, 2] {
                    for at in [0, 1, 6, length - tail.len(), length - 1] {
                        let walk = Walk::new(edition, text, at);
                        for room in [0, 11, 12, 21, 22, 23, 24, 43, 44, 100] {
                            let pending = some_pending(&mut self.random, length);
                            let asked = Question {
                                edition,
                                at,
                                limit: 20,
                                pending,
                                room,
                            };
                            self.judge(text, &walk, asked);
                        }
                    }
                }
            }
        }
    }

    /// Texts that are too long, and offsets past the end.
    pub fn wrong_calls(&mut self) {
        for length in [1_048_576, 1_048_577, 2_000_000] {
            let text = vec![b'$'; length];
            for edition in [0, 1, 2, 3] {
                let mut asked = self.some_question(&text);
                asked.edition = edition;
                self.ask_anew(&text, asked);
            }
        }
        for text in [&b""[..], b"fun f", b"$"] {
            for at in [text.len() + 1, 1 << 16, 1 << 32, usize::MAX] {
                for edition in [0, 1, 2, u64::MAX] {
                    let mut asked = self.some_question(text);
                    (asked.at, asked.edition) = (at, edition);
                    self.ask_anew(text, asked);
                }
            }
        }
    }

    fn some_question(&mut self, text: &[u8]) -> Question {
        let random = &mut self.random;
        let edition = match random.below(32) {
            0 => random.pick(&editions::NONE),
            other => other as u64 % 2 + 1,
        };
        let at = match random.below(4) {
            0 => random.below(text.len() + 1),
            _ => 0,
        };
        let limit = match random.below(8) {
            0 => u64::MAX,
            1 => random.below(text.len() + 2) as u64,
            2 => random.pick(&[168, 169, 170, 171]),
            _ => random.below(12) as u64,
        };
        let room = match random.below(8) {
            0 => 0,
            1 => random.below(text.len() * 11 + 40),
            2 => random.pick(&[1_020, 1_024, 1_036, 8_184, 8_192, 8_196, 8_206]),
            _ => random.below(60),
        };
        Question {
            edition,
            at,
            limit,
            pending: some_pending(random, text.len()),
            room,
        }
    }

    /// Makes the call, and compares it with what is due by a walk from its offset.
    fn ask_anew(&mut self, text: &[u8], asked: Question) {
        let walk = Walk::new(asked.edition, text, asked.at);
        self.judge(text, &walk, asked);
    }

    fn judge(&mut self, text: &[u8], walk: &Walk, asked: Question) {
        let due = walk.outlined(asked.limit, asked.pending, asked.room);
        self.due[due.answer.result as usize] += 1;
        if due.answer.result == 0 {
            let records = due.written.chunks(walk.size());
            let comment = walk.size() - 2 * walk.width();
            self.full += due.answer.numbers[0];
            self.records += records.len() as u64;
            self.wide += if walk.width() == 4 {
                records.len() as u64
            } else {
                0
            };
            self.commented += records
                .filter(|record| record[comment..].iter().any(|byte| *byte != 0))
                .count() as u64;
        }
        let found = self.asked(text, asked);
        if let Some(fault) = found.fault {
            self.differs(text, asked, &fault);
        } else if found.outlined != due {
            let told = format!("expected {}, found {}", told(&due), told(&found.outlined));
            self.differs(text, asked, &told);
        }
    }

    /// A short text with names, divided at random and in one call.
    pub fn divide_some(&mut self) {
        let length = self.random.below(200);
        let mut text = self.declaring(length);
        if self.random.once_in(8) {
            text = texts::damaged(&mut self.random, &text);
        }
        self.divide(&text);
    }

    /// The text divided at random: limits from 0 to 9, each call from the end and with what is pending of the one
    /// before, with more room where that one was full. What the calls wrote, one behind the other, is what one call
    /// writes; or they come to the refusal that one call is.
    pub fn divide(&mut self, text: &[u8]) {
        let edition = 1 + self.random.below(2) as u64;
        let at = match self.random.below(4) {
            0 => self.random.below(text.len() + 1),
            _ => 0,
        };
        let whole = Question {
            edition,
            at,
            limit: u64::MAX,
            pending: some_pending(&mut self.random, text.len()),
            room: text.len() * 11 + 30,
        };
        let joined = self.joined(text, whole);
        let once = self.asked(text, whole);
        self.divided += 1;
        let due = Walk::new(edition, text, at).outlined(whole.limit, whole.pending, whole.room);
        for (found, name) in [(&joined, "divided"), (&once, "in one call")] {
            let found = match &found.fault {
                Some(fault) => fault.clone(),
                None if found.outlined == due => continue,
                None => told(&found.outlined),
            };
            self.differs(
                text,
                whole,
                &format!("expected {}, {name} {found}", told(&due)),
            );
        }
    }

    /// The calls one after the other, as one.
    fn joined(&mut self, text: &[u8], whole: Question) -> Found {
        let mut part = whole;
        let mut written = vec![];
        let mut count = 0;
        part.room = self.random.below(40);
        loop {
            part.limit = self.random.below(10) as u64;
            let mut found = self.asked(text, part);
            self.parts += 1;
            let Answer { result, numbers } = found.outlined.answer;
            if result != 0 || found.fault.is_some() {
                if result != 0 && found.outlined.pending == part.pending {
                    found.outlined.pending = whole.pending;
                }
                return found;
            }
            let [full, tokens, _, end, ..] = numbers;
            written.extend(found.outlined.written);
            count += tokens;
            self.full_parts += full;
            part.pending = found.outlined.pending;
            part.room = match full {
                0 => self.random.below(60),
                _ => part.room + 1 + self.random.below(30),
            };
            // a call that goes on for ever is no division
            if full == 0 && tokens < part.limit || count > text.len() as u64 {
                let numbers = [0, count, written.len() as u64, end, 0, 0];
                let outlined = Outlined {
                    answer: Answer { result, numbers },
                    pending: part.pending,
                    written,
                };
                let fault = None;
                return Found { outlined, fault };
            }
            part.at = end as usize;
        }
    }

    /// Makes the call. Buffer, three numbers and six have neighbours on each side that must stay as they are.
    fn asked(&mut self, text: &[u8], asked: Question) -> Found {
        self.calls += 1;
        self.on_long += u64::from((65_536..=1_048_575).contains(&text.len()));
        let fill = (self.calls * 37) as u8;
        self.lent.clear();
        self.lent.resize(asked.room + 2 * GUARD, fill);
        let mut threes = [[UNWRITTEN; 3], asked.pending, [UNWRITTEN; 3]];
        let mut numbers = [[UNWRITTEN; 6]; 3];
        let lent = &mut self.lent[GUARD..GUARD + asked.room];
        let Question {
            edition, at, limit, ..
        } = asked;
        let result = (self.ask)(
            edition,
            text,
            at,
            limit,
            &mut threes[1],
            lent,
            &mut numbers[1],
        );
        let answer = Answer {
            result,
            numbers: numbers[1],
        };
        let length = if result == 0 {
            numbers[1][2] as usize
        } else {
            0
        };
        let length = length.min(asked.room);
        let (front, rest) = self.lent.split_at(GUARD);
        let (written, behind) = rest.split_at(length);
        let kept = |bytes: &[u8]| bytes.iter().all(|byte| *byte == fill);
        let beside = [threes[0], threes[2]] == [[UNWRITTEN; 3]; 2]
            && [numbers[0], numbers[2]] == [[UNWRITTEN; 6]; 2];
        let fault = if !beside {
            Some("a number beside the lent ones was written")
        } else if !kept(front) {
            Some("a byte before the buffer was written")
        } else if !kept(behind) {
            Some("a byte behind the records was written")
        } else {
            None
        };
        Found {
            outlined: Outlined {
                answer,
                pending: threes[1],
                written: written.to_vec(),
            },
            fault: fault.map(str::to_string),
        }
    }

    fn differs(&mut self, text: &[u8], asked: Question, told: &str) {
        self.different += 1;
        if self.shown.len() < SHOWN {
            let cut = &text[..text.len().min(200)];
            let length = text.len();
            let text = cut.escape_ascii();
            self.shown.push(format!(
                "text of {length} bytes: '{text}'\n    {asked:?}\n    {told}"
            ));
        }
    }
}

/// What is handed in: nothing, or a keyword, or any kind; no comment, or one of any numbers.
fn some_pending(random: &mut Random, length: usize) -> [u64; 3] {
    let kind = match random.below(8) {
        0 => random.below(69) as u64,
        1 => u64::MAX,
        2..4 => random.pick(&[54, 62, 64]),
        _ => 0,
    };
    let mut place = || match random.below(8) {
        0 => length as u64 + random.below(3) as u64,
        1 => u64::MAX - random.below(2) as u64,
        _ => random.below(length + 1) as u64,
    };
    let (start, end) = (place(), place());
    match random.below(3) {
        0 => [kind, start, end],
        _ => [kind, 0, 0],
    }
}

fn told(outlined: &Outlined) -> String {
    let Outlined {
        answer,
        pending,
        written,
    } = outlined;
    let hex: String = written.iter().map(|byte| format!("{byte:02x}")).collect();
    format!("{answer}, pending {pending:?}, written '{hex:.200}'")
}

#[cfg(test)]
mod tests {
    use super::*;
    use crate::{
        outlining::{declares, number, End, Span, Step},
        reading::silence_the_rust,
    };

    /// What is done wrong.
    #[derive(Clone, Copy, PartialEq, Debug)]
    enum Fault {
        None,
        EofCounted,
        LimitOneOff,
        FullBehindTheRecord,
        NameCountedWhereFull,
        FirstComment,
        CommentKeptBehindBrace,
        CommentDroppedAtComma,
        KeywordKept,
        CommentBeforeEofPending,
        WrittenBeforeRefused,
        PendingChangedWhereRefused,
        SpanOfTheKeyword,
        FullBeforeLooking,
        LayoutBehindTheOffset,
        AnyKindHandedIn,
        CommentPastTheEndKept,
        CommentBackwardsDropped,
        CommentReadWhereFull,
        LookedBehindTheLimit,
        NoEditionAtLimitZero,
        KeywordNotHandedBack,
        CommentNotHandedBack,
    }

    use Fault::*;

    const FAULTS: [Fault; 22] = [
        EofCounted,
        LimitOneOff,
        FullBehindTheRecord,
        NameCountedWhereFull,
        FirstComment,
        CommentKeptBehindBrace,
        CommentDroppedAtComma,
        KeywordKept,
        CommentBeforeEofPending,
        WrittenBeforeRefused,
        PendingChangedWhereRefused,
        SpanOfTheKeyword,
        FullBeforeLooking,
        LayoutBehindTheOffset,
        AnyKindHandedIn,
        CommentPastTheEndKept,
        CommentBackwardsDropped,
        CommentReadWhereFull,
        LookedBehindTheLimit,
        NoEditionAtLimitZero,
        KeywordNotHandedBack,
        CommentNotHandedBack,
    ];

    thread_local! {
        static FAULT: std::cell::Cell<Fault> = const { std::cell::Cell::new(None) };
    }

    /// A walk that keeps what is pending, as the port's does.
    struct State {
        fault: Fault,
        at: usize,
        count: u64,
        written: Vec<u8>,
        keyword: u64,
        before: Span,
        comment: Span,
    }

    impl State {
        fn handed(fault: Fault, at: usize, pending: [u64; 3], length: usize) -> State {
            let [kind, start, end] = pending;
            let keyword = if declares(kind) || fault == AnyKindHandedIn && kind != 0 {
                kind
            } else {
                0
            };
            let past = start.max(end) > length as u64 && fault != CommentPastTheEndKept;
            let backwards = start > end && fault == CommentBackwardsDropped;
            let comment = if past || backwards {
                (0, 0)
            } else {
                (start as usize, end as usize)
            };
            State {
                fault,
                at,
                count: 0,
                written: vec![],
                keyword,
                before: (0, 0),
                comment,
            }
        }

        fn comment_before(&self, docs: &[Span]) -> Span {
            let found = if self.fault == FirstComment {
                docs.first()
            } else {
                docs.last()
            };
            found.copied().unwrap_or(self.comment)
        }

        fn put(&mut self, width: usize, name: Span, comment: Span) {
            let (start, end) = if self.fault == SpanOfTheKeyword {
                self.before
            } else {
                name
            };
            self.written.extend(number(width, 2 + 5 * width));
            self.written.extend(number(2, self.keyword as usize));
            for value in [start, end, comment.0, comment.1] {
                self.written.extend(number(width, value));
            }
        }

        fn pass(&mut self, step: &Step, comment: Span) {
            let kept = self.fault == KeywordKept && !step.is_name() && !step.declares();
            if !kept {
                self.keyword = if step.declares() { step.kind } else { 0 };
            }
            let brace = step.kind == 58 && self.fault == CommentKeptBehindBrace;
            let comma = step.kind == 17 && self.fault == CommentDroppedAtComma;
            let parted = step.separates() && !brace || comma;
            self.comment = if parted { (0, 0) } else { comment };
            self.before = step.span;
            self.at = step.span.1;
            self.count += 1;
        }
    }

    /// The call with a fault in it.
    fn wrong(
        edition: u64,
        text: &[u8],
        at: usize,
        limit: u64,
        pending: &mut [u64; 3],
        out: &mut [u8],
        answer: &mut [u64; 6],
    ) -> u32 {
        let fault = FAULT.get();
        let walk = Walk::new(edition, text, at);
        let mut refuse = |refused: Answer| {
            *answer = refused.numbers;
            refused.result
        };
        match walk.end {
            End::Never(refused)
                if refused.result == 19 && fault == NoEditionAtLimitZero && limit == 0 => {}
            End::Never(refused) => return refuse(refused),
            _ => {}
        }
        let behind = if fault == LayoutBehindTheOffset {
            at
        } else {
            0
        };
        let width = if text.len() - behind > 65_535 { 4 } else { 2 };
        let size = 2 + 5 * width;
        let mut state = State::handed(fault, at, *pending, text.len());
        let more = u64::from(fault == LimitOneOff);
        let mut full = false;
        let mut steps = walk.steps.iter();
        while state.count < limit.saturating_add(more) && !full {
            let no_room = out.len() - state.written.len() < size;
            full = fault == FullBeforeLooking && no_room;
            let Some(step) = steps.next().filter(|_| !full) else {
                if let (End::Eof(docs), false) = (&walk.end, full) {
                    state.count += u64::from(fault == EofCounted);
                    if fault == CommentBeforeEofPending {
                        state.comment = state.comment_before(docs);
                    }
                }
                break;
            };
            let comment = state.comment_before(&step.docs);
            if state.keyword != 0 && step.is_name() {
                if no_room {
                    full = true;
                    match fault {
                        NameCountedWhereFull => state.pass(step, comment),
                        CommentReadWhereFull => state.comment = comment,
                        _ => {}
                    }
                    break;
                }
                state.put(width, step.span, comment);
                full = fault == FullBehindTheRecord && out.len() - state.written.len() < size;
            }
            state.pass(step, comment);
        }
        let read = state.count == walk.steps.len() as u64 && !full;
        let within = limit > state.count || fault == LookedBehindTheLimit;
        let left = [
            state.keyword,
            state.comment.0 as u64,
            state.comment.1 as u64,
        ];
        if let (End::Refused(refused), true, true) = (&walk.end, read, within) {
            if fault == WrittenBeforeRefused {
                out[..state.written.len()].copy_from_slice(&state.written);
            }
            if fault == PendingChangedWhereRefused {
                *pending = left;
            }
            return refuse(*refused);
        }
        out[..state.written.len()].copy_from_slice(&state.written);
        *pending = match (fault, left) {
            (KeywordNotHandedBack, [_, start, end]) => [0, start, end],
            (CommentNotHandedBack, [keyword, ..]) => [keyword, 0, 0],
            _ => left,
        };
        *answer = [
            full.into(),
            state.count,
            state.written.len() as u64,
            state.at as u64,
            0,
            0,
        ];
        0
    }

    /// A small part of each set.
    fn compared(fault: Fault) -> Comparison {
        FAULT.set(fault);
        let mut comparison = Comparison::new(wrong, Random::new(1));
        comparison.every_text(3);
        comparison.handed_in(b"f /** a */ g;", 4);
        for turn in 0..300 {
            comparison.move_like(turn % 65, turn % 4 == 0, 4);
        }
        comparison.layouts();
        comparison.wrong_calls();
        for _ in 0..300 {
            comparison.divide_some();
        }
        comparison
    }

    /// A second way to the same outlines: by what is pending, from step to step.
    #[test]
    fn outlines_without_a_fault_are_due() {
        silence_the_rust();
        let comparison = compared(None);
        assert_eq!(comparison.different, 0, "{}", comparison.shown.concat());
        assert_eq!(comparison.missing(), 0);
    }

    /// Each fault is found.
    #[test]
    fn wrong_outlines_are_found() {
        silence_the_rust();
        for fault in FAULTS {
            assert!(compared(fault).different > 0, "{fault:?}");
        }
    }

    /// Some are found by the divided texts alone.
    #[test]
    fn wrong_divisions_are_found() {
        silence_the_rust();
        for fault in [
            NameCountedWhereFull,
            KeywordNotHandedBack,
            CommentNotHandedBack,
        ] {
            FAULT.set(fault);
            let mut comparison = Comparison::new(wrong, Random::new(2));
            for _ in 0..3_000 {
                comparison.divide_some();
            }
            assert!(comparison.different > 0, "{fault:?}");
        }
    }
}
