//! What must hold of displays, checked item by item: the answer and the line of each,
//! that the line is read back in the item's edition, and that two items have one line exactly
//! where they have one build, whatever edition each of them has (the specification, "The words
//! of demand 3").

use crate::{
    answer::{Answer, ItemCall},
    builds::build_of,
    displays::{self, Show},
    editions,
    expected::Text,
    lent::{Ask, Buffer, ItemAt, Room, Wrong},
    numbers::Numbers,
    parsing::ItemKind,
    random::Random,
    reads::{self, Cause, Expected, Lent, LONGEST_LINE},
    tree::FRONT,
};
use std::{collections::HashMap, rc::Rc};

/// What did not hold.
#[derive(Clone, Copy, PartialEq, Eq, Debug)]
pub enum Property {
    /// The display answers and writes what it must.
    Displayed,
    /// Every byte of a line is from 32 to 126.
    Printable,
    /// What is refused a line for a byte of a string can be read.
    UnprintableButRead,
    /// So does the read: where it is refused, the display is refused alike.
    Read,
    /// The Rust reads the line to its last byte, as the same build.
    ReadByTheRust,
    /// The port's read of the line writes the Rust's tree of it, in the item's room.
    ReadByThePort,
    /// The port's display of the line gives the line again, in the item's room.
    DisplayedAgain,
    /// Lines are equal exactly where builds are.
    OneLineOneBuild,
}

impl Property {
    pub fn words(self) -> &'static str {
        match self {
            Property::Displayed => "the display is another one",
            Property::Printable => "the line holds a byte under 32 or over 126",
            Property::UnprintableButRead => "refused with 18, and its read is refused too",
            Property::Read => "the read is another one",
            Property::ReadByTheRust => "the Rust does not read the line as this build",
            Property::ReadByThePort => "the port does not read the line as the Rust does",
            Property::DisplayedAgain => "the port displays the line as another line",
            Property::OneLineOneBuild => "lines and builds are not equal together",
        }
    }
}

/// An item of which a property does not hold.
#[derive(Clone, Debug)]
pub struct Fault {
    pub property: Property,
    pub kind: u64,
    pub edition: u64,
    pub text: Vec<u8>,
    pub at: usize,
    /// What was due and what was found, a line each.
    pub told: Vec<String>,
}

/// How many items were checked, and what came of them.
#[derive(Clone, Copy, Default)]
pub struct Tally {
    pub items: u64,
    pub answers: u64,
    /// Answers on texts of 65,536 to 1,048,575 bytes.
    pub on_long: u64,
    /// Displays that are refused with 18.
    pub unprintable: u64,
    /// Answers to numbers that are no edition.
    pub of_none: u64,
    /// Items whose line has at most 65,535 bytes, which are those that are accepted.
    pub accepted: u64,
    /// Lines that were read back. Each different one is once in each edition that it was met in, and
    /// that of an item whose tree is wide each time.
    pub read_back: u64,
    /// Items whose trees are wide: those whose line's tree is wide too, and those whose line's tree is
    /// narrow.
    pub both_wide: u64,
    pub only_item_wide: u64,
    pub numbers: Numbers,
    pub listed: [u64; Cause::ALL.len()],
}

/// Checks items, and keeps the lines and builds of those that were accepted.
pub struct Properties {
    buffer: Buffer,
    show: Show,
    groups: [Groups; ItemKind::ALL.len()],
    random: Random,
    pub tally: Tally,
}

/// A property that does not hold, with what is told of it.
type Broken = (Property, Vec<String>);

type Bytes = Rc<[u8]>;

impl Properties {
    /// `ask` is the port; `show` gives the line that is due.
    pub fn new(ask: Ask, show: Show, random: Random) -> Properties {
        Properties {
            buffer: Buffer::new(ask),
            show,
            groups: Default::default(),
            random,
            tally: Tally::default(),
        }
    }

    pub fn random(&mut self) -> &mut Random {
        &mut self.random
    }

    /// An item with the rooms that matter.
    pub fn check(&mut self, kind: u64, edition: u64, text: &Text, at: usize) -> Option<Fault> {
        self.checked(
            (kind, edition),
            text,
            at,
            |random, accepted| match accepted {
                true => vec![Room::Exact, Room::OneLess, Room::None, Room::More(1)],
                false => vec![random.pick(&[Room::None, Room::Exact, Room::More(37)])],
            },
        )
    }

    /// An item with all sorts of rooms.
    pub fn check_thoroughly(
        &mut self,
        kind: u64,
        edition: u64,
        text: &Text,
        at: usize,
    ) -> Option<Fault> {
        self.checked((kind, edition), text, at, |_, _| {
            let more = [1_000, 7, 1].map(Room::More);
            [&more, &[Room::Exact, Room::OneLess, Room::None][..]].concat()
        })
    }

    /// An item with every room up to more than is needed.
    pub fn check_each_room(
        &mut self,
        kind: u64,
        edition: u64,
        text: &Text,
        at: usize,
    ) -> Option<Fault> {
        let read = reads::expected_in(edition, kind, text, at);
        // A line with an unprintable byte too would need that much.
        let line = |item| (self.show)(item, &text.bytes[at..]);
        let needed = read.item.as_ref().map_or(0, |item| line(item).len());
        self.checked((kind, edition), text, at, |_, _| {
            (0..needed + 2).map(Room::Bytes).collect()
        })
    }

    fn checked(
        &mut self,
        (kind, edition): (u64, u64),
        text: &Text,
        at: usize,
        rooms: impl FnOnce(&mut Random, bool) -> Vec<Room>,
    ) -> Option<Fault> {
        let read = reads::expected_in(edition, kind, text, at);
        // The line is of the bytes as they stand, in edition 2 too.
        let due = displays::expected(&read, text, at, self.show);
        self.tally.items += 1;
        let rooms = rooms(&mut self.random, !due.written.is_empty());
        self.tally.on_long += u64::from(text.is_long()) * rooms.len() as u64;
        let item = (kind, edition, text.bytes, at);
        let broken = self
            .display_broken(item, &due, &rooms)
            .or_else(|| self.none_broken(item, &due))
            .or_else(|| self.read_broken(item, &read))
            .or_else(|| unprintable_broken(&read, &due))
            .or_else(|| self.line_broken((kind, edition), text, &read, &due));
        broken.map(|(property, told)| Fault {
            property,
            kind,
            edition,
            text: text.bytes.to_vec(),
            at,
            told,
        })
    }

    /// The display, with each of the rooms.
    fn display_broken(&mut self, item: ItemAt, due: &Expected, rooms: &[Room]) -> Option<Broken> {
        for room in rooms {
            let room = room.of(due);
            let lent = due.within(room);
            self.tally.answers += 1;
            self.tally.numbers.count(lent);
            if let Some(cause) = lent.cause {
                self.tally.listed[cause as usize] += 1;
                self.tally.unprintable += u64::from(cause == Cause::UnprintableLine);
            }
            if let Some(wrong) = self.buffer.wrong(ItemCall::Display, item, room, lent) {
                return Some((Property::Displayed, told(room, lent, &wrong)));
            }
        }
        None
    }

    /// The display with a number that is no edition, beside one in edition 1.
    fn none_broken(&mut self, item: ItemAt, due: &Expected) -> Option<Broken> {
        let (kind, edition, text, at) = item;
        if edition != 1 {
            return None;
        }
        let none = editions::NONE[self.tally.items as usize % editions::NONE.len()];
        self.tally.of_none += 1;
        let room = Room::Exact.of(due);
        let lent = Lent {
            answer: Some(editions::of_none(due.answer)),
            written: &[],
            cause: None,
        };
        self.tally.numbers.count(lent);
        let item = (kind, none, text, at);
        let wrong = self.buffer.wrong(ItemCall::Display, item, room, lent)?;
        Some((Property::Displayed, told(room, lent, &wrong)))
    }

    /// The read, with enough room.
    fn read_broken(&mut self, item: ItemAt, due: &Expected) -> Option<Broken> {
        let room = Room::Exact.of(due);
        let lent = due.within(room);
        let wrong = self.buffer.wrong(ItemCall::Read, item, room, lent)?;
        Some((Property::Read, told(room, lent, &wrong)))
    }

    /// What must hold of the line of an item, if it has one that is not too long.
    fn line_broken(
        &mut self,
        (kind, edition): (u64, u64),
        text: &Text,
        read: &Expected,
        due: &Expected,
    ) -> Option<Broken> {
        let line = &due.written;
        if line.is_empty() || line.len() > LONGEST_LINE {
            return None;
        }
        if !line.iter().all(|byte| (32..=126).contains(byte)) {
            let told = vec![format!("line     '{}'", cut(line))];
            return Some((Property::Printable, told));
        }
        self.tally.accepted += 1;
        let build = build_of(&read.written, text.bytes);
        let group = kind as usize - 1;
        let known = self.groups[group].knows(line, &build, edition);
        if known == Known::InThisEdition && !is_wide(&read.written) {
            return None;
        }
        let broken = self.back_broken((kind, edition), line, &read.written, &build);
        match known {
            Known::No => broken.or_else(|| self.groups[group].pair_broken(line, &build, edition)),
            _ => broken,
        }
    }

    /// Reads the line alone, in the item's edition, and displays it. `tree` is the item's: the line's
    /// takes no more room, and is read in that.
    fn back_broken(
        &mut self,
        (kind, edition): (u64, u64),
        line: &[u8],
        tree: &[u8],
        build: &[u8],
    ) -> Option<Broken> {
        self.tally.read_back += 1;
        let end = line.len();
        let read = reads::expected_in(edition, kind, &Text::new(line), 0);
        let length = read.written.len();
        let whole = Answer::read(length, 0, end, end);
        self.tally.both_wide += (is_wide(tree) && is_wide(&read.written)) as u64;
        self.tally.only_item_wide += (is_wide(tree) && !is_wide(&read.written)) as u64;
        let fits = length > 0 && length <= tree.len();
        let same = || build_of(&read.written, line) == build;
        if read.answer != Some(whole) || read.cause.is_some() || !fits || !same() {
            let found = read.answer.map_or("a panic".into(), |it| it.to_string());
            let told = vec![
                format!("line     '{}'", cut(line)),
                format!("expected {whole}, and the same build"),
                format!("the Rust {found}"),
            ];
            return Some((Property::ReadByTheRust, told));
        }
        let room = tree.len();
        let due = read.within(room);
        let item = (kind, edition, line, 0);
        if let Some(wrong) = self.buffer.wrong(ItemCall::Read, item, room, due) {
            return Some((Property::ReadByThePort, told_of(line, room, due, &wrong)));
        }
        let due = Lent {
            answer: Some(Answer::display(end)),
            written: line,
            cause: None,
        };
        let wrong = self.buffer.wrong(ItemCall::Display, item, end, due)?;
        Some((Property::DisplayedAgain, told_of(line, end, due, &wrong)))
    }

    /// The pairs of accepted items of one kind, and those of them with one line.
    pub fn pairs(&self) -> (u128, u128) {
        let sum = |of: fn(&Groups) -> u128| self.groups.iter().map(of).sum();
        (sum(Groups::pairs), sum(Groups::pairs_of_one_line))
    }

    /// How many lines were met in both editions.
    pub fn in_both(&self) -> usize {
        self.groups.iter().map(Groups::in_both).sum()
    }

    /// How many different lines were met.
    pub fn lines(&self) -> usize {
        self.groups.iter().map(|group| group.lines.len()).sum()
    }
}

fn is_wide(tree: &[u8]) -> bool {
    tree.starts_with(&FRONT)
}

/// What is refused with 18 was read.
fn unprintable_broken(read: &Expected, due: &Expected) -> Option<Broken> {
    let accepted = read.answer.is_some_and(|answer| answer.result == 0);
    (due.cause == Some(Cause::UnprintableLine) && !accepted)
        .then(|| (Property::UnprintableButRead, vec![]))
}

fn told(room: usize, due: Lent, wrong: &Wrong) -> Vec<String> {
    let mut told = vec![format!("room     {room}")];
    match due.answer {
        Some(answer) => told.push(format!("expected {answer}")),
        None => told.push("expected nothing: the Rust panics, and no list says why".into()),
    }
    if let Some(cause) = due.cause {
        told.push(format!("because  {}", cause.words()));
    }
    told.push(format!("found    {}", wrong.found));
    if let Some(fault) = &wrong.buffer {
        told.push(format!("buffer   {fault}"));
        told.push(format!("due      '{}'", cut(due.written)));
        told.push(format!("written  '{}'", cut(&wrong.written)));
    }
    told
}

fn told_of(line: &[u8], room: usize, due: Lent, wrong: &Wrong) -> Vec<String> {
    let mut told = told(room, due, wrong);
    told.insert(0, format!("line     '{}'", cut(line)));
    told
}

/// The first 200 bytes, readable.
fn cut(bytes: &[u8]) -> String {
    let more = if bytes.len() > 200 { "..." } else { "" };
    bytes[..bytes.len().min(200)].escape_ascii().to_string() + more
}

/// The lines and builds of the accepted items of one kind.
#[derive(Default)]
struct Groups {
    lines: HashMap<Bytes, Group>,
    builds: HashMap<Bytes, Bytes>,
}

/// The items of one line, of all editions.
struct Group {
    build: Bytes,
    items: u64,
    /// The editions in which one of them was met, each as a bit.
    editions: u64,
}

/// Whether an item of a line and a build was met before.
#[derive(Clone, Copy, PartialEq, Eq)]
enum Known {
    InThisEdition,
    InAnother,
    No,
}

impl Groups {
    /// Whether an item of this line and this build was met before; counts it.
    fn knows(&mut self, line: &[u8], build: &[u8], edition: u64) -> Known {
        match self.lines.get_mut(line) {
            Some(group) if *group.build == *build => {
                group.items += 1;
                let before = group.editions;
                group.editions |= 1 << edition;
                match before == group.editions {
                    true => Known::InThisEdition,
                    false => Known::InAnother,
                }
            }
            _ => Known::No,
        }
    }

    /// Takes in an item whose line was met with another build or not at all.
    fn pair_broken(&mut self, line: &[u8], build: &[u8], edition: u64) -> Option<Broken> {
        let told = |other: &[u8], how| {
            vec![
                format!("line     '{}'", cut(line)),
                format!("{how} '{}'", cut(other)),
            ]
        };
        if let Some(group) = self.lines.get(line) {
            let told = told(&group.build, "the same line with another build:");
            return Some((Property::OneLineOneBuild, told));
        }
        if let Some(other) = self.builds.get(build) {
            let told = told(other, "the same build with another line:");
            return Some((Property::OneLineOneBuild, told));
        }
        let (line, build) = (Bytes::from(line), Bytes::from(build));
        self.builds.insert(build.clone(), line.clone());
        let group = Group {
            build,
            items: 1,
            editions: 1 << edition,
        };
        self.lines.insert(line, group);
        None
    }

    /// How many lines were met in both editions.
    fn in_both(&self) -> usize {
        let both = 1 << 1 | 1 << 2;
        self.lines
            .values()
            .filter(|group| group.editions == both)
            .count()
    }

    fn pairs(&self) -> u128 {
        pairs_of(self.lines.values().map(|group| group.items).sum())
    }

    fn pairs_of_one_line(&self) -> u128 {
        self.lines.values().map(|group| pairs_of(group.items)).sum()
    }
}

/// How many pairs so many items make.
pub fn pairs_of(items: u64) -> u128 {
    let items = items as u128;
    items * items.saturating_sub(1) / 2
}

#[cfg(test)]
mod tests {
    use super::*;
    use crate::{line::line_of, parsing::Item};

    /// A port that reads and displays as it should, its lines shown by `show`.
    fn port(
        call: ItemCall,
        (kind, edition, text, at): ItemAt,
        room: &mut [u8],
        answer: &mut [u64; 6],
        show: Show,
    ) -> u32 {
        let text = Text::new(text);
        let read = reads::expected_in(edition, kind, &text, at);
        if !(1..=2).contains(&edition) {
            let given = editions::of_none(read.answer);
            *answer = given.numbers;
            return given.result;
        }
        let due = match call {
            ItemCall::Read => read,
            ItemCall::Display => displays::expected(&read, &text, at, show),
        };
        let lent = due.within(room.len());
        room[..lent.written.len()].copy_from_slice(lent.written);
        let given = lent.answer.expect("a listed cause");
        *answer = given.numbers;
        given.result
    }

    /// A way to show lines, and a port that shows them so.
    macro_rules! shown_by {
        ($show:expr) => {{
            const SHOW: Show = $show;
            let ask: Ask = |call, kind, edition, text, at, room, answer| {
                port(call, (kind, edition, text, at), room, answer, SHOW)
            };
            (ask, SHOW)
        }};
    }

    fn replaced(item: &Item, text: &[u8], from: &str, to: &str) -> Vec<u8> {
        let line = String::from_utf8(line_of(item, text)).expect("lines are ASCII");
        line.replace(from, to).into_bytes()
    }

    const ITEMS: [(u64, &str); 22] = [
        (1, "a :: b"),
        (1, "0x1::b::c"),
        (2, "@ 0x1"),
        (2, "b\"a , b\""),
        (3, "|(|u8|u8)|u8"),
        (3, "|u8| |u8|u8"),
        (3, "| | a"),
        (3, "( a , (b) , )"),
        (3, "(a,(b,c))"),
        (3, "((a,b),c)"),
        (3, "(a,b,c)"),
        (3, "a<b,c>"),
        (3, "a<>"),
        (3, "& mut"),
        (3, "&mut a"),
        (4, "S{f}"),
        (4, "S{f:f}"),
        (4, "S<>{f}"),
        (4, "(x, S<u8>{}, y)"),
        (4, "$"),
        (5, "| |"),
        (5, "|x, y|"),
    ];

    /// The first property that is found broken.
    fn broken((ask, show): (Ask, Show)) -> Option<Property> {
        let mut properties = Properties::new(ask, show, Random::new(1));
        ITEMS.iter().find_map(|(kind, text)| {
            let text = Text::new(text.as_bytes());
            let fault = properties.check(*kind, 1, &text, 0);
            fault
                .or_else(|| properties.check_thoroughly(*kind, 2, &text, 0))
                .or_else(|| properties.check_each_room(*kind, 1, &text, 0))
                .map(|fault| fault.property)
        })
    }

    #[test]
    fn a_right_display_passes() {
        assert_eq!(broken(shown_by!(line_of)), None);
    }

    /// Wrong lines, each beside an oracle that wants the right ones.
    #[test]
    fn wrong_lines_differ() {
        for (ask, _) in [
            shown_by!(|item, text| replaced(item, text, "| |", "||")),
            shown_by!(|item, text| replaced(item, text, "(|", "|")),
            shown_by!(|item, text| replaced(item, text, "<>", "")),
            shown_by!(|item, text| replaced(item, text, "f: f", "f")),
            shown_by!(|item, text| replaced(item, text, "& mut", "&mut")),
            shown_by!(|item, text| replaced(item, text, "{}", "{ }")),
            shown_by!(|_, text| text.to_vec()),
        ] {
            assert_eq!(broken((ask, line_of)), Some(Property::Displayed));
        }
    }

    /// The same where the oracle wants the wrong lines too: what else must hold of
    /// lines tells them. Lines that only their own definition forbids are not among
    /// these: `&mut` at the end for `& mut`, `{ }` for `{}`, shorthand kept everywhere.
    #[test]
    fn wrong_lines_do_not_keep_the_other_properties() {
        let not_read = Some(Property::ReadByTheRust);
        for wrong in [
            shown_by!(|item, text| replaced(item, text, "| |", "||")),
            shown_by!(|item, text| replaced(item, text, "(|", "|")),
            shown_by!(|item, text| replaced(item, text, "(|u8| u8)", "|u8| u8")),
            shown_by!(|item, text| replaced(item, text, "<>", "")),
            shown_by!(|item, text| replaced(item, text, "(b, c)", "b, c")),
            shown_by!(|item, text| replaced(item, text, "&mut a", "&muta")),
            shown_by!(|item, text| replaced(item, text, "<b, c>", "<b>")),
            shown_by!(|_, _| b"a".to_vec()),
        ] {
            assert_eq!(broken(wrong), not_read);
        }
    }

    /// Lines that are read back, and hold a byte that does not show.
    #[test]
    fn a_line_that_does_not_show_is_found() {
        let tabs = shown_by!(|item, text| replaced(item, text, ", ", ",\t"));
        assert_eq!(broken(tabs), Some(Property::Printable));
    }

    /// A port that accepts an unprintable byte, and one that refuses it at another place.
    #[test]
    fn an_unprintable_byte_that_is_shown_is_found() {
        let shown: Ask = |call, kind, edition, text, at, room, answer| match call {
            ItemCall::Read => port(call, (kind, edition, text, at), room, answer, line_of),
            ItemCall::Display => {
                let length = text.len().min(room.len());
                room[..length].copy_from_slice(&text[..length]);
                *answer = Answer::display(length).numbers;
                0
            }
        };
        let moved: Ask = |call, kind, edition, text, at, room, answer| {
            let result = port(call, (kind, edition, text, at), room, answer, line_of);
            answer[0] += u64::from(result == 18);
            result
        };
        for ask in [shown, moved] {
            let mut properties = Properties::new(ask, line_of, Random::new(1));
            let fault = properties.check(2, 1, &Text::new(b"b\"a\rb\""), 0);
            assert_eq!(fault.unwrap().property, Property::Displayed);
        }
    }

    /// A display that copies the text: the same build has two lines.
    #[test]
    fn one_build_with_two_lines_is_found() {
        let copied = shown_by!(|_, text| text.to_vec());
        let mut properties = Properties::new(copied.0, copied.1, Random::new(1));
        let mut check = |text: &[u8]| {
            let fault = properties.check(4, 1, &Text::new(text), 0);
            fault.map(|fault| fault.property)
        };
        assert_eq!(check(b"S{f}"), None);
        assert_eq!(check(b"S{f}"), None);
        assert_eq!(check(b"S{f:f}"), Some(Property::OneLineOneBuild));
        assert_eq!(check(b"S{f};"), Some(Property::ReadByTheRust));
    }

    /// A port whose lines are right where they are not read back.
    #[test]
    fn a_line_that_is_displayed_otherwise_is_found() {
        let ask: Ask = |call, kind, edition, text, at, room, answer| {
            let show: Show = match text {
                b"(a, b)" => |_, _| b"(b, a)".to_vec(),
                _ => line_of,
            };
            port(call, (kind, edition, text, at), room, answer, show)
        };
        let mut properties = Properties::new(ask, line_of, Random::new(1));
        let fault = properties.check(3, 1, &Text::new(b"(a,b)"), 0);
        assert_eq!(fault.unwrap().property, Property::DisplayedAgain);
    }

    /// A port that reads lines otherwise than other texts.
    #[test]
    fn a_line_that_the_port_does_not_read_is_found() {
        let ask: Ask = |call, kind, edition, text, at, room, answer| {
            let text = if text == b"(a, b)" { b"(a, c)" } else { text };
            let kind = if text == b"(a, c)" { 9 } else { kind };
            port(call, (kind, edition, text, at), room, answer, line_of)
        };
        let mut properties = Properties::new(ask, line_of, Random::new(1));
        let fault = properties.check(3, 1, &Text::new(b"(a,b)"), 0);
        assert_eq!(fault.unwrap().property, Property::ReadByThePort);
    }

    #[test]
    fn what_a_call_may_not_do_is_found() {
        // Writes on a refusal, writes behind the line, forgets a number.
        let writes: Ask = |call, kind, edition, text, at, room, answer| {
            let result = port(call, (kind, edition, text, at), room, answer, line_of);
            if result != 0 && !room.is_empty() {
                room[0] = room[0].wrapping_add(1);
            }
            result
        };
        let writes_behind: Ask = |call, kind, edition, text, at, room, answer| {
            let result = port(call, (kind, edition, text, at), room, answer, line_of);
            let length = answer[0] as usize;
            if result == 0 && room.len() > length {
                room[length] = room[length].wrapping_add(1);
            }
            result
        };
        let forgets: Ask = |call, kind, edition, text, at, room, answer| {
            let last = answer[5];
            let result = port(call, (kind, edition, text, at), room, answer, line_of);
            answer[5] = last;
            result
        };
        for ask in [writes, writes_behind, forgets] {
            assert_eq!(broken((ask, line_of)), Some(Property::Displayed));
        }
    }

    /// A port that reads a line back in edition 1 whatever the item's edition is.
    #[test]
    fn a_line_that_is_read_back_in_another_edition_is_found() {
        let ask: Ask = |call, kind, edition, text, at, room, answer| {
            let edition = if text == b"1_0::a" { 1 } else { edition };
            port(call, (kind, edition, text, at), room, answer, line_of)
        };
        let mut properties = Properties::new(ask, line_of, Random::new(1));
        let fault = properties.check(1, 2, &Text::new(b"1_0 :: a"), 0);
        assert_eq!(fault.unwrap().property, Property::ReadByThePort);
    }

    /// Items of both editions are of one group, and each edition reads the line back.
    #[test]
    fn both_editions_in_one_group() {
        let (ask, show) = shown_by!(line_of);
        let mut properties = Properties::new(ask, show, Random::new(1));
        for (edition, text) in [(1, "1"), (2, "1"), (2, "1 "), (2, "1_"), (1, "1_")] {
            let fault = properties.check(2, edition, &Text::new(text.as_bytes()), 0);
            assert!(fault.is_none(), "{text}");
        }
        assert_eq!((properties.lines(), properties.in_both()), (2, 1));
        assert_eq!(properties.tally.read_back, 3);
        assert_eq!(properties.pairs(), (10, 6));
    }

    /// The line of an item whose tree is wide is read back each time.
    #[test]
    fn lines_of_wide_trees() {
        let (ask, show) = shown_by!(line_of);
        let mut properties = Properties::new(ask, show, Random::new(1));
        let far = "a".to_string() + &" ".repeat(65_535);
        let list = format!("({})", "a,".repeat(4_096));
        for text in ["a", "a", &far, &far, &list] {
            let fault = properties.check(3, 1, &Text::new(text.as_bytes()), 0);
            assert!(fault.is_none());
        }
        let tally = properties.tally;
        let wide = (tally.both_wide, tally.only_item_wide);
        assert_eq!((tally.read_back, wide), (4, (1, 2)));
        assert_eq!(tally.on_long, 8);
    }

    #[test]
    fn pairs() {
        let (ask, show) = shown_by!(line_of);
        let mut properties = Properties::new(ask, show, Random::new(1));
        for text in ["a", "(a)", "a<>", "b", "(a,b)"] {
            let fault = properties.check(3, 1, &Text::new(text.as_bytes()), 0);
            assert!(fault.is_none());
        }
        assert_eq!(properties.pairs(), (10, 1));
        assert_eq!(properties.lines(), 4);
        assert_eq!(properties.tally.read_back, 4);
    }
}
