//! A refusal as compilers show an error: place and reason, the source line, marks below it.

use crate::{
    due::{self, Item},
    paint::Paint,
    places::Places,
    starts,
    text::Text,
    visible::{self, Piece, CUT},
};
use movesig::{Refusal, Span, LONGEST_LINE};
use std::{cell::OnceCell, fmt::Write};

/// What a report is about, and how it is shown.
pub struct Report<'a> {
    /// The file's name, safe to show.
    pub name: String,
    pub text: &'a Text,
    /// The item that was asked for, if any.
    pub item: Option<Item>,
    /// Those of the text, counted once, where the first place is told.
    pub places: OnceCell<Places>,
    /// The screen's columns.
    pub screen: usize,
    pub paint: Paint,
}

impl Report<'_> {
    /// `FILE:LINE:COLUMN (byte OFFSET): refused NUMBER: reason`, the line and the marks; one line
    /// alone where neither the text nor a place of it is at fault.
    pub fn of(&self, refusal: &Refusal) -> String {
        let (number, reason) = (refusal.number(), refusal.reason());
        let refused = self.paint.red(&format!("refused {number}"));
        let has_place = matches!(refusal, Refusal::NothingStarts { .. });
        if refusal.is_by_caller() && !has_place {
            let name = self.paint.bold(&self.name);
            let words = self.words_for_caller(refusal);
            return format!("{name}: {refused}: {words}\n");
        }
        let due = self
            .item
            .map(|item| due::due(&self.text.bytes, item, refusal));
        let due = due::listed(&due.unwrap_or_default());
        let found = self.item;
        let found = found.and_then(|item| due::found(&self.text.bytes, item, refusal));
        let told = match found {
            Some(found) if due.is_empty() => format!(": found {found}"),
            Some(found) => format!(": found {found} where {due} was due"),
            None => String::new(),
        };
        let place = self.place(refusal.place().start);
        let mut report = format!("{place}: {refused}: {reason}{told}\n");
        self.put_source(refusal, &due, &mut report);
        report
    }

    /// As `FILE:LINE:COLUMN (byte OFFSET)`.
    pub fn place(&self, byte: usize) -> String {
        let places = || Places::new(&self.text.bytes);
        let (line, column) = self.places.get_or_init(places).of(byte);
        let place = format!("{}:{line}:{column}", self.name);
        format!("{} (byte {byte})", self.paint.bold(&place))
    }

    fn words_for_caller(&self, refusal: &Refusal) -> String {
        let reason = refusal.reason();
        match refusal {
            Refusal::TextTooLong => format!("{reason}: it has {}", self.text.length()),
            Refusal::StartPastEnd => format!("{reason}, which is at {}", self.text.bytes.len()),
            // a tree is lent room for every tree of its text
            Refusal::NoRoom => format!("line over {LONGEST_LINE} bytes"),
            _ => reason.to_string(),
        }
    }

    fn put_source(&self, refusal: &Refusal, due: &str, to: &mut String) {
        let mut places = vec![Mark::new(
            &self.text.bytes,
            refusal.place(),
            '^',
            label(&self.text.bytes, self.item, refusal, due),
        )];
        if refusal.second() != refusal.place() {
            places.push(Mark::new(
                &self.text.bytes,
                refusal.second(),
                '-',
                second_label(refusal),
            ));
        }
        if let Refusal::LineUnprintable { .. } = refusal {
            places[0].show_tab();
        }
        let numbers = places.iter().map(|place| place.line.number);
        let gutter = numbers.max().unwrap_or(1).to_string().len();
        let width = self
            .screen
            .saturating_sub(gutter + " | ".len() + 2 * CUT.len() + 1)
            .max(8);
        while let Some(first) = places.first() {
            let together = places
                .iter()
                .all(|place| place.line.start == first.line.start);
            let window = Window::of(&places, width).filter(|_| together);
            let shown = if window.is_some() { places.len() } else { 1 };
            let window = window.unwrap_or_else(|| Window::round(first, width));
            self.put_line(gutter, width, &window, &places[0], to);
            self.put_marks(gutter, &window, &places[..shown], to);
            places.drain(..shown);
        }
    }

    /// The line's part: for people where widths are not certain, and then, or alone, as the marks
    /// below need it.
    fn put_line(
        &self,
        gutter: usize,
        width: usize,
        window: &Window,
        place: &Mark,
        to: &mut String,
    ) {
        let mut number = place.line.number.to_string();
        let shown = Window::round_readable(place, width);
        if shown
            .pieces(&place.line.readable)
            .iter()
            .any(|piece| !piece.certain)
        {
            self.put(gutter, &number, &shown.text(&place.line.readable), to);
            number.clear();
        }
        self.put(gutter, &number, &window.text(&place.line.pieces), to);
    }

    fn put(&self, gutter: usize, number: &str, words: &str, to: &mut String) {
        let gutter = self.paint.blue(&format!("{number:>gutter$} |"));
        let line = format!("{gutter} {words}");
        writeln!(to, "{}", line.trim_end()).expect("a string takes what it is given");
    }

    /// All marks in one line, the label of the last one behind it; the other labels below, each where
    /// its mark begins.
    fn put_marks(&self, gutter: usize, window: &Window, places: &[Mark], to: &mut String) {
        let edge = self.screen.saturating_sub(gutter + " | ".len() + 1);
        let mut marks: Vec<(usize, usize, &Mark)> =
            places.iter().map(|place| window.columns(place)).collect();
        marks.sort_by_key(|&(indent, ..)| indent);
        let (mut line, mut used) = (String::new(), 0);
        for &(indent, width, place) in &marks {
            line += &" ".repeat(indent.saturating_sub(used));
            line += &self.colour(place, &place.sign.to_string().repeat(width));
            used = indent.max(used) + width;
        }
        if let Some(&(_, _, last)) = marks.last() {
            if used + 1 + last.label.chars().count() <= edge {
                line += " ";
                line += &self.colour(last, &last.label);
                marks.pop();
            }
        }
        self.put(gutter, "", &line, to);
        for &(indent, _, place) in marks.iter().rev() {
            let length = place.label.chars().count();
            let below = indent.min(edge.saturating_sub(length));
            let label = self.colour(place, &place.label);
            if length > 0 {
                self.put(gutter, "", &format!("{}{label}", " ".repeat(below)), to);
            }
        }
    }

    fn colour(&self, place: &Mark, words: &str) -> String {
        if place.sign == '^' {
            self.paint.red(words)
        } else {
            self.paint.blue(words)
        }
    }
}

/// What stands beside the mark of the place.
fn label(text: &[u8], item: Option<Item>, refusal: &Refusal, due: &str) -> String {
    let start = refusal.place().start;
    match refusal {
        Refusal::NothingStarts { .. } => {
            item.map_or_else(String::new, |item| starts::words(item.edition, text, start))
        }
        Refusal::NoToken { .. } if text[start..].starts_with(b"\xef\xbb\xbf") => {
            "a byte order mark: Move has none".to_string()
        }
        Refusal::NoToken { .. }
        | Refusal::StringNotAscii { .. }
        | Refusal::LineUnprintable { .. } => {
            let byte = text.get(start).copied().unwrap_or(0);
            format!("byte 0x{byte:02x}")
        }
        Refusal::CommentNotClosed { .. } => "opened here".to_string(),
        Refusal::TooDeep { .. } => "level 65 begins here".to_string(),
        _ if due.is_empty() => String::new(),
        _ => format!("{due} was due"),
    }
}

fn second_label(refusal: &Refusal) -> String {
    let words = match refusal {
        Refusal::UnexpectedToken { .. } => "the number",
        Refusal::ListNotClosed { .. } => "the list begins here",
        _ => "",
    };
    words.to_string()
}

/// A line of the text, without its end.
struct Line {
    /// Counted from 1.
    number: usize,
    start: usize,
    /// Each of a certain width.
    pieces: Vec<Piece>,
    /// The same characters, as people read them.
    readable: Vec<Piece>,
}

impl Line {
    /// The line that the byte stands in. It ends before LF, or before CR LF.
    fn at(text: &[u8], byte: usize) -> Line {
        let (before, behind) = text.split_at(byte.min(text.len()));
        let line_feed = |byte: &u8| *byte == b'\n';
        let start = before.iter().rposition(line_feed).map_or(0, |at| at + 1);
        let end = match behind.iter().position(line_feed) {
            Some(more) => before.len() + more,
            None => text.len(),
        };
        let line = &text[start..end];
        let line = match line.strip_suffix(b"\r") {
            Some(shorter) if end < text.len() => shorter,
            _ => line,
        };
        Line {
            number: before.iter().filter(|byte| line_feed(byte)).count() + 1,
            start,
            pieces: visible::certain_pieces(line),
            readable: visible::pieces(line),
        }
    }

    /// The piece that the byte is of; past the line's end their number.
    fn piece(&self, byte: usize) -> usize {
        let byte = byte - self.start;
        self.pieces.partition_point(|piece| piece.end <= byte)
    }
}

fn width(pieces: &[Piece], from: usize, to: usize) -> usize {
    pieces[from..to].iter().map(|piece| piece.width).sum()
}

/// A span to be marked, in its line: the pieces from `from` to before `to`.
struct Mark {
    line: Line,
    from: usize,
    to: usize,
    sign: char,
    label: String,
}

impl Mark {
    fn new(text: &[u8], span: Span, sign: char, label: String) -> Mark {
        let line = Line::at(text, span.start);
        let from = line.piece(span.start);
        let last = span.end.max(span.start + 1) - 1;
        let to = (line.piece(last) + 1).min(line.pieces.len()).max(from);
        Mark {
            line,
            from,
            to,
            sign,
            label,
        }
    }
}

impl Mark {
    /// The first piece as an escape, where it is a tab, which blanks stand for elsewhere.
    fn show_tab(&mut self) {
        for pieces in [&mut self.line.pieces, &mut self.line.readable] {
            if let Some(piece) = pieces.get_mut(self.from) {
                visible::show_tab(piece);
            }
        }
    }
}

/// The part of a line that is shown: the pieces from `from` to before `to`.
struct Window {
    from: usize,
    to: usize,
}

impl Window {
    /// Round all the places, which are of one line; none where they do not fit.
    fn of(places: &[Mark], most: usize) -> Option<Window> {
        let from = places.iter().map(|place| place.from).min()?;
        let to = places.iter().map(|place| place.to).max()?;
        let pieces = &places[0].line.pieces;
        let fits = to <= pieces.len() && width(pieces, from, to) <= most;
        fits.then(|| Window { from, to }.grown(pieces, most))
    }

    /// Round one place, as much of it as fits.
    fn round(place: &Mark, most: usize) -> Window {
        Window::in_pieces(place, &place.line.pieces, most)
    }

    fn round_readable(place: &Mark, most: usize) -> Window {
        Window::in_pieces(place, &place.line.readable, most)
    }

    fn in_pieces(place: &Mark, pieces: &[Piece], most: usize) -> Window {
        let mut window = Window {
            from: place.from,
            to: place.from,
        };
        while window.to < place.to && width(pieces, window.from, window.to + 1) <= most {
            window.to += 1;
        }
        window.grown(pieces, most)
    }

    /// As much as fits, on both sides.
    fn grown(mut self, pieces: &[Piece], most: usize) -> Window {
        let mut columns = width(pieces, self.from, self.to);
        loop {
            let before = (self.from > 0).then(|| pieces[self.from - 1].width);
            let left = before.filter(|more| columns + more <= most);
            if let Some(more) = left {
                self.from -= 1;
                columns += more;
            }
            let behind = pieces.get(self.to).map(|piece| piece.width);
            let right = behind.filter(|more| columns + more <= most);
            if let Some(more) = right {
                self.to += 1;
                columns += more;
            }
            if left.is_none() && right.is_none() {
                return self;
            }
        }
    }

    fn pieces<'p>(&self, pieces: &'p [Piece]) -> &'p [Piece] {
        &pieces[self.from..self.to]
    }

    /// The pieces, with the marks of a cut.
    fn text(&self, pieces: &[Piece]) -> String {
        let before = if self.from > 0 { CUT } else { "" };
        let behind = if self.to < pieces.len() { CUT } else { "" };
        // a mark whose letter is cut away would stand over what is before it
        let lost = |piece: &&Piece| self.from > 0 && piece.width == 0;
        let shown = self.pieces(pieces).iter().skip_while(lost);
        let shown: String = shown.map(|piece| piece.shown.as_str()).collect();
        format!("{before}{shown}{behind}")
    }

    /// Where the place is marked below the window: from which column on, and how many.
    fn columns<'m>(&self, place: &'m Mark) -> (usize, usize, &'m Mark) {
        let pieces = &place.line.pieces;
        let before = if self.from > 0 { CUT.len() } else { 0 };
        let indent = before + width(pieces, self.from, place.from);
        let to_edge = place.to.min(self.to).max(place.from);
        (indent, width(pieces, place.from, to_edge).max(1), place)
    }
}
