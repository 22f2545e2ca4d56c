use crate::Span;
use std::{fmt, iter::FusedIterator};

/// A record of a stored tree with its children, as it stands in the buffer: nothing is copied.
///
/// [`read`](crate::read) gives the outermost one, [`open`](crate::open) that of bytes that were saved,
/// [`children`](Tree::children) those inside. A tree is stored narrow or wide; which of the two makes no
/// difference to what is seen of it here.
#[derive(Clone, Copy)]
pub struct Tree<'t, 'b> {
    text: &'t [u8],
    bytes: &'b [u8],
    /// Where the record begins in the bytes: behind what stands in front of a wide tree.
    at: usize,
    form: Form,
}

/// What stands in front of a wide tree.
const FRONT: [u8; 4] = [4, 0, 99, 0];

/// The layout of records: the places of their numbers.
#[derive(Clone, Copy, Debug, PartialEq, Eq)]
enum Form {
    Narrow,
    Wide,
}

impl Form {
    /// How many bytes a length, a start and an end have.
    fn width(self) -> usize {
        match self {
            Form::Narrow => 2,
            Form::Wide => 4,
        }
    }

    /// Where a record's children begin.
    fn head(self) -> usize {
        2 + 3 * self.width()
    }
}

impl<'t, 'b> Tree<'t, 'b> {
    /// Of a text and the bytes of a tree as a read stores it.
    #[inline]
    pub(crate) fn new(text: &'t [u8], bytes: &'b [u8]) -> Tree<'t, 'b> {
        let (at, form) = if bytes.starts_with(&FRONT) {
            (FRONT.len(), Form::Wide)
        } else {
            (0, Form::Narrow)
        };
        Tree {
            text,
            bytes,
            at,
            form,
        }
    }

    /// The bytes of the record alone.
    fn record(self) -> &'b [u8] {
        self.bytes.get(self.at..).unwrap_or(&[])
    }

    /// What it is.
    #[must_use]
    pub fn kind(self) -> RecordKind {
        RecordKind::new(number(self.record(), self.form.width(), 2) as u16)
    }

    /// Where it stands in the text.
    #[must_use]
    pub fn span(self) -> Span {
        let width = self.form.width();
        Span {
            start: number(self.record(), width + 2, width) as usize,
            end: number(self.record(), 2 * width + 2, width) as usize,
        }
    }

    /// Its bytes in the text, from its first token to its last, with the gaps between.
    #[must_use]
    pub fn text(self) -> &'t [u8] {
        self.span().of(self.text)
    }

    /// The spelling of a leaf: its token's bytes. None for what has children, and for the unit,
    /// which has no spelling, whatever gap its brackets hold.
    #[must_use]
    pub fn spelling(self) -> Option<&'t [u8]> {
        self.kind().is_spelled().then(|| self.text())
    }

    /// Its children, in order.
    #[must_use]
    pub fn children(self) -> Children<'t, 'b> {
        Children {
            text: self.text,
            rest: self.record().get(self.form.head()..).unwrap_or(&[]),
            form: self.form,
        }
    }

    /// It and all records inside it, each behind the one that it belongs to, with its level: 0 for itself,
    /// 1 for its children. A walk over all of a tree is this loop; a function that calls itself for each
    /// child takes stack for each level. The iterator allocates some bytes for each level.
    ///
    /// ```
    /// use movesig::{read, Edition, Kind};
    ///
    /// let mut buffer = [0; 100];
    /// let item = read(Kind::Type, Edition::One, b"a<&b, c>", 0, &mut buffer)?;
    /// let seen: Vec<(usize, u16)> =
    ///     item.tree.records().map(|(level, record)| (level, record.kind().number())).collect();
    /// assert_eq!(seen, [(0, 10), (1, 3), (1, 11), (2, 10), (3, 3), (1, 10), (2, 3)]);
    /// # Ok::<(), movesig::Refusal>(())
    /// ```
    #[must_use]
    pub fn records(self) -> Records<'t, 'b> {
        Records {
            first: Some(self),
            open: vec![],
        }
    }

    /// The record as it is stored, with its children; of the outermost one all bytes that the
    /// read wrote, those in front of a wide tree too. These are what to save, to
    /// [`open`](crate::open) them another day; of a record inside, in the wide form, they are not enough.
    #[must_use]
    pub fn as_bytes(self) -> &'b [u8] {
        self.bytes
    }

    /// Whether it is stored in the wide form.
    #[must_use]
    pub fn is_wide(self) -> bool {
        self.form == Form::Wide
    }
}

/// The number in these bytes, the low one first; 0 where they are not all there.
fn number(bytes: &[u8], at: usize, width: usize) -> u32 {
    let bytes = bytes.get(at..at + width).unwrap_or(&[]);
    bytes
        .iter()
        .rev()
        .fold(0, |high, &low| high << 8 | u32::from(low))
}

/// `{:#?}` indents records up to so many levels below the first: more than an item of 64 levels has, which
/// is 130. Deeper ones begin at the left edge, so that what is written is not as long as the square of the
/// tree's length.
const INDENTED: usize = 136;

/// Its kind and its span, and in brackets its children's; by `{:#?}` one record a line, those up to 136
/// levels below the first indented. It takes no stack for a level.
impl fmt::Debug for Tree<'_, '_> {
    fn fmt(&self, to: &mut fmt::Formatter<'_>) -> fmt::Result {
        // so many records are not closed yet
        let mut open = 0;
        for (level, record) in self.records() {
            if level < open {
                close(to, level, open)?;
                to.write_str(if to.alternate() { "," } else { ", " })?;
            }
            if level > 0 {
                new_line(to, level)?;
            }
            write!(to, "{:?} {} [", record.kind(), record.span())?;
            open = level + 1;
        }
        close(to, 0, open)
    }
}

/// Closes the records from the deepest that is open, which has no children, up to the one at the level.
fn close(to: &mut fmt::Formatter<'_>, level: usize, open: usize) -> fmt::Result {
    for closed in (level..open).rev() {
        if closed + 1 < open {
            to.write_str(if to.alternate() { "," } else { "" })?;
            new_line(to, closed)?;
        }
        to.write_str("]")?;
    }
    Ok(())
}

/// A new line for a record of the level, where each has one.
fn new_line(to: &mut fmt::Formatter<'_>, level: usize) -> fmt::Result {
    if !to.alternate() {
        return Ok(());
    }
    let blanks = if level > INDENTED { 0 } else { 4 * level };
    write!(to, "\n{:blanks$}", "")
}

/// The children of a record.
#[derive(Clone, Copy, Debug)]
pub struct Children<'t, 'b> {
    text: &'t [u8],
    rest: &'b [u8],
    form: Form,
}

impl<'t, 'b> Iterator for Children<'t, 'b> {
    type Item = Tree<'t, 'b>;

    fn next(&mut self) -> Option<Tree<'t, 'b>> {
        let length = number(self.rest, 0, self.form.width()) as usize;
        if length < self.form.head() {
            return None;
        }
        let (bytes, rest) = self.rest.split_at_checked(length)?;
        self.rest = rest;
        Some(Tree {
            text: self.text,
            bytes,
            at: 0,
            form: self.form,
        })
    }
}

impl FusedIterator for Children<'_, '_> {}

/// The iterator that [`Tree::records`] gives.
#[derive(Clone, Debug)]
pub struct Records<'t, 'b> {
    first: Option<Tree<'t, 'b>>,
    /// What is still to come of the children of each record that is open, the first one's first.
    open: Vec<Children<'t, 'b>>,
}

impl<'t, 'b> Iterator for Records<'t, 'b> {
    type Item = (usize, Tree<'t, 'b>);

    fn next(&mut self) -> Option<(usize, Tree<'t, 'b>)> {
        let mut next = self.first.take();
        while next.is_none() {
            next = self.open.last_mut()?.next();
            if next.is_none() {
                self.open.pop();
            }
        }
        let record = next?;
        self.open.push(record.children());
        Some((self.open.len() - 1, record))
    }
}

impl FusedIterator for Records<'_, '_> {}

macro_rules! record_kinds {
    ($($variant:ident $number:literal $name:literal $words:literal),* $(,)?) => {
        /// What a record is. Each has a number in the stored tree; here they stand with their
        /// children, in order. A first part is an address or a name.
        #[derive(Clone, Copy, Debug, PartialEq, Eq, Hash)]
        #[non_exhaustive]
        pub enum RecordKind {
            $(
                #[doc = $words]
                $variant,
            )*
            /// A number that this version of the crate does not know. No tree that
            /// [`read`](crate::read) gives has one.
            Other(u16),
        }

        impl RecordKind {
            /// All that are known, by number.
            pub const ALL: &'static [RecordKind] = &[$(RecordKind::$variant),*];

            pub(crate) fn new(number: u16) -> RecordKind {
                match number {
                    $($number => RecordKind::$variant,)*
                    other => RecordKind::Other(other),
                }
            }

            /// Its number.
            pub fn number(self) -> u16 {
                match self {
                    $(RecordKind::$variant => $number,)*
                    RecordKind::Other(other) => other,
                }
            }

            /// Its name, for people.
            pub fn name(self) -> &'static str {
                match self {
                    $(RecordKind::$variant => $name,)*
                    RecordKind::Other(_) => "unknown",
                }
            }
        }
    };
}

record_kinds! {
    Name 1 "name" "1: a name; a leaf.",
    Address 2 "address" "2: a number as a name's first part or behind `@`; a leaf.",
    OnePart 3 "one-part chain" "3: the chain `a`; a leaf.",
    TwoPart 4 "two-part chain" "4: the chain `a::b`: first part, name.",
    ThreePart 5 "three-part chain" "5: the chain `a::b::c`: pair, name.",
    Pair 6 "pair" "6: the `a::b` of `a::b::c`: first part, name.",
    Type 10 "type" "10: `a`, `a<T, U>`: chain, then types.",
    Ref 11 "reference" "11: `&T`: type.",
    RefMut 12 "mutable reference" "12: `&mut T`: type.",
    Function 13 "function type" "13: `|T, U| V`: types, the result last.",
    Unit 14 "unit" "14: `()`: no children and no spelling.",
    Tuple 15 "tuple" "15: `(T, U)`: two types or more.",
    Brackets 16 "brackets" "16: `(T)`: the type in brackets.",
    Variable 20 "variable" "20: `x`; a leaf.",
    Struct 21 "struct" "21: `S {f: x}`: chain, then fields.",
    StructTyped 22 "struct with types" "22: `S<T> {f: x}`: chain, then types, then fields.",
    Field 24 "field" "24: `f: x`, also where `f` alone is written: name, binding.",
    BindList 25 "binding list" "25: `(x, y)`: bindings.",
    LambdaBindList 26 "lambda binding list" "26: `|x, y|`: bindings.",
    AddressValue 30 "address value" "30: `@0x1`: first part.",
    Number 31 "number" "31: a leaf.",
    True 32 "true" "32: a leaf.",
    False 33 "false" "33: a leaf.",
    HexString 34 "hex string" "34: a leaf.",
    ByteString 35 "byte string" "35: a leaf.",
}

impl RecordKind {
    /// Whether it is a leaf with a spelling.
    #[must_use]
    pub fn is_spelled(self) -> bool {
        matches!(self.number(), 1..=3 | 20 | 31..=35)
    }
}

/// Its name.
impl fmt::Display for RecordKind {
    fn fmt(&self, to: &mut fmt::Formatter<'_>) -> fmt::Result {
        to.pad(self.name())
    }
}

#[cfg(test)]
mod tests {
    use super::*;

    /// A wide tree of so many records, each the only child of the one before: references, and a type last.
    fn nest(records: usize) -> Vec<u8> {
        let mut bytes = FRONT.to_vec();
        for level in 0..records {
            let length = 14 * (records - level) as u32;
            let kind: u16 = if level + 1 < records { 11 } else { 10 };
            bytes.extend(length.to_le_bytes());
            bytes.extend(kind.to_le_bytes());
            bytes.extend((level as u32).to_le_bytes());
            bytes.extend((records as u32).to_le_bytes());
        }
        bytes
    }

    /// Half a million records inside one another, as `debug_list` wrote few of them, in a thread of little
    /// stack.
    #[test]
    fn deep_trees() {
        let work = || {
            let bytes = nest(500_000);
            let tree = Tree::new(b"", &bytes);
            let levels = tree.records().map(|(level, record)| {
                assert_eq!(record.span().start, level);
                level
            });
            assert!(levels.eq(0..500_000));
            let line = format!("{tree:?}");
            assert!(line.starts_with("Ref 0..500000 [Ref 1..500000 [Ref 2..500000 ["));
            assert!(line.ends_with(&("[Type 499999..500000 [".to_string() + &"]".repeat(500_000))));
            let lines = format!("{tree:#?}");
            assert_eq!(lines.lines().count(), 2 * 500_000 - 1);
            let widest = lines.lines().map(str::len).max();
            assert_eq!(widest, Some(4 * INDENTED + "Ref 136..500000 [".len()));
            assert_eq!(lines.lines().nth(INDENTED + 1), Some("Ref 137..500000 ["));
        };
        let thread = std::thread::Builder::new().stack_size(1 << 16);
        let done = thread.spawn(work).expect("a thread").join();
        assert!(done.is_ok());
    }

    /// What is written of a tree is what the formatter's own list would have written of it.
    #[test]
    fn written_as_lists_are() {
        struct List<'a>(Tree<'a, 'a>);
        impl fmt::Debug for List<'_> {
            fn fmt(&self, to: &mut fmt::Formatter<'_>) -> fmt::Result {
                write!(to, "{:?} {} ", self.0.kind(), self.0.span())?;
                to.debug_list()
                    .entries(self.0.children().map(List))
                    .finish()
            }
        }
        let text = b"(a<u8, &0x1::b::c>, | | (), (d), S::T)";
        let mut buffer = [0; 1_000];
        let (kind, edition) = (crate::Kind::Type, crate::Edition::One);
        let item = crate::read(kind, edition, text, 0, &mut buffer).expect("a type");
        let bytes = nest(100);
        for tree in [item.tree, Tree::new(text, &bytes)] {
            let list = List(tree);
            assert_eq!(format!("{tree:?}"), format!("{list:?}"));
            assert_eq!(format!("{tree:#?}"), format!("{list:#?}"));
            assert_eq!(format!("{:#?}", Some(tree)), format!("{:#?}", Some(list)));
        }
    }
}
