//! How large the tree of a type may be: the records of the stored bytes against the bytes that the
//! type spans, the room that is enough, and types that take all of it.

use crate::tree::{FRONT, NARROW};

/// Types of at most so many bytes have narrow trees, in a text that is short enough.
pub const NARROW_TYPE: usize = 8_190;

/// A type of n bytes, from 4 on, that has n + 1 records.
pub fn largest(n: usize) -> Vec<u8> {
    let mut text = b"|".to_vec();
    if n % 2 == 1 {
        text.push(b'&');
    }
    text.push(b'a');
    while text.len() + 2 < n {
        text.extend(b",a");
    }
    text.extend(b"|a");
    text
}

/// The most records of a type of n bytes.
pub fn most(n: usize) -> usize {
    match n {
        3 => 3,
        _ => n + 1,
    }
}

/// Room for the tree of a type of n bytes in a text of `len` bytes.
pub fn type_room(n: usize, len: usize) -> usize {
    if len <= NARROW && n <= NARROW_TYPE {
        8 * (n + 1)
    } else {
        4 + 14 * (n + 1)
    }
}

/// A stored tree: the bytes that its outermost record spans, and its records, counted.
#[derive(Clone, Copy, PartialEq, Eq, Debug)]
pub struct Stored {
    pub bytes: usize,
    pub records: usize,
}

impl Stored {
    /// None where the bytes are not those of one record with its children.
    pub fn of(tree: &[u8]) -> Option<Stored> {
        match tree.strip_prefix(&FRONT) {
            Some(wide) => Stored::with(wide, 4),
            None => Stored::with(tree, 2),
        }
    }

    /// Each length, start and end has `width` bytes, each kind two.
    fn with(tree: &[u8], width: usize) -> Option<Stored> {
        let head = 3 * width + 2;
        let mut ends = vec![];
        let (mut at, mut records) = (0, 0);
        while at < tree.len() {
            while ends.last() == Some(&at) {
                ends.pop();
            }
            let end = at + number(tree.get(at..at + head)?, 0, width);
            let parent = ends.last().copied();
            if end < at + head || end > parent.unwrap_or(tree.len()) || (at > 0) == parent.is_none()
            {
                return None;
            }
            ends.push(end);
            records += 1;
            at += head;
        }
        let whole = ends.iter().all(|end| *end == tree.len());
        let start = number(tree.get(..head)?, width + 2, width);
        let end = number(tree, 2 * width + 2, width);
        (whole && start <= end).then(|| Stored {
            bytes: end - start,
            records,
        })
    }
}

fn number(bytes: &[u8], at: usize, width: usize) -> usize {
    let digits = bytes[at..at + width].iter().rev();
    digits.fold(0, |number, byte| number << 8 | *byte as usize)
}

/// The types that were held to the bounds.
#[derive(Clone, Default, Debug)]
pub struct TypeSizes {
    pub types: u64,
    /// The most records that a type of so many bytes has, of types of less than 16.
    pub most: [usize; 16],
    /// The most records that a type has beyond its bytes.
    pub beyond: Option<isize>,
}

impl TypeSizes {
    /// Holds an accepted type, read in a text of `len` bytes, to the bounds; what is wrong with it.
    pub fn hold(&mut self, tree: &[u8], len: usize) -> Option<String> {
        let Some(Stored { bytes, records }) = Stored::of(tree) else {
            return Some("the bytes are no stored tree".to_string());
        };
        self.types += 1;
        if let Some(most) = self.most.get_mut(bytes) {
            *most = records.max(*most);
        }
        self.beyond = self.beyond.max(Some(records as isize - bytes as isize));
        let room = type_room(bytes, len);
        if bytes == 0 || records > most(bytes) {
            return Some(format!("{records} records of {bytes} bytes"));
        }
        (tree.len() > room).then(|| format!("{} bytes of tree in room for {room}", tree.len()))
    }

    /// Takes in what was held before.
    pub fn add(&mut self, other: &TypeSizes) {
        self.types += other.types;
        self.beyond = self.beyond.max(other.beyond);
        for (most, also) in self.most.iter_mut().zip(other.most) {
            *most = also.max(*most);
        }
    }
}

#[cfg(test)]
mod tests {
    use super::*;
    use crate::{expected::Text, reads::expected};

    const TYPE: u64 = 3;

    fn tree(text: &[u8]) -> Vec<u8> {
        expected(TYPE, &Text::new(text), 0).written
    }

    fn stored(text: &str) -> (usize, usize) {
        let stored = Stored::of(&tree(text.as_bytes())).unwrap();
        (stored.bytes, stored.records)
    }

    #[test]
    fn readings() {
        assert_eq!(stored(" a "), (1, 2));
        assert_eq!(stored("& a"), (3, 3));
        assert_eq!(stored("(a)"), (3, 3));
        assert_eq!(stored("&aa"), (3, 3));
        assert_eq!(stored("abc"), (3, 2));
        assert_eq!(stored("a<>"), (3, 2));
        assert_eq!(stored("|a|a"), (4, 5));
        assert_eq!(stored("a::b"), (4, 4));
        assert_eq!(stored("a<b<c>>"), (7, 6));
    }

    #[test]
    fn the_construction() {
        assert_eq!(largest(4), b"|a|a");
        assert_eq!(largest(5), b"|&a|a");
        assert_eq!(largest(6), b"|a,a|a");
        assert_eq!(largest(7), b"|&a,a|a");
        for (n, length) in [(8_190, 65_528), (8_191, 114_692)] {
            let tree = tree(&largest(n));
            assert_eq!(tree.len(), length);
            assert_eq!(type_room(n, n), length);
            let stored = Stored::of(&tree).unwrap();
            assert_eq!((stored.bytes, stored.records), (n, n + 1));
        }
    }

    #[test]
    fn the_room() {
        assert_eq!(type_room(1, 65_535), 16);
        assert_eq!(type_room(1, 65_536), 32);
        assert_eq!(type_room(8_190, 65_535), 65_528);
        assert_eq!(type_room(8_191, 65_535), 114_692);
    }

    #[test]
    fn what_is_wrong_is_found() {
        let good = tree(b"|a|a");
        let mut sizes = TypeSizes::default();
        assert_eq!(sizes.hold(&good, 4), None);
        // One byte less spanned; a record too short, too long, not closed.
        let mut narrower = good.clone();
        narrower[6] -= 1;
        assert_eq!(sizes.hold(&narrower, 4).unwrap(), "5 records of 3 bytes");
        for (at, length) in [(0, 7), (0, 48), (8, 7), (8, 40), (32, 7)] {
            let mut other = good.clone();
            other[at] = length;
            assert!(sizes.hold(&other, 4).is_some(), "{at} {length}");
        }
        assert!(sizes.hold(&good[..39], 4).is_some());
        assert!(sizes.hold(&[&good[..], &good].concat(), 4).is_some());
        assert!(sizes.hold(&[], 4).is_some());
        assert_eq!(sizes.types, 2);
        assert_eq!(sizes.beyond, Some(2));
    }
}
