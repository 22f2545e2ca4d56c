//! Saved trees that are opened again: by the crate's functions, by the program, and from C between guarded pages under
//! the sanitizers.

use movesig::{
    child, open, opened_child, read, tree_room, Damage, Edition, Kind, RecordKind, SavedRecord,
    Span, Tree, LONGEST,
};
use std::{
    error::Error,
    fs,
    path::{Path, PathBuf},
    process::{Command, Output},
};

fn top() -> PathBuf {
    Path::new(env!("CARGO_MANIFEST_DIR")).join("../..")
}

fn temporary(name: &str) -> PathBuf {
    Path::new(env!("CARGO_TARGET_TMPDIR")).join(name)
}

/// A record that is yet to be written: kind, start, end and children.
#[derive(Clone)]
struct Rec(u16, u32, u32, Vec<Rec>);

fn rec(kind: u16, start: u32, end: u32, children: &[Rec]) -> Rec {
    Rec(kind, start, end, children.to_vec())
}

const FRONT: [u8; 4] = [4, 0, 99, 0];

impl Rec {
    fn records(&self) -> usize {
        1 + self.3.iter().map(Rec::records).sum::<usize>()
    }

    fn put(&self, wide: bool, to: &mut Vec<u8>) {
        let Rec(kind, start, end, children) = self;
        let size = if wide { 14 } else { 8 };
        let number = |number: u32, to: &mut Vec<u8>| {
            to.extend(&number.to_le_bytes()[..if wide { 4 } else { 2 }]);
        };
        number((size * self.records()) as u32, to);
        to.extend(kind.to_le_bytes());
        number(*start, to);
        number(*end, to);
        children.iter().for_each(|child| child.put(wide, to));
    }

    fn narrow(&self) -> Vec<u8> {
        let mut tree = vec![];
        self.put(false, &mut tree);
        tree
    }

    fn wide(&self) -> Vec<u8> {
        let mut tree = FRONT.to_vec();
        self.put(true, &mut tree);
        tree
    }
}

/// Number and place of what is wrong over a text of so many bytes; 0 where nothing is.
fn opened(tree: &[u8], text: usize) -> (u32, usize) {
    let text = vec![b'a'; text];
    let found = open(tree, &text);
    let asked = child(tree, &text, 0, 0);
    match found {
        Ok(found) => {
            assert_eq!(found.as_bytes(), tree);
            assert!(asked.is_ok());
            (0, 0)
        }
        Err(damage) => {
            assert_eq!(asked, Err(damage), "a child is refused as its tree is");
            (damage.number(), damage.record().unwrap_or(0))
        }
    }
}

/// The same in both forms, the place counted in records.
fn both(tree: &Rec, text: usize, number: u32, records: usize) {
    assert_eq!(opened(&tree.narrow(), text), (number, 8 * records));
    let front = if number == 0 { 0 } else { 4 };
    assert_eq!(opened(&tree.wide(), text), (number, front + 14 * records));
}

/// What the request leaves to be told, each with the input that tells.
#[test]
fn what_is_decided() {
    both(&rec(1, 0, 0, &[]), 0, 0, 0);
    let leaf = |kind, end| rec(kind, 0, end, &[]);
    assert_eq!(opened(&[12, 0, 3, 0, 0, 0, 1, 0, 0, 0, 0, 0], 1), (15, 8));
    both(&rec(3, 0, 1, &[leaf(9, 1)]), 1, 16, 1);
    both(&rec(3, 0, 1, &[leaf(3, 1)]), 1, 17, 1);
    both(&rec(4, 0, 1, &[leaf(1, 2)]), 2, 17, 1);
    both(&rec(4, 0, 1, &[leaf(1, 1)]), 1, 17, 0);
    let inner = rec(11, 0, 2, &[rec(10, 0, 3, &[leaf(3, 3)])]);
    both(&rec(13, 0, 5, &[inner, leaf(9, 0)]), 5, 17, 2);
    both(&rec(10, 0, 4, &[rec(3, 1, 3, &[])]), 4, 0, 0);
    let bracketed = rec(16, 0, 4, &[rec(10, 1, 3, &[rec(3, 1, 3, &[])])]);
    both(&bracketed, 4, 0, 0);
    both(&leaf(99, 0), 0, 16, 0);
    assert_eq!(opened(b"", 0), (15, 0));
    assert_eq!(opened(&FRONT, 0), (15, 4));
    assert_eq!(opened(&FRONT[..3], 0), (15, 0));
    let behind = [&FRONT[..], &leaf(3, 1).narrow()].concat();
    assert_eq!(opened(&behind, 1), (15, 4));
    let far = leaf(1, 65_536).wide();
    assert_eq!(opened(&far, 65_536), (0, 0));
    assert_eq!(opened(&far, 65_535), (17, 4));
    // siblings need no order, and no more of the text than their parent's span is asked for
    let crossed = rec(25, 0, 4, &[rec(20, 2, 4, &[]), rec(20, 0, 3, &[])]);
    both(&crossed, 4, 0, 0);
    both(&crossed, 3, 17, 0);
    // no type behind a field
    let field = rec(24, 2, 3, &[rec(1, 2, 3, &[]), rec(20, 2, 3, &[])]);
    let unit = rec(14, 3, 4, &[]);
    let typed = |children: &[Rec]| rec(22, 0, 9, &[&[rec(3, 0, 1, &[])], children].concat());
    both(&typed(&[unit.clone(), field.clone()]), 9, 0, 0);
    both(&typed(&[field, unit]), 9, 17, 5);
}

/// 14 comes behind a record's own tests.
#[test]
fn levels() {
    let nest =
        |levels: usize, inner: Rec| (0..levels).fold(inner, |inner, _| rec(11, 0, 1, &[inner]));
    let name = rec(10, 0, 1, &[rec(3, 0, 1, &[])]);
    both(&nest(63, name.clone()), 1, 0, 0);
    both(&nest(64, name), 1, 14, 64);
    both(&nest(64, rec(9, 0, 1, &[])), 1, 16, 64);
    both(&nest(64, rec(14, 0, 2, &[])), 1, 17, 64);
    // a field is a level, its binding is none, nor is a list of bindings
    let bound = rec(20, 0, 1, &[]);
    let fields = |levels: usize| {
        (0..levels).fold(bound.clone(), |inner, _| {
            let field = rec(24, 0, 1, &[rec(1, 0, 1, &[]), inner]);
            rec(21, 0, 1, &[rec(3, 0, 1, &[]), field])
        })
    };
    both(&rec(25, 0, 1, &[fields(63)]), 1, 0, 0);
    both(&rec(25, 0, 1, &[fields(64)]), 1, 14, 4 * 63 + 3);
}

#[test]
fn children_by_offset() {
    let text = b"a<b, c>";
    let mut buffer = [0; 100];
    let item = read(Kind::Type, Edition::One, text, 0, &mut buffer).expect("a type");
    let tree = item.tree.as_bytes();
    let found = |offset, kind, start, end| {
        let span = Span { start, end };
        Some(SavedRecord { offset, kind, span })
    };
    let asked = |tree: &[u8], record, index| {
        let answer = opened_child(tree, record, index);
        assert_eq!(child(tree, text, record, index), Ok(answer));
        answer
    };
    assert_eq!(asked(tree, 0, 2), found(32, RecordKind::Type, 5, 6));
    assert_eq!(asked(tree, 0, 0), found(8, RecordKind::OnePart, 0, 1));
    let none = [
        (0, 3),
        (8, 0),
        (4, 0),
        (48, 0),
        (0, u64::MAX),
        (u64::MAX, 0),
        (1 << 32, 0),
        (0, 1 << 32),
    ];
    for (record, index) in none {
        assert_eq!(asked(tree, record, index), None, "{record}, {index}");
    }
    let part = |at| rec(10, at, at + 1, &[rec(3, at, at + 1, &[])]);
    let wide = rec(10, 0, 7, &[rec(3, 0, 1, &[]), part(2), part(5)]).wide();
    assert_eq!(asked(&wide, 4, 2), found(60, RecordKind::Type, 5, 6));
    assert_eq!(asked(&wide, 32, 0), found(46, RecordKind::OnePart, 2, 3));
    for record in [0, 8, 5, 18, 88] {
        assert_eq!(asked(&wide, record, 0), None, "{record}");
    }
    // of bytes that are no tree
    assert_eq!(opened_child(b"", 0, 0), None);
    assert_eq!(opened_child(&tree[..16], 0, 0), None);
    assert_eq!(
        child(b"", text, 0, 0),
        Err(Damage::RecordUnfit { record: 0 })
    );
}

/// Kinds, spans and levels of all records.
fn shape(tree: Tree) -> Vec<(usize, u16, Span)> {
    let record = |(level, record): (usize, Tree)| (level, record.kind().number(), record.span());
    tree.records().map(record).collect()
}

/// What is read opens as the tree that it was, over what was lent to the read, in each kind and edition; and by the
/// offsets of records all of it is found.
#[test]
fn what_is_read_opens() {
    let mut opened_trees = 0;
    for (kind, text) in [
        (Kind::Name, "0x1::a::b"),
        (Kind::Name, "a"),
        (Kind::Value, "@0x1"),
        (Kind::Value, "b\"a\\\"\""),
        (Kind::Value, "1_0u16"),
        (Kind::Type, "(a<u8, &0x1::b::c>, | | (), (d), |e| S::T)"),
        (Kind::Type, "( )"),
        (Kind::BindList, "(x, S<u8, (b)> {f: T {g}, h})"),
        (Kind::BindList, "()"),
        (Kind::LambdaBindList, "|x, S {f}|"),
    ] {
        for edition in Edition::ALL {
            for blanks in [0, 70_000] {
                let text = format!("{text}{}", " ".repeat(blanks));
                let text = text.as_bytes();
                let mut buffer = vec![0; tree_room(text.len())];
                let item = read(kind, edition, text, 0, &mut buffer).expect("it is accepted");
                let saved = item.tree.as_bytes().to_vec();
                let tree = open(&saved, text).expect("it opens");
                assert_eq!(shape(tree), shape(item.tree));
                assert_eq!(tree.is_wide(), blanks > 0);
                let first = if blanks > 0 { 4 } else { 0 };
                assert_eq!(by_offsets(&saved, first), tree.records().count());
                // over a part of the text that ends before the item it does not open
                let end = tree.span().end;
                let damage = open(&saved, &text[..end - 1]).expect_err("too short a text");
                let record = first as usize;
                assert_eq!(damage, Damage::NotAllowed { record });
                assert!(open(&saved, &text[..end]).is_ok());
                opened_trees += 1;
            }
        }
    }
    assert_eq!(opened_trees, 40);
    // what is lent from a token's end on opens over that part
    let text = b"x: &a, y";
    let mut buffer = [0; 100];
    let item = read(Kind::Type, Edition::One, &text[2..], 0, &mut buffer).expect("a type");
    let tree = open(item.tree.as_bytes(), &text[2..]).expect("it opens");
    assert_eq!(tree.text(), b"&a");
}

/// How many records there are from this one on, by the children of an opened tree.
fn by_offsets(tree: &[u8], record: u64) -> usize {
    let children = (0..).map_while(|index| opened_child(tree, record, index));
    1 + children
        .map(|child| by_offsets(tree, child.offset as u64))
        .sum::<usize>()
}

/// Every byte of a tree set to every value, and cut at every length: what still opens is walked over without a
/// panic, and lies in the text.
#[test]
fn damaged_trees() {
    let text = b"S<a, (b)> {f: T {g}}";
    let mut buffer = [0; 400];
    let item = read(Kind::BindList, Edition::One, text, 0, &mut buffer).expect("bindings");
    let tree = item.tree.as_bytes();
    let (mut opened, mut refused) = (0, [0; 18]);
    let mut look = |bytes: &[u8]| match open(bytes, text) {
        Ok(tree) => {
            opened += 1;
            let inside = |span: Span| span.start <= span.end && span.end <= text.len();
            assert!(tree.records().all(|(_, record)| inside(record.span())));
            assert_eq!(8 * tree.records().count(), bytes.len());
        }
        Err(damage) => refused[damage.number() as usize] += 1,
    };
    let mut damaged = tree.to_vec();
    for at in 0..tree.len() {
        for value in 0..=255 {
            damaged[at] = value;
            look(&damaged);
        }
        damaged[at] = tree[at];
        look(&tree[..at]);
    }
    assert!(opened > tree.len(), "{opened}");
    assert!(
        refused[15..].iter().all(|count| *count > 500),
        "{refused:?}"
    );
}

#[test]
fn damage_in_words() {
    let damage = open(&[8, 0, 9, 0, 0, 0, 0, 0], b"").expect_err("no such kind");
    assert_eq!(damage, Damage::NoRecordKind { record: 0 });
    assert_eq!(
        damage.to_string(),
        "refused 16: no such kind of record, at byte 0 of the tree"
    );
    let damage = open(&FRONT, b"").expect_err("no record");
    assert_eq!(
        damage.to_string(),
        "refused 15: record that does not fit its bytes, at byte 4 of the tree"
    );
    let long = vec![b' '; LONGEST + 1];
    let damage = open(&[8, 0, 1, 0, 0, 0, 0, 0], &long).expect_err("too long a text");
    assert_eq!((damage.number(), damage.record()), (1, None));
    assert_eq!(damage.to_string(), "refused 1: text over 1,048,575 bytes");
    let error: &dyn Error = &damage;
    assert!(error.source().is_none());
}

/// Runs the program in a folder with the file `f.move` and, where there is one, the file `f.tree`.
fn movesig(name: &str, text: &[u8], tree: Option<&[u8]>, words: &str) -> (i32, String, String) {
    let folder = temporary(&format!("open-{name}"));
    fs::create_dir_all(&folder).expect("a folder");
    fs::write(folder.join("f.move"), text).expect("written");
    if let Some(tree) = tree {
        fs::write(folder.join("f.tree"), tree).expect("written");
    }
    let mut command = Command::new(env!("CARGO_BIN_EXE_movesig"));
    command.args(words.split(' ')).current_dir(folder);
    let Output {
        status,
        stdout,
        stderr,
    } = command
        .env_remove("COLUMNS")
        .output()
        .expect("it can be run");
    let text = |bytes| String::from_utf8(bytes).expect("what it writes is UTF-8");
    (status.code().expect("it ends"), text(stdout), text(stderr))
}

#[test]
fn program() {
    let text = b"x: a<u8>, y";
    let shown = "type 3..8\n  one-part chain 3..4  a\n  type 5..7\n    one-part chain 5..7  u8\n";
    let words = "read type f.move 2 --save f.tree";
    let (status, output, errors) = movesig("saved", text, None, words);
    let following = format!("{shown}followed by Comma 8..9  ,\n");
    assert_eq!((status, &*output, &*errors), (0, &*following, ""));
    let saved = fs::read(temporary("open-saved").join("f.tree")).expect("it was saved");
    assert_eq!(saved.len(), 32);
    let (status, output, errors) = movesig("opened", text, Some(&saved), "open f.tree f.move");
    assert_eq!((status, &*output, &*errors), (0, shown, ""));
    let (status, output, errors) = movesig("json", text, Some(&saved), "--json open f.tree f.move");
    let record = |kind: &str, number: u16, span: (usize, usize), rest: &str| {
        let (start, end) = span;
        format!(
            "{{\"record\":\"{kind}\",\"number\":{number},\"start\":{start},\"end\":{end},{rest}}}"
        )
    };
    let leaf = |text: &str, span| {
        record(
            "one-part chain",
            3,
            span,
            &format!("\"text\":\"{text}\",\"children\":[]"),
        )
    };
    let inner = record(
        "type",
        10,
        (5, 7),
        &format!("\"children\":[{}]", leaf("u8", (5, 7))),
    );
    let outer = record(
        "type",
        10,
        (3, 8),
        &format!("\"children\":[{},{inner}]", leaf("a", (3, 4))),
    );
    let due = format!("{{\"file\":\"f.move\",\"saved\":\"f.tree\",\"tree\":{outer}}}\n");
    assert_eq!((status, output, &*errors), (0, due, ""));
    // a wide one
    let long = format!("a<u8>{}", " ".repeat(70_000));
    let (status, ..) = movesig(
        "wide",
        long.as_bytes(),
        None,
        "read type f.move --save f.tree",
    );
    assert_eq!(status, 0);
    let (status, output, _) = movesig("wide", long.as_bytes(), None, "open f.tree f.move");
    assert_eq!((status, output.lines().count()), (0, 4));
    // standard input, once
    let folder = temporary("open-opened");
    let mut command = Command::new(env!("CARGO_BIN_EXE_movesig"));
    let tree = fs::File::open(folder.join("f.tree")).expect("it is there");
    let output = command
        .args(["open", "-", "f.move"])
        .current_dir(folder)
        .stdin(tree)
        .output();
    assert_eq!(
        String::from_utf8_lossy(&output.expect("it runs").stdout),
        shown
    );
}

#[test]
fn program_refused() {
    let text = b"a<u8>";
    let tree = |children: &[Rec]| rec(10, 0, 5, &[&[rec(3, 0, 1, &[])], children].concat());
    let far = tree(&[rec(10, 2, 9, &[rec(3, 2, 4, &[])])]);
    let odd = tree(&[rec(9, 2, 4, &[])]);
    for (name, tree, due) in [
        (
            "far",
            far.narrow(),
            "f.tree: byte 16: refused 17: child or span not allowed\n\
             16 | 10 00 0a 00 02 00 09 00\n   | length 16, kind 10: type, 2..9\n",
        ),
        (
            "far-wide",
            far.wide(),
            "f.tree: byte 32: refused 17: child or span not allowed\n\
             32 | 1c 00 00 00 0a 00 02 00 00 00 09 00 00 00\n   | length 28, kind 10: type, 2..9\n",
        ),
        (
            "odd",
            odd.narrow(),
            "f.tree: byte 16: refused 16: no such kind of record\n\
             16 | 08 00 09 00 02 00 04 00\n   | length 8, kind 9: no kind of record, 2..4\n",
        ),
        (
            "cut",
            far.narrow()[..3].to_vec(),
            "f.tree: byte 0: refused 15: record that does not fit its bytes\n\
             0 | 20 00 0a\n  | 3 bytes are left, and the head of a record has 8\n",
        ),
        (
            "front",
            FRONT.to_vec(),
            "f.tree: byte 4: refused 15: record that does not fit its bytes\n\
             4 | no byte is left, and the head of a record has 14\n",
        ),
    ] {
        let (status, output, errors) = movesig(name, text, Some(&tree), "open f.tree f.move");
        assert_eq!((status, &*output, &*errors), (1, "", due), "{name}");
    }
    let words = "--json open f.tree f.move";
    let (status, output, errors) = movesig("refused-json", text, Some(&far.narrow()), words);
    let due =
        "{\"file\":\"f.move\",\"saved\":\"f.tree\",\"refused\":17,\"reason\":\"child or span not \
               allowed\",\"byte\":16,\"head\":\"10 00 0a 00 02 00 09 00\"}\n";
    assert_eq!((status, &*output, &*errors), (1, due, ""));
    // a text that is too long is told as by the other commands
    let long = vec![b' '; LONGEST + 1];
    let (status, output, errors) = movesig("long", &long, Some(b""), "open f.tree f.move");
    let due = "f.move: refused 1: text over 1,048,575 bytes: it has 1048576\n";
    assert_eq!((status, &*output, &*errors), (1, "", due));
    let (status, output, errors) = movesig("long", &long, Some(b""), "--json open f.tree f.move");
    let due = "{\"file\":\"f.move\",\"refused\":1,\"reason\":\"text over 1,048,575 bytes\",\"length\":1048576,\
               \"limit\":1048575}\n";
    assert_eq!((status, &*output, &*errors), (1, due, ""));
    // what is refused saves nothing
    let (status, ..) = movesig("unsaved", b"a<", None, "read type f.move --save f.tree");
    assert_eq!(status, 1);
    assert!(!temporary("open-unsaved").join("f.tree").exists());
}

#[test]
fn program_usage() {
    for (words, due) in [
        ("open", "no file of a tree is given"),
        ("open f.tree", "no file is given"),
        ("open f.tree f.move 0", "one word too many: 0"),
        ("open - -", "standard input is either the tree or the text"),
        (
            "--edition 1 open f.tree f.move",
            "open takes no edition: it reads no tokens",
        ),
        (
            "read type f.move --save",
            "no file is given to save the tree in",
        ),
        (
            "read type f.move --save -",
            "a tree is saved in a file, not in -",
        ),
        (
            "line type f.move --save f.tree",
            "--save goes with read alone",
        ),
        (
            "open f.tree f.move --save g.tree",
            "--save goes with read alone",
        ),
        (
            "read type f.move f.move --save f.tree",
            "--save goes with one file",
        ),
    ] {
        let (status, output, errors) = movesig("usage", b"a", Some(b""), words);
        let due = format!("movesig: {due} (see movesig --help)\n");
        assert_eq!((status, &*output, errors), (2, "", due), "{words}");
    }
    for (words, due) in [
        ("open g.tree f.move", "movesig: g.tree: no such file\n"),
        ("open f.tree g.move", "movesig: g.move: no such file\n"),
        ("open . f.move", "movesig: .: is a directory\n"),
        (
            "read type f.move --save ./no/f.tree",
            "movesig: ./no/f.tree: no such file\n",
        ),
        (
            "read type f.move --save ./f.move",
            "movesig: ./f.move: is the text itself: its tree is saved elsewhere\n",
        ),
    ] {
        let (status, output, errors) = movesig("files", b"a", Some(b""), words);
        assert_eq!((status, &*output, &*errors), (2, "", due), "{words}");
    }
    let (status, output, errors) = movesig("files", b"a", None, "--json open g.tree f.move");
    let due = "{\"file\":\"g.tree\",\"error\":\"no such file\"}\n";
    assert_eq!((status, &*output, &*errors), (2, due, ""));
    for words in ["help", "man", "completions"] {
        let (_, output, _) = movesig("help", b"", None, words);
        assert!(output.contains("open"), "{words}");
        assert!(output.replace("\\-", "-").contains("--save"), "{words}");
    }
}

/// A program of one source file in C or C++ and the library; none where the compiler is not here.
fn compiled(
    name: &str,
    language: &str,
    standard: &str,
    more: &[&str],
    source: &Path,
) -> Option<PathBuf> {
    if Command::new(name).arg("--version").output().is_err() {
        eprintln!("{name} is not here: left out");
        return None;
    }
    let folder = source.parent().and_then(Path::file_name).expect("a folder");
    let made = temporary(&format!("{}-open-{name}", folder.to_string_lossy()));
    let mut compiler = Command::new(name);
    compiler.args(["-Wall", "-Wextra", "-Werror", "-pedantic", standard, "-I"]);
    compiler.arg(top().join("include")).args(more);
    compiler.args(["-x", language]).arg(source);
    compiler.args(["-x", "none", env!("MOVESIG_LIBRARY"), "-o"]);
    succeed(compiler.arg(&made));
    Some(made)
}

fn succeed(command: &mut Command) -> String {
    let output = command.output().expect("it can be run");
    let said = [output.stdout, output.stderr];
    let said = said.map(|bytes| String::from_utf8_lossy(&bytes).into_owned());
    assert!(output.status.success(), "{command:?}: {said:?}");
    said.concat()
}

#[test]
fn random_trees_under_sanitizers() {
    let source = top().join("rust/movesig/tests/open.c");
    let sanitized = [
        "-g",
        "-O1",
        "-fno-sanitize-recover=all",
        "-fsanitize=address,undefined",
    ];
    for (name, language, standard, rounds) in [
        ("gcc", "c", "-std=c99", "60000"),
        ("g++", "c++", "-std=c++11", "10000"),
    ] {
        if let Some(program) = compiled(name, language, standard, &sanitized, &source) {
            succeed(Command::new(program).arg(rounds));
        }
    }
}

#[test]
fn example() {
    let (text, tree) = (
        temporary("open-example.move"),
        temporary("open-example.tree"),
    );
    fs::write(&text, "a<b, c>").expect("written");
    let part = |at| rec(10, at, at + 1, &[rec(3, at, at + 1, &[])]);
    let saved = |children: &[Rec]| rec(10, 0, 7, &[&[rec(3, 0, 1, &[])], children].concat());
    let source = top().join("examples/open.c");
    for (name, language, standard) in [("gcc", "c", "-std=c99"), ("g++", "c++", "-std=c++98")] {
        let Some(program) = compiled(name, language, standard, &[], &source) else {
            continue;
        };
        fs::write(&tree, saved(&[part(2), part(5)]).wide()).expect("written");
        let output = succeed(Command::new(&program).args([&tree, &text]));
        let due = "byte 4: type 0..7\nbyte 18: one-part chain 0..1\nbyte 32: type 2..3\nbyte 60: type 5..6\n";
        assert_eq!(output, due, "{name}");
        fs::write(&tree, saved(&[part(7)]).narrow()).expect("written");
        let refused = Command::new(&program).args([&tree, &text]).output();
        let refused = refused.expect("it can be run");
        assert_eq!(refused.status.code(), Some(1), "{name}");
        let said = String::from_utf8_lossy(&refused.stdout).into_owned();
        let due = "refused 17 at byte 16 of the tree: child or span not allowed\n";
        assert_eq!(said, due, "{name}");
    }
}
