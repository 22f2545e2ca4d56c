//! What a text declares: by the crate's functions, by the program, and from C between guarded pages under the
//! sanitizers.

use movesig::{
    entry_size, outline, portions, tokens, Edition, Entry, Keyword, Pending, Portion, Refusal,
    Span, LONGEST,
};
use std::{
    fs,
    path::{Path, PathBuf},
    process::{Command, Output},
};

fn top() -> PathBuf {
    Path::new(env!("CARGO_MANIFEST_DIR")).join("../..")
}

fn temporary(name: &str) -> PathBuf {
    Path::new(env!("CARGO_TARGET_TMPDIR")).join(name)
}

fn span(start: usize, end: usize) -> Span {
    Span { start, end }
}

fn pending(keyword: Option<Keyword>, start: usize, end: usize) -> Pending {
    let comment = span(start, end);
    Pending {
        keyword,
        comment: (comment != Span::default()).then_some(comment),
    }
}

const NONE: Pending = Pending {
    keyword: None,
    comment: None,
};

/// What an accepted call tells, without its records: full, tokens, end, pending.
fn told(portion: &Portion) -> (bool, usize, usize, Pending) {
    (portion.full, portion.tokens, portion.end, portion.pending)
}

/// The points that were decided, with an input that tells each.
#[test]
fn what_is_decided() {
    let mut buffer = [0; 40];
    // tokens between comment and keyword do not part them; `{` does
    let text = b"/// d\npublic fun f { struct S; const C }";
    let portion = outline(Edition::One, text, 0, 100, NONE, &mut buffer).expect("accepted");
    assert_eq!(told(&portion), (false, 10, 40, NONE));
    assert_eq!(portion.as_bytes().len(), 36);
    let first = [0x0c, 0, 0x3e, 0, 0x11, 0, 0x12, 0, 0, 0, 5, 0];
    assert_eq!(portion.as_bytes()[..12], first);
    let entries: Vec<Entry> = portion.entries().collect();
    let keywords: Vec<Keyword> = entries.iter().map(Entry::keyword).collect();
    assert_eq!(keywords, [Keyword::Fun, Keyword::Struct, Keyword::Const]);
    let names: Vec<&[u8]> = entries.iter().map(|entry| entry.name().of(text)).collect();
    assert_eq!(names, [b"f", b"S", b"C"]);
    let comments: Vec<Option<Span>> = entries.iter().map(Entry::comment).collect();
    assert_eq!(comments, [Some(span(0, 5)), None, None]);

    let asked = |edition, text: &[u8], limit, handed, room: usize| {
        let mut buffer = vec![7; room];
        let portion = outline(edition, text, 0, limit, handed, &mut buffer);
        portion.map(|portion| (told(&portion), portion.entries().collect::<Vec<_>>()))
    };
    let none: Vec<Entry> = vec![];
    // full wins over a refusal behind it
    let fun = pending(Some(Keyword::Fun), 0, 0);
    let found = asked(Edition::One, b"fun f $", 9, NONE, 0);
    assert_eq!(found, Ok(((true, 1, 3, fun), none.clone())));
    let found = asked(Edition::One, b"fun f $", 9, NONE, 12);
    assert_eq!(found, Err(Refusal::NoToken { at: span(6, 6) }));
    let found = asked(Edition::One, b"fun f $", 2, NONE, 12).expect("accepted");
    assert_eq!((found.0, found.1.len()), ((false, 2, 5, NONE), 1));
    // before EOF nothing is pending
    let found = asked(Edition::One, b"a /** x */", 9, NONE, 0);
    assert_eq!(found, Ok(((false, 1, 1, NONE), none.clone())));
    let found = asked(Edition::One, b"a /*", 1, NONE, 0);
    assert_eq!(found, Ok(((false, 1, 1, NONE), none.clone())));
    let opener = span(2, 4);
    let found = asked(Edition::One, b"a /*", 2, NONE, 0);
    assert_eq!(found, Err(Refusal::CommentNotClosed { opener }));
    // at full a comment between keyword and name is not yet read
    let found = asked(Edition::One, b"fun /** x */ f", 9, NONE, 11);
    assert_eq!(found, Ok(((true, 1, 3, fun), none.clone())));
    let found = asked(Edition::One, b"fun /** x */ f", 9, NONE, 12).expect("accepted");
    assert_eq!(found.1[0].comment(), Some(span(4, 12)));
    // a comment holds up to the next `;`, `{` or `}`
    let found = asked(Edition::One, b"/** a */ fun f fun g", 9, NONE, 24).expect("accepted");
    let comments: Vec<_> = found.1.iter().map(Entry::comment).collect();
    assert_eq!(comments, [Some(span(0, 8)); 2]);
    // the edition counts
    let found = asked(Edition::One, b"1_0 fun f", 3, NONE, 12);
    assert_eq!(found, Ok(((false, 3, 7, fun), none.clone())));
    let found = asked(Edition::Two, b"1_0 fun f", 3, NONE, 12).expect("accepted");
    assert_eq!((found.0, found.1.len()), ((false, 3, 9, NONE), 1));
    // a limit of 0 reads nothing; what is handed in is taken as it is, or as none past the text's end
    let handed = pending(Some(Keyword::Struct), 3, 1);
    let found = asked(Edition::One, b"abc", 0, handed, 0);
    assert_eq!(found, Ok(((false, 0, 0, handed), none.clone())));
    let found = asked(Edition::One, b"abc", 0, pending(None, 1, 4), 0);
    assert_eq!(found, Ok(((false, 0, 0, NONE), none)));
}

/// The whole text tells the layout, wherever the call begins; entries are alike in both.
#[test]
fn both_layouts() {
    assert_eq!((entry_size(65_535), entry_size(65_536)), (12, 22));
    let mut text = " ".repeat(65_530) + "fun f";
    let mut buffer = [7; 24];
    let narrow = outline(Edition::One, text.as_bytes(), 0, 9, NONE, &mut buffer).expect("read");
    let record = [12, 0, 62, 0, 0xfe, 0xff, 0xff, 0xff, 0, 0, 0, 0];
    assert_eq!(narrow.as_bytes(), record);
    let entry = narrow.entries().next().expect("an entry");
    assert_eq!(entry.name(), span(65_534, 65_535));
    text += " ";
    for at in [0, 65_530] {
        let wide = outline(Edition::One, text.as_bytes(), at, 9, NONE, &mut buffer).expect("read");
        let mut record = [0; 22];
        record[..12].copy_from_slice(&[22, 0, 0, 0, 62, 0, 0xfe, 0xff, 0, 0, 0xff, 0xff]);
        assert_eq!(wide.as_bytes(), record);
        assert_eq!(wide.entries().collect::<Vec<_>>(), [entry]);
        assert_eq!(buffer[22..], [7; 2]);
    }
    // numbers over 65,535, and a comment behind them
    let text = [" ".repeat(70_000), "/// d\nfun f".to_string()].concat();
    let wide = outline(Edition::One, text.as_bytes(), 0, 9, NONE, &mut buffer).expect("read");
    let entry = wide.entries().next().expect("an entry");
    assert_eq!(
        (entry.name().of(text.as_bytes()), entry.comment()),
        (&b"f"[..], Some(span(70_000, 70_005)))
    );
}

#[test]
fn refused() {
    let mut buffer = [7; 30];
    let handed = pending(Some(Keyword::Const), 1, 1);
    let long = vec![b'$'; LONGEST + 1];
    for (text, at, limit, due) in [
        (&long[..], 0, 0, Refusal::TextTooLong),
        (b"fun f", 6, 0, Refusal::StartPastEnd),
        (b"fun f $", 0, 3, Refusal::NoToken { at: span(6, 6) }),
        (
            b"fun f x\"",
            0,
            9,
            Refusal::HexStringNotClosed { rest: span(6, 8) },
        ),
        (
            b"fun f b\"",
            0,
            9,
            Refusal::ByteStringNotClosed { rest: span(6, 8) },
        ),
        (
            b"fun f b\"\xff\"",
            0,
            9,
            Refusal::StringNotAscii { byte: span(8, 9) },
        ),
    ] {
        let found = outline(Edition::One, text, at, limit, handed, &mut buffer).map(|_| ());
        assert_eq!(found, Err(due));
        assert_eq!(buffer, [7; 30]);
    }
    let mut read = portions(Edition::One, b"fun f; fun g $", 0, 3);
    assert_eq!(
        read.next().map(|part| part.map(|entries| entries.len())),
        Some(Ok(1))
    );
    assert!(read.next().expect("a portion").is_err());
    assert_eq!(read.next(), None);
    // where the refused portion began
    assert_eq!((read.at(), read.pending()), (6, NONE));
    assert_eq!(
        portions(Edition::One, b"fun f", 9, 3).next(),
        Some(Err(Refusal::StartPastEnd))
    );
    assert_eq!(portions(Edition::One, b"fun f", 0, 0).next(), None);
    assert_eq!(
        portions(Edition::One, b"", 0, 1).collect::<Vec<_>>(),
        [Ok(vec![])]
    );
}

const WORDS: [&str; 8] = ["fun", "struct", "f", "1_f", ";", "{", "/**a*/", "///b\n"];

/// Every text of up to five of these words, divided in each way of equal portions, and in rooms that are full.
#[test]
fn however_it_is_divided() {
    let (mut declared, mut noted) = (0, 0);
    for choice in 0..8usize.pow(5) {
        let words: Vec<&str> = (0..5)
            .map(|place| WORDS[choice >> (3 * place) & 7])
            .collect();
        let text = words.join(" ").into_bytes();
        for edition in Edition::ALL {
            let whole = |limit| portions(edition, &text, 0, limit).collect::<Result<Vec<_>, _>>();
            let once = whole(usize::MAX).expect("no faults").concat();
            for limit in 1..8 {
                assert_eq!(whole(limit).expect("no faults").concat(), once);
            }
            // room for one record, gone on from where it is full
            let mut buffer = [0; 12];
            let (mut at, mut handed, mut all, mut read) = (0, NONE, vec![], 0);
            loop {
                let part =
                    outline(edition, &text, at, 100, handed, &mut buffer).expect("no faults");
                all.extend(part.entries());
                read += part.tokens;
                (at, handed) = (part.end, part.pending);
                if !part.full {
                    break;
                }
            }
            assert_eq!(all, once);
            assert_eq!(read + 1, tokens(edition, &text, 0).count());
            declared += once.len();
            noted += once
                .iter()
                .filter(|entry| entry.comment().is_some())
                .count();
        }
    }
    assert!(
        declared > 10_000 && noted > 1_000,
        "{declared} declared, {noted} with a comment"
    );
}

/// 1 MB of declarations, in one call and in portions of 1,000 tokens.
#[test]
fn a_long_text() {
    let piece = "/// Pays.\npublic fun pay(x: u64) { const C; }\n";
    let text = piece.repeat(LONGEST / piece.len());
    let entries = |limit| {
        let all = portions(Edition::One, text.as_bytes(), 0, limit).collect::<Result<Vec<_>, _>>();
        all.expect("no faults")
    };
    let (once, parts) = (entries(usize::MAX), entries(1_000));
    assert_eq!(once.len(), 1);
    assert_eq!(parts.len(), LONGEST / piece.len() * 13 / 1_000 + 1);
    assert_eq!(once.concat(), parts.concat());
    assert_eq!(once[0].len(), 2 * (LONGEST / piece.len()));
    assert_eq!(once[0][1].comment(), None);
}

#[test]
fn keywords() {
    for keyword in Keyword::ALL {
        assert_eq!(Keyword::from_number(keyword.number().into()), Some(keyword));
        assert_eq!(format!("{keyword:>7}"), format!("{:>7}", keyword.name()));
    }
    assert_eq!(Keyword::from_number(u64::MAX), None);
    assert_eq!(Keyword::from_number(0x1_0000_003e), None);
}

fn movesig(name: &str, text: &[u8], words: &str) -> (i32, String, String) {
    movesig_on("80", name, text, words)
}

/// The program, on a screen of so many columns.
fn movesig_on(columns: &str, name: &str, text: &[u8], words: &str) -> (i32, String, String) {
    let folder = temporary(&format!("outline-{name}"));
    fs::create_dir_all(&folder).expect("a folder");
    fs::write(folder.join("f.move"), text).expect("written");
    let mut command = Command::new(env!("CARGO_BIN_EXE_movesig"));
    command.args(words.split(' ')).current_dir(folder);
    let Output {
        status,
        stdout,
        stderr,
    } = command
        .env("COLUMNS", columns)
        .output()
        .expect("it can be run");
    let text = |bytes| String::from_utf8(bytes).expect("what it writes is UTF-8");
    (status.code().expect("it ends"), text(stdout), text(stderr))
}

const SOURCE: &[u8] = b"/// Moves coins.\nfun pay() {\n} /** Holds.\n */ struct Purse;\nconst C; /** over\n * it */ fun f";

#[test]
fn program() {
    let lines = "21..24  fun     pay     Moves coins.\n\
                 53..58  struct  Purse   Holds.\n\
                 66..67  const   C\n\
                 91..92  fun     f       over\n";
    for words in ["outline f.move", "--edition 2 outline f.move"] {
        let (status, output, errors) = movesig("lines", SOURCE, words);
        assert_eq!((status, &*output, &*errors), (0, lines, ""));
    }
    // in portions it is the same
    for tokens in [1, 2, 3, 7, 1_000] {
        let words = format!("outline f.move --tokens {tokens}");
        let (status, output, errors) = movesig("portions", SOURCE, &words);
        assert_eq!((status, &*output, &*errors), (0, lines, ""));
    }
    let (status, output, errors) = movesig("json", SOURCE, "--json outline --tokens 5 f.move");
    let objects: Vec<&str> = output.lines().collect();
    assert_eq!((status, objects.len(), &*errors), (0, 4, ""));
    assert_eq!(
        objects[0],
        "{\"file\":\"f.move\",\"keyword\":\"fun\",\"number\":62,\"name\":\"pay\",\"start\":21,\"end\":24,\"line\":2,\
         \"column\":5,\"comment\":\" Moves coins.\",\"comment_start\":0,\"comment_end\":16}"
    );
    assert_eq!(
        objects[2],
        "{\"file\":\"f.move\",\"keyword\":\"const\",\"number\":64,\"name\":\"C\",\"start\":66,\"end\":67,\"line\":5,\
         \"column\":7}"
    );
    let (status, output, errors) = movesig("edition", b"1_0 fun f", "--edition 2 outline f.move");
    assert_eq!((status, &*output, &*errors), (0, "8..9  fun  f\n", ""));
    let (status, output, errors) = movesig("nothing", b"fun 1", "outline f.move");
    assert_eq!(
        (status, &*output, &*errors),
        (0, "", "f.move: no declarations\n")
    );
    let (status, output, errors) = movesig("empty", b"", "--json outline f.move");
    assert_eq!((status, &*output, &*errors), (0, "", ""));
}

/// The first line that says something, cut where the screen ends; nothing goes to the terminal as it stands.
#[test]
fn program_comments() {
    let shown = |columns: &str, comment: &[u8]| {
        let text = [comment, b" fun f"].concat();
        let (_, output, _) = movesig_on(columns, "comments", &text, "outline f.move");
        let (_, shown) = output.split_once("fun  f").expect("a line");
        let shown = shown.trim_end_matches('\n').to_string();
        assert_eq!(output.lines().count(), 1, "{output}");
        shown
    };
    assert_eq!(shown("80", b"/** a */"), "   a");
    assert_eq!(shown("80", b"/**\n\n *\n * b c \n * d */"), "   b c");
    assert_eq!(shown("80", b"/** **b** c\n*/"), "   **b** c");
    assert_eq!(shown("80", b"/**\n * */"), "");
    assert_eq!(shown("80", b"///\r\n"), "");
    assert_eq!(shown("80", b"/// one\n/// two\n"), "   two");
    assert_eq!(
        shown("80", b"/// a\x1b[2K\x07\tb\xff\xe2\x80\xaec\n"),
        "   a\\x1b[2K\\x07    b\\xff\\u{202e}c"
    );
    let long = "/// ".to_string() + &"x".repeat(500) + "\n";
    for columns in ["40", "80", "120"] {
        let all: usize = columns.parse().expect("a number");
        let cut = shown(columns, long.as_bytes());
        assert!(cut.ends_with("x..."));
        let before = "505..506  fun  f".len() + 4;
        assert_eq!((before, cut.len()), (20, all - 1 - 16));
    }
    // what takes no certain number of columns takes two at most, and nothing is cut in its middle
    let wide = "/// ".to_string() + &"\u{1b}ש한".repeat(60) + "\n";
    let cut = shown("60", wide.as_bytes());
    assert!(cut.ends_with("...") && cut.chars().count() < 44, "{cut}");
    assert!(!cut.contains('\u{1b}'));
    // a long name leaves the comment no room
    let text = format!("/// a\nfun {}", "y".repeat(300));
    let (_, output, _) = movesig("name", text.as_bytes(), "outline f.move");
    assert_eq!(
        output,
        format!("10..310  fun  {}... (300 bytes)\n", "y".repeat(100))
    );
}

/// What stands before a refusal is listed, whatever the portions are.
#[test]
fn program_refused() {
    let text = b"/// d\nfun f;\nfun g $";
    let report = "f.move:3:7 (byte 19): refused 5: no token starts with this byte\n\
                  3 | fun g $\n  |       ^ byte 0x24\n";
    for words in [
        "outline f.move",
        "outline --tokens 1 f.move",
        "--tokens 3 outline f.move",
        "outline --tokens 4 f.move",
    ] {
        let (status, output, errors) = movesig("refused", text, words);
        assert_eq!(
            (status, &*output, &*errors),
            (1, "10..11  fun  f   d\n17..18  fun  g\n", report),
            "{words}"
        );
    }
    let (status, output, errors) =
        movesig("refused-json", text, "--json outline --tokens 2 f.move");
    let last = "{\"file\":\"f.move\",\"refused\":5,\"reason\":\"no token starts with this byte\",\"start\":19,\"end\":19,\
                \"line\":3,\"column\":7}";
    assert_eq!(
        (
            status,
            output.lines().count(),
            output.lines().last(),
            &*errors
        ),
        (1, 3, Some(last), "")
    );
    let long = vec![b' '; LONGEST + 1];
    let (status, output, errors) = movesig("too-long", &long, "outline f.move");
    let due = "f.move: refused 1: text over 1,048,575 bytes: it has 1048576\n";
    assert_eq!((status, &*output, &*errors), (1, "", due));
    let (status, output, errors) = movesig("file", b"", "outline nothing");
    assert_eq!(
        (status, &*output, &*errors),
        (2, "", "movesig: nothing: no such file\n")
    );
}

#[test]
fn program_usage() {
    let number = "it is 1 or more";
    for (words, due) in [
        ("outline", "no file is given".to_string()),
        (
            "outline f.move --tokens",
            "no number of tokens is given".to_string(),
        ),
        (
            "--tokens 0 outline f.move",
            format!("not a number of tokens: 0: {number}"),
        ),
        (
            "outline --tokens -1 f.move",
            format!("not a number of tokens: -1: {number}"),
        ),
        (
            "outline --tokens 1x f.move",
            format!("not a number of tokens: 1x: {number}"),
        ),
        (
            "--tokens 5 tokens f.move",
            "--tokens goes with outline alone".to_string(),
        ),
        (
            "carry f.move 0 --tokens 5",
            "--tokens goes with outline alone".to_string(),
        ),
        (
            "--edition 3 outline f.move",
            "no such edition: 3: it is 1 or 2".to_string(),
        ),
    ] {
        let (status, output, errors) = movesig("usage", b"a", words);
        let due = format!("movesig: {due} (see movesig --help)\n");
        assert_eq!((status, &*output, errors), (2, "", due), "{words}");
    }
    // more than any file has
    let (status, output, _) = movesig(
        "most",
        b"fun f",
        "outline --tokens 99999999999999999999999 f.move",
    );
    assert_eq!((status, &*output), (0, "4..5  fun  f\n"));
    for words in ["help", "man", "completions"] {
        let (_, output, _) = movesig("help", b"", words);
        assert!(
            output.contains("outline") && output.replace("\\-", "-").contains("--tokens"),
            "{words}"
        );
    }
}

#[test]
fn program_on_several_files() {
    let folder = temporary("outline-several");
    fs::create_dir_all(&folder).expect("a folder");
    fs::write(folder.join("a"), "/// one\nfun f").expect("written");
    fs::write(folder.join("b"), "x").expect("written");
    let mut command = Command::new(env!("CARGO_BIN_EXE_movesig"));
    command
        .args(["outline", "a", "b", "a"])
        .current_dir(&folder);
    let output = command.output().expect("it can be run");
    let text = |bytes: &[u8]| String::from_utf8_lossy(bytes).into_owned();
    let line = "a: 12..13  fun  f   one\n";
    assert_eq!(text(&output.stdout), line.repeat(2));
    assert_eq!(text(&output.stderr), "b: no declarations\n");
}

/// Hostile files of 1 MB: they end, and in time that grows with the length.
#[test]
fn program_on_long_files() {
    let filled = |piece: &str| piece.repeat(LONGEST / piece.len());
    for (piece, words, status, lines) in [
        ("fun f ", "outline f.move", 0, LONGEST / 6),
        ("fun f ", "--json outline --tokens 1 f.move", 0, LONGEST / 6),
        ("fun ", "outline f.move", 0, 0),
        ("/// d\n", "outline f.move", 0, 0),
        (
            "/// d\nfun f ",
            "outline --tokens 1000 f.move",
            0,
            LONGEST / 12,
        ),
        ("(", "outline f.move", 0, 0),
    ] {
        let (ended, output, _) = movesig("long", filled(piece).as_bytes(), words);
        assert_eq!(
            (ended, output.lines().count()),
            (status, lines),
            "{piece} {words}"
        );
    }
    let faulty = filled("fun f ") + "$";
    let (ended, output, errors) = movesig("faulty", &faulty.as_bytes()[2..], "outline f.move");
    assert_eq!((ended, output.lines().count()), (1, LONGEST / 6 - 1));
    assert!(errors.contains(": refused 5: "), "{errors}");
}

/// A program of one source file in C or C++ and the library; none where the compiler is not here.
fn compiled(
    name: &str,
    language: &str,
    standard: &str,
    more: &[&str],
    source: &Path,
) -> Option<PathBuf> {
    if Command::new(name).arg("--version").output().is_err() {
        eprintln!("{name} is not here: left out");
        return None;
    }
    let stem = source.file_stem().expect("a name").to_string_lossy();
    let folder = source.parent().and_then(Path::file_name).expect("a folder");
    let made = temporary(&format!("{}-{stem}-{name}", folder.to_string_lossy()));
    let mut command = Command::new(name);
    command.args(["-Wall", "-Wextra", "-Werror", "-pedantic", standard, "-I"]);
    command.arg(top().join("include")).args(more);
    command.args(["-x", language]).arg(source);
    command
        .args(["-x", "none", env!("MOVESIG_LIBRARY"), "-o"])
        .arg(&made);
    succeed(&mut command);
    Some(made)
}

fn succeed(command: &mut Command) -> String {
    let output = command.output().expect("it can be run");
    let said =
        [output.stdout, output.stderr].map(|bytes| String::from_utf8_lossy(&bytes).into_owned());
    assert!(output.status.success(), "{command:?}: {said:?}");
    said.concat()
}

#[test]
fn random_outlines_under_sanitizers() {
    let source = top().join("rust/movesig/tests/outline.c");
    let sanitized = [
        "-g",
        "-O1",
        "-fno-sanitize-recover=all",
        "-fsanitize=address,undefined",
    ];
    for (name, language, standard, rounds) in [
        ("gcc", "c", "-std=c99", "100000"),
        ("g++", "c++", "-std=c++11", "10000"),
    ] {
        if let Some(program) = compiled(name, language, standard, &sanitized, &source) {
            succeed(Command::new(program).arg(rounds));
        }
    }
}

/// The example shows what the program shows, in short texts and in long ones, over many calls.
#[test]
fn example() {
    let source = top().join("examples/outline.c");
    let piece = "/// Pays.\npublic fun pay(x: u64) { const C; }\n";
    for (name, language, standard) in [("gcc", "c", "-std=c99"), ("g++", "c++", "-std=c++98")] {
        let Some(program) = compiled(name, language, standard, &[], &source) else {
            continue;
        };
        for (pieces, fault) in [(1, ""), (500, ""), (5_000, ""), (500, "$")] {
            let text = piece.repeat(pieces) + fault;
            let file = temporary(&format!("outline-example-{name}.move"));
            fs::write(&file, &text).expect("written");
            let output = Command::new(&program)
                .arg(&file)
                .output()
                .expect("it can be run");
            assert_eq!(
                output.status.code(),
                Some(i32::from(!fault.is_empty())),
                "{name}"
            );
            let parts = portions(Edition::One, text.as_bytes(), 0, 1_000);
            let entries = parts.map_while(Result::ok).flatten();
            let mut due: String = entries
                .map(|entry| shown(&entry, text.as_bytes()))
                .collect();
            if !fault.is_empty() {
                due += &format!("refused 5 at {0}..{0}\n", text.len() - 1);
            }
            assert_eq!(String::from_utf8_lossy(&output.stdout), due, "{name}");
        }
    }
}

fn shown(entry: &Entry, text: &[u8]) -> String {
    let keyword = match entry.keyword() {
        Keyword::Struct => "Struct",
        Keyword::Fun => "Fun",
        Keyword::Const => "Const",
    };
    let comment = entry.comment();
    let comment = comment.map_or(String::new(), |span| format!(", comment at {span}"));
    format!(
        "{keyword} {} at {}{comment}\n",
        entry.name().of(text).escape_ascii(),
        entry.name()
    )
}
