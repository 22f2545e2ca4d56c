//! The program `movesig` and the Rust example, run on good, damaged and hostile files.

use std::{
    ffi::OsStr,
    fs,
    io::Write,
    os::unix::{ffi::OsStrExt, fs::PermissionsExt},
    path::{Path, PathBuf},
    process::{Command, Stdio},
};

const MOVESIG: &str = env!("CARGO_BIN_EXE_movesig");

/// A folder of its own for a test.
fn folder(name: &str) -> PathBuf {
    let folder = Path::new(env!("CARGO_TARGET_TMPDIR")).join(name);
    let _ = fs::remove_dir_all(&folder);
    fs::create_dir_all(&folder).expect("a folder");
    folder
}

/// Exit status, standard output and standard error.
type Said = (i32, String, String);

fn run(command: &mut Command, input: &[u8]) -> Said {
    let mut child = command
        .stdin(Stdio::piped())
        .stdout(Stdio::piped())
        .stderr(Stdio::piped())
        .spawn()
        .expect("it can be run");
    // it may end before it has read all
    let _ = child.stdin.take().expect("its input").write_all(input);
    let output = child.wait_with_output().expect("it ends");
    let status = output.status.code().expect("it ends by itself");
    let text = |bytes| String::from_utf8(bytes).expect("what it writes is UTF-8");
    (status, text(output.stdout), text(output.stderr))
}

/// The program, on this text as the file `f.move`.
fn movesig(text: &[u8], words: &str) -> Said {
    let name: String = words.chars().filter(char::is_ascii_alphanumeric).collect();
    let sum = text.iter().fold(text.len(), |sum, &byte| {
        sum.wrapping_mul(31).wrapping_add(byte.into())
    });
    let folder = folder(&format!("{name}-{sum}"));
    fs::write(folder.join("f.move"), text).expect("written");
    let mut command = Command::new(MOVESIG);
    command.args(words.split(' ')).current_dir(folder);
    run(command.env_remove("COLUMNS"), b"")
}

/// Standard output where nothing is written to standard error but the token that follows a line.
fn accepted(text: &[u8], words: &str) -> String {
    let (status, output, errors) = movesig(text, words);
    assert_eq!(status, 0, "{words}: {errors}");
    let told = words.starts_with("line ") && errors.starts_with("followed by ");
    assert_eq!(
        errors.lines().count(),
        usize::from(told),
        "{words}: {errors}"
    );
    output
}

/// Standard error where nothing is written to standard output.
fn refused(text: &[u8], words: &str) -> String {
    let (status, output, errors) = movesig(text, words);
    assert_eq!((status, output.as_str()), (1, ""), "{words}");
    errors
}

#[test]
fn tokens() {
    assert_eq!(
        accepted(b"a<b>>c\n", "tokens f.move"),
        "1:  0..1  Identifier      a\n    \
             1..2  Less            <\n    \
             2..3  Identifier      b\n    \
             3..5  GreaterGreater  >>\n    \
             5..6  Identifier      c\n\
         2:  7..7  EOF\n"
    );
    assert_eq!(
        accepted(b"/*\n*/a//\n/*\n*/\r\nb c", "tokens f.move"),
        "2:  5..6    Identifier  a\n\
         5:  16..17  Identifier  b\n    \
             18..19  Identifier  c\n    \
             19..19  EOF\n"
    );
    let (status, output, errors) = movesig(b"a\n  $", "tokens f.move");
    assert_eq!((status, output.as_str()), (1, "1:  0..1  Identifier  a\n"));
    assert_eq!(
        errors,
        "f.move:2:3 (byte 4): refused 5: no token starts with this byte\n\
         2 |   $\n  \
           |   ^ byte 0x24\n"
    );
}

#[test]
fn comments() {
    assert_eq!(
        accepted(
            b"/// one\r\nfun f(/** two\n * lines */ x)",
            "comments f.move"
        ),
        "0..8    1:1  | one\n\
         15..34  2:7  | two\n             \
                      | * lines \n"
    );
    let (status, output, errors) = movesig(b"// plain\nfun", "comments f.move");
    assert_eq!((status, output.as_str()), (0, ""));
    assert_eq!(errors, "f.move: no doc comments\n");
    let (status, output, errors) = movesig(b"/// a\n/** b", "comments f.move");
    assert_eq!((status, output.as_str()), (1, "0..5  1:1  | a\n"));
    assert_eq!(
        errors,
        "f.move:2:1 (byte 6): refused 6: block comment not closed\n\
         2 | /** b\n  | ^^^ opened here\n"
    );
}

#[test]
fn trees_and_lines() {
    let text = b"fun f(x: &mut Coin< u8 >) {}";
    assert_eq!(
        accepted(text, "read type f.move 8"),
        "mutable reference 9..24\n  \
           type 14..24\n    \
             one-part chain 14..18  Coin\n    \
             type 20..22\n      \
               one-part chain 20..22  u8\n\
         followed by RParen 24..25  )\n"
    );
    assert_eq!(accepted(text, "line type f.move 8"), "&mut Coin<u8>\n");
    assert_eq!(accepted(b"0x1::a", "line name f.move"), "0x1::a\n");
    assert_eq!(accepted(b"@ 0x1", "line value f.move"), "@0x1\n");
    assert_eq!(accepted(b"S{f}", "line binds f.move"), "(S {f: f})\n");
    assert_eq!(accepted(b"|x,y|", "line lambda f.move"), "|x, y|\n");
    assert_eq!(
        accepted(b"( )", "read type f.move"),
        "unit 0..3\nfollowed by EOF 3..3\n"
    );
}

#[test]
fn places() {
    let text = "/* é\t*/\r\n  x: &Coin,".as_bytes();
    let line = "& Coin\n";
    for place in ["15", "2:6", "000015"] {
        assert_eq!(accepted(text, &format!("line type f.move {place}")), line);
    }
    // what a refusal tells can be typed in again
    let (_, _, errors) = movesig(text, "line type f.move 2:11");
    assert!(
        errors.starts_with("f.move:2:11 (byte 20): refused 10: "),
        "{errors}"
    );
    let (_, _, again) = movesig(text, "line type f.move 20");
    assert_eq!(errors, again);
    let (status, output, errors) = movesig(text, "line type f.move 2:12");
    assert_eq!((status, output.as_str()), (1, ""), "the end of the text");
    assert!(errors.starts_with("f.move:2:12 (byte 21): "), "{errors}");
    for (place, why) in [
        ("3:1", "the text ends in line 2"),
        ("2:13", "line 2 ends at column 12"),
        ("1:99999999999999999999999", "line 1 ends at column 9"),
    ] {
        let (status, output, errors) = movesig(text, &format!("read type f.move {place}"));
        assert_eq!((status, output.as_str()), (2, ""));
        let place = place.replace("99999999999999999999999", &usize::MAX.to_string());
        assert_eq!(
            errors,
            format!("movesig: f.move: no such place: {place}: {why}\n")
        );
    }
}

#[test]
fn two_places() {
    assert_eq!(
        refused(b"(u8", "line type f.move"),
        "f.move:1:4 (byte 3): refused 12: list neither continued nor closed: \
         found the end of the text where `,` or `)` was due\n\
         1 | (u8\n  \
           | -  ^ `,` or `)` was due\n  \
           | the list begins here\n"
    );
    assert_eq!(
        refused(b"0x1 a", "read name f.move"),
        "f.move:1:5 (byte 4): refused 10: unexpected token: \
         found `a` where `::` behind a number was due\n\
         1 | 0x1 a\n  \
           | --- ^ `::` behind a number was due\n  \
           | the number\n"
    );
    let text = b"\n\n(u8,\n\n\n\n\n\n\n\tb\n\tc)";
    assert_eq!(
        refused(text, "read type f.move"),
        "f.move:11:2 (byte 17): refused 12: list neither continued nor closed: \
         found `c` where `,` or `)` was due\n\
         11 |     c)\n   \
            |     ^ `,` or `)` was due\n \
          3 | (u8,\n   \
            | - the list begins here\n"
    );
}

/// What was found and what could have stood there.
#[test]
fn what_was_due() {
    let told = |kind: &str, text: &str| {
        let errors = refused(text.as_bytes(), &format!("line {kind} f.move"));
        let first = errors.lines().next().expect("a line");
        let (_, told) = first.split_once(": found ").expect("what was found");
        told.strip_suffix(" was due")
            .expect("what was due")
            .to_string()
    };
    assert_eq!(told("type", ","), "`,` where a type");
    assert_eq!(told("type", ""), "the end of the text where a type");
    assert_eq!(told("type", "&,"), "`,` where a type");
    assert_eq!(told("type", "(u8,,"), "`,` where a type or `)`");
    assert_eq!(told("type", "a::/* */&"), "`&` where a name behind `::`");
    assert_eq!(told("type", "a<b<c>=>"), "`>=` where `,` or `>`");
    assert_eq!(
        told("type", "&mut\n::"),
        "the end of the text where a name behind `::`"
    );
    assert_eq!(told("type", "| |)"), "`)` where a type");
    assert_eq!(told("name", "0x1::M::("), "`(` where a name behind `::`");
    assert_eq!(told("name", "fun"), "`fun` where a name");
    assert_eq!(told("value", "fun"), "`fun` where a value");
    assert_eq!(told("value", "@fun"), "`fun` where a name");
    assert_eq!(told("binds", "fun"), "`fun` where a name or `(`");
    assert_eq!(told("binds", "S<u8> x"), "`x` where `{`");
    assert_eq!(told("binds", "a::S x"), "`x` where `::`, `{` or `<`");
    assert_eq!(told("binds", "S{f, 1"), "`1` where an identifier or `}`");
    assert_eq!(told("binds", "(S{f: 1u8"), "`1u8` where a name");
    assert_eq!(told("lambda", "x"), "`x` where `|`");
    let long = format!("({}", "u8, ".repeat(262_140));
    assert_eq!(
        told("type", &long),
        "the end of the text where a type or `)`"
    );
    // no token can be put behind it
    let errors = refused(format!("{long}u8, u8, ").as_bytes(), "line type f.move");
    assert!(
        errors.contains("unexpected token: found the end of the text\n"),
        "{errors}"
    );
}

/// What looks right and is not is noted.
#[test]
fn notes() {
    let noted = |text: &[u8], words: &str| {
        let (status, output, errors) = movesig(text, words);
        let note = errors
            .split_once(": note: ")
            .map(|(_, note)| note.to_string());
        (status, output, note.unwrap_or_default())
    };
    let note = |output: &str, note: &str| (0, output.to_string(), note.to_string());
    assert_eq!(
        noted(b"&mut\nu8", "line type f.move"),
        note(
            "& mut\n",
            "`&mut` without a space behind it is `&` and a type named `mut`\n"
        )
    );
    assert_eq!(noted(b"& mut", "line type f.move"), note("& mut\n", ""));
    // beside a refusal
    let note = |words: &str| (1, String::new(), words.to_string());
    let comment = "the offset is inside a comment\n";
    let text = b"/* /* a */ b */ c // d";
    for (text, place, words) in [
        (
            &b"vector<u8>"[..],
            3,
            "the offset is inside the token `vector`\n",
        ),
        (text, 1, comment),
        (text, 10, comment),
        (text, 15, ""),
        (text, 21, comment),
        (b"/* a */ $", 3, comment),
        (b"/* a */ /* /*", 3, comment),
        (b"/* a */ /* /*", 7, ""),
        (b"/* a */ /* /*", 9, ""),
        (b"&mut u8", 4, "the offset is inside the token `&mut `\n"),
        (b"a<b>>", 4, "the offset is inside the token `>>`\n"),
    ] {
        let words_of = format!("line type f.move {place}");
        assert_eq!(noted(text, &words_of), note(words), "at {place}");
    }
    let (_, _, errors) = movesig(b"a<b>,", "line type f.move");
    assert_eq!(errors, "followed by Comma 4..5  ,\n");
}

/// An offset at which nothing starts: where it is, and where reading can begin near it.
#[test]
fn nothing_starts() {
    assert_eq!(
        refused(b"vector<u8>", "read type f.move 3"),
        "f.move:1:4 (byte 3): refused 21: no token starts or ends here\n\
         1 | vector<u8>\n  \
           |    ^ reading can begin at 0 or at 6\n\
         f.move:1:4 (byte 3): note: the offset is inside the token `vector`\n"
    );
    for (text, place, nearest) in [
        (&b"a  b"[..], 2, "at 1 or at 3"),
        (b"a  ", 2, "at 1 or at 3"),
        (b"  a", 1, "at 0 or at 2"),
        (b"/* a */ b", 3, "at 0 or at 8"),
        (b"/* a */ b", 7, "at 0 or at 8"),
        (b"a >= b", 3, "at 2 or at 4"),
        (b"a  $b", 2, "at 1 or at 3"),
        (b"a /* */\r\n\tb\"\xe9\"", 3, "at 1 or at 10"),
        (b"a  /* /*", 2, "at 1"),
        (b"a //\n /* /*", 6, "at 1"),
        (b" x\"0", 1, ""),
    ] {
        let (_, _, errors) = movesig(text, &format!("line type f.move {place}"));
        let told = errors.split_once("^ reading can begin ");
        let told = told.map_or("", |(_, words)| words.lines().next().unwrap_or(""));
        assert_eq!(told, nearest, "{} at {place}", text.escape_ascii());
    }
    // in the edition that is asked for
    let (_, _, errors) = movesig(b"1_0", "--edition 2 line value f.move 1");
    assert!(
        errors.contains("reading can begin at 0 or at 3"),
        "{errors}"
    );
    // what stands before the place is refused
    let (_, _, errors) = movesig(b"a  $b", "line type f.move 4");
    assert!(
        errors.starts_with("f.move:1:4 (byte 3): refused 5: "),
        "{errors}"
    );
    assert_eq!(
        movesig(b"abc", "--json line type f.move 1").1,
        concat!(
            r#"{"file":"f.move","item":"type","at":1,"refused":21,"reason":"no token starts or ends here","#,
            r#""start":1,"end":1,"line":1,"column":2,"nearest":[0,3],"#,
            r#""notes":[{"at":1,"note":"the offset is inside the token `abc`"}]}"#,
            "\n"
        )
    );
}

#[test]
fn every_reason() {
    let first = |text: &[u8], words: &str| {
        let errors = refused(text, words);
        errors.lines().next().expect("a line").to_string()
    };
    let value = |text: &[u8]| first(text, "line value f.move");
    assert_eq!(
        value(b"x\"00"),
        "f.move:1:1 (byte 0): refused 7: hex string without closing quote in its line"
    );
    assert_eq!(
        value(b"b\"a\n\""),
        "f.move:1:1 (byte 0): refused 8: byte string without closing quote in its line"
    );
    assert_eq!(
        value("b\"aé\"".as_bytes()),
        "f.move:1:4 (byte 3): refused 9: byte of 128 or more in a string"
    );
    assert_eq!(
        value(b"b\"a\rb\""),
        "f.move:1:4 (byte 3): refused 18: the line would hold a control byte"
    );
    let no_value =
        "f.move:1:1 (byte 0): refused 13: no value here: found `fun` where a value was due";
    assert_eq!(value(b"fun"), no_value);
    let types = |text: &[u8]| first(text, "line type f.move");
    assert_eq!(
        types(b"(,"),
        "f.move:1:2 (byte 1): refused 11: comma where a list item was due: \
         found `,` where a type or `)` was due"
    );
    let deep = [b'('; 70];
    assert_eq!(
        types(&deep),
        "f.move:1:65 (byte 64): refused 14: more than 64 levels"
    );
    let wide = format!("({})", "a,".repeat(30_000));
    let error = first(wide.as_bytes(), "line type f.move");
    assert_eq!(error, "f.move: refused 4: line over 65535 bytes");
    // a tree is as long as it is
    let output = accepted(wide.as_bytes(), "read type f.move");
    assert!(output.starts_with("tuple"), "{}", &output[..80]);
    assert_eq!(output.lines().count(), 60_002);
}

#[test]
fn empty_file() {
    assert_eq!(accepted(b"", "tokens f.move"), "1:  0..0  EOF\n");
    let (status, _, errors) = movesig(b"", "comments f.move");
    assert_eq!((status, errors.as_str()), (0, "f.move: no doc comments\n"));
    assert_eq!(
        refused(b"", "read type f.move"),
        "f.move:1:1 (byte 0): refused 10: unexpected token: \
         found the end of the text where a type was due\n1 |\n  | ^ a type was due\n"
    );
}

#[test]
fn long_files_and_far_offsets() {
    let longest = vec![b' '; 1_048_575];
    assert_eq!(
        accepted(&longest, "tokens f.move"),
        "1:  1048575..1048575  EOF\n"
    );
    let too_long = vec![b' '; 1_048_576];
    let error = "f.move: refused 1: text over 1,048,575 bytes: it has 1048576\n";
    assert_eq!(refused(&too_long, "tokens f.move"), error);
    assert_eq!(refused(&too_long, "comments f.move"), error);
    assert_eq!(refused(&too_long, "outline f.move"), error);
    assert_eq!(refused(&too_long, "read type f.move 3"), error);

    for words in [
        "read type f.move 3",
        "line value f.move 99999999999999999999999",
    ] {
        let error = "f.move: refused 2: start past the text's end, which is at 2\n";
        assert_eq!(refused(b"u8", words), error);
    }
    let (_, _, errors) = movesig(b"u8", "line type f.move 2");
    assert!(
        errors.starts_with("f.move:1:3 (byte 2): refused 10: "),
        "{errors}"
    );
}

/// Every command on files as long as they may be, each of one thing alone. They end, and in time that
/// grows with the length: the list of `&mut` has a note for each, the nests many levels.
#[test]
fn hostile_long_files() {
    const LONGEST: usize = 1_048_575;
    /// So many of the middle as fit, and blanks behind.
    fn filled(before: &str, middle: &str, behind: &str) -> String {
        let room = LONGEST - before.len() - behind.len();
        let text = format!("{before}{}{behind}", middle.repeat(room / middle.len()));
        let blanks = " ".repeat(LONGEST - text.len());
        text + &blanks
    }
    let nest = |levels: usize| filled(&"(".repeat(levels), "a,", &")".repeat(levels));
    for (text, words, status) in [
        (filled("/*", "x", "*/"), "tokens", 0),
        (filled("/**", "x", "*/"), "comments", 0),
        (filled("/*", "x", ""), "tokens", 1),
        (filled("b\"", "x", "\""), "read value", 0),
        (filled("b\"", "x", "\""), "line value", 1),
        (filled("", "a", ""), "read name", 0),
        (filled("", "a", ""), "line name", 1),
        (nest(63), "--json read type", 0),
        (nest(64), "read type", 1),
        (filled("(", "&mut,", ")"), "read type", 0),
        (filled("", "<>{},;", ""), "tokens", 0),
        (filled("(", "a,", "b c)"), "--json read type", 1),
        (filled("", "\n", ""), "tokens", 0),
        (filled("", "\r", ""), "tokens", 1),
        (filled("/**", "x", "*/fun f"), "outline", 0),
        (filled("", "/**x*/fun f ", ""), "outline --tokens 1", 0),
        (filled("", "struct s", "$"), "--json outline", 1),
    ] {
        let begins = &text[..8];
        let (ended, output, errors) = movesig(text.as_bytes(), &format!("{words} f.move"));
        assert_eq!(ended, status, "{words} {begins:?}");
        let told = if status == 0 { "" } else { "refused" };
        let said = output + &errors;
        assert!(said.contains(told), "{words} {begins:?}");
    }
}

#[test]
fn hostile_bytes() {
    assert_eq!(
        accepted(b"b\"\x1b[31m\x07\t\x7f\"", "read value f.move"),
        "byte string 0..11  b\"\\x1b[31m\\x07\\x09\\x7f\"\nfollowed by EOF 11..11\n"
    );
    // a bare CR is part of its line; a character that turns text round; bytes that are not UTF-8
    let text = b"/* \r \xe2\x80\xae \xff\xfe \x00 */ ?\r\n";
    assert_eq!(
        refused(text, "read type f.move"),
        "f.move:1:16 (byte 17): refused 5: no token starts with this byte\n\
         1 | /* \\x0d \\u{202e} \\xff\\xfe \\x00 */ ?\n  \
           |                                   ^ byte 0x3f\n"
    );
    // wide characters, a tab, a character of one column
    assert_eq!(
        refused("/* 한글\té */ ?".as_bytes(), "read type f.move"),
        "f.move:1:12 (byte 16): refused 5: no token starts with this byte\n\
         1 | /* 한글    é */ ?\n  \
           |                 ^ byte 0x3f\n"
    );
    // from the middle of a character
    assert_eq!(
        refused("한".as_bytes(), "read type f.move 1"),
        "f.move:1:1 (byte 0): refused 5: no token starts with this byte\n1 | 한\n  | ^^ byte 0xed\n"
    );
}

#[test]
fn binary_files() {
    for seed in 0..200_u32 {
        let mut state = seed.wrapping_mul(2_654_435_761) | 1;
        let bytes: Vec<u8> = (0..seed * 5)
            .map(|_| {
                state ^= state << 13;
                state ^= state >> 17;
                state ^= state << 5;
                state as u8
            })
            .collect();
        for words in [
            "tokens -",
            "comments -",
            "outline -",
            "outline --tokens 2 -",
            "read type -",
            "line binds - 3",
        ] {
            let mut command = Command::new(MOVESIG);
            let (status, output, errors) = run(command.args(words.split(' ')), &bytes);
            assert!(status == 0 || status == 1, "{words}: {status}, {errors}");
            let shown = |text: &str| text.chars().all(|c| c == '\n' || !c.is_control());
            assert!(shown(&output) && shown(&errors), "{words}: {errors}");
            assert!(errors.lines().all(|line| line.chars().count() < 200));
            assert_eq!(status == 1, errors.contains(": refused "), "{errors}");
        }
    }
}

/// Letters are shown, and what can deceive is not.
#[test]
fn scripts() {
    let shown = |text: &str| {
        let output = accepted(format!("///{text}").as_bytes(), "comments f.move");
        let (_, shown) = output.split_once('|').expect("the text");
        shown.trim_end_matches('\n').to_string()
    };
    for text in [
        "Ելք, ქართული, हिन्दी, ภาษาไทย, العربية, עִבְרִית",
        "日本語 中文 한글, ελληνικά, русский",
        "🎉 ❤️ 👨‍👩‍👧 👍🏽, e\u{301}",
    ] {
        assert_eq!(shown(text), text);
    }
    for (text, escaped) in [
        ("a\u{202e}b\u{2066}", "a\\u{202e}b\\u{2066}"),
        ("a\u{200b}\u{200d}\u{ad}", "a\\u{200b}\\u{200d}\\u{ad}"),
        ("a\u{fe0f}\u{3164}\u{2800}", "a\\u{fe0f}\\u{3164}\\u{2800}"),
        (
            "\u{378}\u{e000}\u{a0}\u{85}",
            "\\u{378}\\u{e000}\\u{a0}\\u{85}",
        ),
        ("=\u{338}", "=\\u{338}"),
        (
            "a\u{301}\u{301}\u{301}\u{301}\u{301}",
            "a\u{301}\u{301}\u{301}\u{301}\\u{301}",
        ),
    ] {
        assert_eq!(shown(text), escaped);
    }
    // where widths are not certain, the marks stand below a line of which they are
    assert_eq!(
        refused("/* שלום 🎉 */ ?".as_bytes(), "read type f.move"),
        "f.move:1:14 (byte 20): refused 5: no token starts with this byte\n\
         1 | /* שלום 🎉 */ ?\n  \
           | /* \\u{5e9}\\u{5dc}\\u{5d5}\\u{5dd} \\u{1f389} */ ?\n  \
           |                                              ^ byte 0x3f\n"
    );
    assert_eq!(
        refused("\u{feff}fun".as_bytes(), "tokens f.move"),
        "f.move:1:1 (byte 0): refused 5: no token starts with this byte\n\
         1 | \\u{feff}fun\n  \
           | ^^^^^^^^ a byte order mark: Move has none\n"
    );
}

#[test]
fn long_lines() {
    let text = format!("({}b c{})", "a, ".repeat(300), ", d".repeat(300));
    assert_eq!(
        refused(text.as_bytes(), "read type f.move"),
        "f.move:1:904 (byte 903): refused 12: list neither continued nor closed: \
         found `c` where `,` or `)` was due\n\
         1 | ..., a, a, a, a, a, a, a, a, a, a, b c, d, d, d, d, d, d, d, d, d, d, d,...\n  \
           |                                      ^ `,` or `)` was due\n\
         1 | (a, a, a, a, a, a, a, a, a, a, a, a, a, a, a, a, a, a, a, a, a, a, a,...\n  \
           | - the list begins here\n"
    );
    let text = format!("  b\"{}", "x".repeat(60_000));
    let errors = refused(text.as_bytes(), "line value f.move");
    let lines: Vec<&str> = errors.lines().collect();
    assert_eq!(lines[1], format!("1 | ...b\"{}...", "x".repeat(67)));
    assert_eq!(lines[2], format!("  |    {}", "^".repeat(69)));
    // a long name is cut, but not in the item's line
    let name = "x".repeat(65_535);
    let cut = format!("{}... (65535 bytes)", "x".repeat(100));
    let output = accepted(name.as_bytes(), "tokens f.move");
    assert!(output.starts_with(&format!("1:  0..65535      Identifier  {cut}\n")));
    assert!(accepted(name.as_bytes(), "read name f.move").contains(&cut));
    assert_eq!(accepted(name.as_bytes(), "line name f.move"), name + "\n");
}

/// A string that has no line: the byte is shown, and what shows the tree is said.
#[test]
fn an_unprintable_byte() {
    let advice = "note: `movesig read` shows the tree\n";
    for (text, shown) in [
        (
            &b"b\"a\rb\""[..],
            "f.move:1:4 (byte 3): refused 18: the line would hold a control byte\n\
             1 | b\"a\\x0db\"\n  |    ^^^^ byte 0x0d\nf.move:1:4 (byte 3): ",
        ),
        (
            b"/*\r\n*/\tx\"\t\x1b\t\"",
            "f.move:2:6 (byte 9): refused 18: the line would hold a control byte\n\
             2 | */    x\"\\x09\\x1b    \"\n  |         ^^^^ byte 0x09\nf.move:2:6 (byte 9): ",
        ),
        (
            b"b\"\\\x7f\" c",
            "f.move:1:4 (byte 3): refused 18: the line would hold a control byte\n\
             1 | b\"\\\\x7f\" c\n  |    ^^^^ byte 0x7f\nf.move:1:4 (byte 3): ",
        ),
    ] {
        assert_eq!(refused(text, "line value f.move"), [shown, advice].concat());
        assert!(accepted(text, "read value f.move").contains(" string "));
    }
    let json = r#"{"file":"f.move","item":"value","at":0,"refused":18,"reason":"the line would hold a control byte","start":2,"end":3,"line":1,"column":3,"notes":[{"at":2,"note":"`movesig read` shows the tree"}]}"#;
    let (status, output, errors) = movesig(b"b\"\x1b\"", "--json line value f.move");
    assert_eq!((status, output.trim_end(), &*errors), (1, json, ""));
}

/// Whatever the text, what is shown of it stands on the screen.
#[test]
fn nothing_is_wider_than_a_screen() {
    let folder = folder("screens");
    for length in (0..400).step_by(13) {
        for (number, text) in [
            format!("{}({}b c", "\n".repeat(20_000), "a,".repeat(length)),
            format!("{}({}b", " ".repeat(length), "a,".repeat(90)),
            format!("{}1{}x", " ".repeat(length), " ".repeat(length)),
            format!("{}{}$", "\t".repeat(length % 30), " ".repeat(length)),
            format!("/*{}*/ $", "ש".repeat(length)),
        ]
        .into_iter()
        .enumerate()
        {
            fs::write(folder.join("f.move"), &text).expect("written");
            let columns = [40, 80, 200][(length + number) % 3];
            let mut command = Command::new(MOVESIG);
            command
                .args(["read", "type", "f.move"])
                .current_dir(&folder);
            let (status, _, errors) = run(command.env("COLUMNS", columns.to_string()), b"");
            assert_eq!(status, 1);
            // behind the first line, which tells what is wrong
            let widest = errors
                .lines()
                .skip(1)
                .map(|line| line.chars().count())
                .max();
            assert!(widest < Some(columns), "{errors}");
        }
    }
}

#[test]
fn several_files() {
    let folder = folder("several");
    fs::write(folder.join("a"), "/// one\nx: u8").expect("written");
    fs::write(folder.join("b"), "y: (u8").expect("written");
    let said = |words: &str| {
        let mut command = Command::new(MOVESIG);
        run(
            command.args(words.split(' ')).current_dir(&folder),
            b"z: bool",
        )
    };
    let (status, output, errors) = said("line type a 2:3 b 2 - 2 nothing");
    assert_eq!(status, 2);
    assert_eq!(output, "a: u8\n<stdin>: bool\n");
    let lines: Vec<&str> = errors.lines().collect();
    assert_eq!(lines[0], "a: followed by EOF 13..13");
    assert!(lines[1].starts_with("b:1:7 (byte 6): refused 12: "));
    assert_eq!(lines[5], "<stdin>: followed by EOF 7..7");
    assert_eq!(lines[6], "movesig: nothing: no such file");
    let (status, output, errors) = said("comments b a");
    assert_eq!((status, errors.as_str()), (0, "b: no doc comments\n"));
    assert_eq!(output, "a: 0..7  1:1  | one\n");
    assert_eq!(said("tokens b a").1.lines().count(), 5 + 4);
}

#[test]
fn for_machines() {
    let text = b"/// \xff\"\\\x1b\xe2\x82\xac\nfun f(x: &mut\nu8) $";
    let (status, output, errors) = movesig(text, "--json tokens f.move");
    assert_eq!((status, errors.as_str()), (1, ""));
    let lines: Vec<&str> = output.lines().collect();
    assert_eq!(lines.len(), 10);
    assert_eq!(
        lines[0],
        r#"{"file":"f.move","token":"Fun","number":62,"start":12,"end":15,"line":2,"column":1,"text":"fun"}"#
    );
    assert_eq!(
        lines[9],
        r#"{"file":"f.move","refused":5,"reason":"no token starts with this byte","start":30,"end":30,"line":3,"column":5}"#
    );
    assert_eq!(
        movesig(text, "comments --json f.move").1.lines().next(),
        Some(
            r#"{"file":"f.move","comment":" \ufffd\"\\\u001b\u20ac","start":0,"end":11,"line":1,"column":1,"text_start":3,"text_end":11}"#
        )
    );
    assert_eq!(
        accepted(text, "--json read type f.move 2:9"),
        concat!(
            r#"{"file":"f.move","item":"type","at":20,"tree":{"record":"reference","number":11,"start":21,"end":25,"children":["#,
            r#"{"record":"type","number":10,"start":22,"end":25,"children":["#,
            r#"{"record":"one-part chain","number":3,"start":22,"end":25,"text":"mut","children":[]}]}]},"#,
            r#""next":{"token":"Identifier","number":4,"start":26,"end":28,"text":"u8"},"#,
            r#""notes":[{"at":21,"note":"`&mut` without a space behind it is `&` and a type named `mut`"}]}"#,
            "\n"
        )
    );
    assert_eq!(
        accepted(b"a < b >", "--json line type f.move"),
        concat!(
            r#"{"file":"f.move","item":"type","at":0,"shown":"a<b>","#,
            r#""next":{"token":"EOF","number":0,"start":7,"end":7,"text":""},"notes":[]}"#,
            "\n"
        )
    );
    // the help names each key
    let (_, help, _) = run(Command::new(MOVESIG).arg("help"), b"");
    for words in ["tokens", "comments", "outline", "read type", "line type"] {
        for (text, place) in [
            (&b"/// a\n(u8, b)"[..], ""),
            (b"/// a\nfun f", ""),
            (b"(u8", ""),
            (b"$", ""),
            (b"abc", "1"),
        ] {
            let place = if words.contains(' ') { place } else { "" };
            let (_, output, _) = movesig(text, &format!("--json {words} f.move {place}"));
            let keys = output
                .split("\":")
                .filter_map(|part| part.rsplit('"').next());
            for key in keys.filter(|key| !key.is_empty() && !key.ends_with('\n')) {
                assert!(help.contains(key), "{key}");
            }
        }
    }
    let refusals = |words: &str, length: usize| {
        let (status, output, errors) = movesig(&vec![b' '; length], words);
        assert_eq!((status > 0, errors.as_str()), (true, ""));
        output
    };
    assert_eq!(
        refusals("--json tokens f.move", 1_070_000),
        "{\"file\":\"f.move\",\"refused\":1,\"reason\":\"text over 1,048,575 bytes\",\
         \"length\":1070000,\"limit\":1048575}\n"
    );
    assert_eq!(
        refusals("--json line type f.move 9", 3),
        "{\"file\":\"f.move\",\"item\":\"type\",\"at\":9,\"refused\":2,\
         \"reason\":\"start past the text's end\",\"length\":3,\"limit\":1048575}\n"
    );
    // a line has a limit of its own, and how long it would be is not told
    let wide = format!("({})", "a,".repeat(30_000));
    assert_eq!(
        movesig(wide.as_bytes(), "--json line type f.move").1,
        "{\"file\":\"f.move\",\"item\":\"type\",\"at\":0,\"refused\":4,\
         \"reason\":\"answer longer than the buffer, or a line than 65,535 bytes\",\
         \"limit\":65535}\n"
    );
    assert_eq!(
        refusals("--json line type f.move 9:9", 3),
        "{\"file\":\"f.move\",\"error\":\"no such place: 9:9: the text ends in line 1\"}\n"
    );
    assert_eq!(
        movesig(b"(u8", "--json read type f.move").1,
        concat!(
            r#"{"file":"f.move","item":"type","at":0,"refused":12,"reason":"list neither continued nor closed","#,
            r#""start":3,"end":3,"line":1,"column":4,"second":{"start":0,"end":0,"line":1,"column":1},"#,
            r#""found":{"token":"EOF","number":0,"start":3,"end":3,"text":""},"due":["`,`","`)`"],"notes":[]}"#,
            "\n"
        )
    );
}

/// On a terminal, and nowhere else, reports have colours.
#[test]
fn colours() {
    let folder = folder("colours");
    fs::write(folder.join("f"), "(u8").expect("written");
    let on_terminal = |no_color: &str| {
        let mut command = Command::new("script");
        let line = format!("{MOVESIG} line type f");
        command
            .args(["-q", "-e", "-c", &line, "/dev/null"])
            .current_dir(&folder);
        command.env("NO_COLOR", no_color).env("TERM", "xterm");
        let output = command.stdin(Stdio::null()).output().ok()?;
        Some(String::from_utf8_lossy(&output.stdout).into_owned())
    };
    let Some(coloured) = on_terminal("") else {
        eprintln!("script is not here: left out");
        return;
    };
    assert!(
        coloured.contains("\x1b[1;31mrefused 12\x1b[0m"),
        "{coloured:?}"
    );
    let plain = on_terminal("1").expect("it can be run");
    assert!(
        plain.contains(": refused 12: ") && !plain.contains('\x1b'),
        "{plain:?}"
    );
}

#[test]
fn standard_input() {
    let mut command = Command::new(MOVESIG);
    let said = run(command.args(["line", "type", "-"]), b"a < b >");
    let following = "followed by EOF 7..7\n".to_string();
    assert_eq!(said, (0, "a<b>\n".to_string(), following));
    let mut command = Command::new(MOVESIG);
    let (status, _, errors) = run(command.args(["tokens", "-"]), b"?");
    assert_eq!(status, 1);
    assert!(
        errors.starts_with("<stdin>:1:1 (byte 0): refused 5: "),
        "{errors}"
    );
    // more than it reads
    let mut command = Command::new(MOVESIG);
    let (status, _, errors) = run(command.args(["tokens", "-"]), &vec![b' '; 2_000_000]);
    assert_eq!(status, 1);
    let error = "<stdin>: refused 1: text over 1,048,575 bytes: it has 2000000\n";
    assert_eq!(errors, error);
    // no end
    let zeros = fs::File::open("/dev/zero").expect("it is there");
    let output = Command::new(MOVESIG)
        .args(["tokens", "-"])
        .stdin(zeros)
        .output();
    let errors = String::from_utf8(output.expect("it can be run").stderr).expect("UTF-8");
    assert!(
        errors.ends_with(": it has more than 16777216\n"),
        "{errors}"
    );
    // closed, and empty
    for (input, status, words) in [
        ("<&-", 2, "movesig: <stdin>: is closed\n"),
        ("</dev/null", 0, ""),
    ] {
        let mut shell = Command::new("sh");
        shell.args(["-c", &format!("exec {MOVESIG} tokens - {input}")]);
        let (ended, _, errors) = run(&mut shell, b"");
        assert_eq!((ended, errors.as_str()), (status, words));
    }
}

#[test]
fn files_that_cannot_be_read() {
    let folder = folder("files");
    fs::write(folder.join("shut"), "u8").expect("written");
    let none = fs::Permissions::from_mode(0o000);
    fs::set_permissions(folder.join("shut"), none).expect("shut");
    fs::create_dir(folder.join("inside")).expect("a folder");
    let said = |file: &OsStr| {
        let mut command = Command::new(MOVESIG);
        run(command.arg("tokens").arg(file).current_dir(&folder), b"")
    };
    let error = |words: &str| (2, String::new(), words.to_string());
    assert_eq!(
        said("nothing".as_ref()),
        error("movesig: nothing: no such file\n")
    );
    assert_eq!(
        said("inside".as_ref()),
        error("movesig: inside: is a directory\n")
    );
    assert_eq!(said("".as_ref()), error("movesig: : no such file\n"));
    assert_eq!(
        said(OsStr::from_bytes(b"a\n\x1b\xff")),
        error("movesig: a\\x0a\\x1b\\xff: no such file\n")
    );
    // who may read everything reads this too
    if fs::read(folder.join("shut")).is_err() {
        assert_eq!(
            said("shut".as_ref()),
            error("movesig: shut: may not be read\n")
        );
    }
}

#[test]
fn usage() {
    let wrong = |words: &[&str], message: &str| {
        let (status, output, errors) = run(Command::new(MOVESIG).args(words), b"");
        assert_eq!((status, output.as_str()), (2, ""), "{words:?}");
        assert_eq!(errors, format!("movesig: {message} (see movesig --help)\n"));
    };
    wrong(&[], "no command is given");
    wrong(&["frob"], "no such command: frob");
    wrong(&["tokens"], "no file is given");
    wrong(&["read", "type", "a", "1", "2"], "one place too many: 2");
    wrong(&["read", "type", "1", "a"], "a place before its file: 1");
    for place in [
        "-1", "0x1", "", "1:", ":1", "0:1", "1:0", "1:2:3", "-1:2", "+1",
    ] {
        let rule = "it is a byte, counted from 0, or LINE:COLUMN, both from 1";
        wrong(
            &["read", "type", "a", place],
            &format!("not a place: {place}: {rule}"),
        );
    }
    wrong(&["line", "type"], "no file is given");
    let kinds = "name, value, type, binds or lambda";
    wrong(&["line"], &format!("no kind is given: {kinds}"));
    wrong(
        &["line", "t\x07"],
        &format!("no such kind: t\\x07: it is {kinds}"),
    );
    wrong(&["--frob"], "no such option: --frob");
    for edition in [
        "0",
        "3",
        "18446744073709551615",
        "",
        "01",
        "one",
        "-1",
        "\x07",
    ] {
        let shown = edition.replace('\x07', "\\x07");
        let message = format!("no such edition: {shown}: it is 1 or 2");
        wrong(&["--edition", edition, "tokens", "a"], &message);
        wrong(&["read", "type", "a", "--edition", edition], &message);
    }
    wrong(&["tokens", "a", "--edition"], "no edition is given: 1 or 2");
    wrong(&["--edition"], "no edition is given: 1 or 2");

    let told = |word: &str| {
        let (status, output, errors) = run(Command::new(MOVESIG).arg(word), b"");
        assert_eq!((status, errors.as_str()), (0, ""), "{word}");
        output
    };
    assert_eq!(
        told("--version"),
        concat!("movesig ", env!("CARGO_PKG_VERSION"), "\n")
    );
    let help = told("--help");
    assert_eq!(help, told("help"));
    assert!(help.contains("usage: movesig [--json] [--edition N] tokens FILE ..."));
    assert!(help.lines().all(|line| line.chars().count() < 80));

    // the manual page has each word of the help
    let page = told("man")
        .replace("\\-", "-")
        .replace("\\e", "\\")
        .replace("\\&", "");
    let upper = page.to_uppercase();
    for word in help.split_whitespace().filter(|word| *word != "usage:") {
        let word = word.trim_end_matches([':', '.']).to_uppercase();
        assert!(upper.contains(&word), "{word}");
    }
}

/// The edition before and behind the command, and 1 where it is left out.
#[test]
fn editions() {
    for words in ["line value f.move", "line --edition 1 value f.move"] {
        let (status, output, errors) = movesig(b"1_000", words);
        assert_eq!((status, output.as_str()), (0, "1\n"), "{words}");
        assert_eq!(errors, "followed by Identifier 1..5  _000\n");
    }
    for words in [
        "--edition 2 line value f.move",
        "line --edition 2 value f.move",
        "line value f.move --edition 2",
        "line value f.move --edition 2 0",
        "line value f.move --edition 1 --edition 2",
    ] {
        let (status, output, errors) = movesig(b"1_000", words);
        assert_eq!((status, output.as_str()), (0, "1_000\n"), "{words}");
        assert_eq!(errors, "followed by EOF 5..5\n");
    }
    assert_eq!(
        accepted(b"1u16", "tokens f.move"),
        "1:  0..1  NumValue    1\n    1..4  Identifier  u16\n    4..4  EOF\n"
    );
    assert_eq!(
        accepted(b"1u16", "--edition 2 tokens f.move"),
        "1:  0..4  NumTypedValue  1u16\n    4..4  EOF\n"
    );
    assert_eq!(
        accepted(b"/// a\n1_0", "--edition 2 comments f.move"),
        "0..5  1:1  | a\n"
    );
    // what was found, what was due and what is noted are of the edition too
    assert!(refused(b"1u16::a", "--edition 2 read name f.move").contains("found `1u16`"));
    assert!(refused(b"(1_0::a 1_1", "--edition 2 read type f.move").contains("found `1_1`"));
    assert!(refused(b"1_0 a", "--edition 2 read name f.move").contains("`::` behind a number"));
    let (_, _, errors) = movesig(b"1_000", "--edition 2 line value f.move 2");
    assert!(errors.contains("note: the offset is inside the token `1_000`"));
}

/// The completions, as bash takes them.
#[test]
fn completions() {
    let complete =
        |words: &[&str]| {
            let (last, index) = (words.len() - 1, words.len() - 1);
            let script =
                format!(
            "source <({MOVESIG} completions); COMP_WORDS=({}) COMP_CWORD={index}; _movesig; \
             echo \"${{COMPREPLY[@]}}\"",
            words.iter().map(|word| format!("'{word}'")).collect::<Vec<_>>().join(" ")
        );
            assert!(last > 0);
            let output = Command::new("bash").args(["-c", &script]).output().ok()?;
            Some(String::from_utf8_lossy(&output.stdout).trim().to_string())
        };
    let Some(commands) = complete(&["movesig", ""]) else {
        eprintln!("bash is not here: left out");
        return;
    };
    assert_eq!(
        commands,
        "tokens comments outline read line carry open help man completions"
    );
    assert_eq!(complete(&["movesig", "read", "t"]).as_deref(), Some("type"));
    assert_eq!(
        complete(&["movesig", "--json", "line", "b"]).as_deref(),
        Some("binds")
    );
    assert_eq!(complete(&["movesig", "--j"]).as_deref(), Some("--json"));
    assert_eq!(complete(&["movesig", "--e"]).as_deref(), Some("--edition"));
    assert_eq!(complete(&["movesig", "--s"]).as_deref(), Some("--save"));
    assert_eq!(
        complete(&["movesig", "read", "type", "a", "--save", "/dev/nul"]).as_deref(),
        Some("/dev/null")
    );
    assert_eq!(
        complete(&["movesig", "--save", "t", "read", "b"]).as_deref(),
        Some("binds")
    );
    assert_eq!(
        complete(&["movesig", "open", "/dev/nul"]).as_deref(),
        Some("/dev/null")
    );
    assert_eq!(
        complete(&["movesig", "--edition", ""]).as_deref(),
        Some("1 2")
    );
    assert_eq!(
        complete(&["movesig", "--edition", "2", "line", "b"]).as_deref(),
        Some("binds")
    );
    assert_eq!(complete(&["movesig", "--t"]).as_deref(), Some("--tokens"));
    assert_eq!(complete(&["movesig", "--tokens", ""]).as_deref(), Some(""));
    assert_eq!(
        complete(&["movesig", "--tokens", "9", "ou"]).as_deref(),
        Some("outline")
    );
    assert_eq!(
        complete(&["movesig", "tokens", "/dev/nul"]).as_deref(),
        Some("/dev/null")
    );
}

#[test]
fn output_that_is_not_taken() {
    let Ok(full) = fs::OpenOptions::new().write(true).open("/dev/full") else {
        return;
    };
    let output = Command::new(MOVESIG)
        .arg("--help")
        .stdout(full)
        .output()
        .expect("it can be run");
    assert_eq!(output.status.code(), Some(2));
    let errors = String::from_utf8_lossy(&output.stderr);
    assert!(errors.starts_with("movesig: standard output: "), "{errors}");

    // a reader that goes away
    let mut child = Command::new(MOVESIG)
        .args(["tokens", "-"])
        .stdin(Stdio::piped())
        .stdout(Stdio::piped())
        .stderr(Stdio::piped())
        .spawn()
        .expect("it can be run");
    drop(child.stdout.take());
    let mut input = child.stdin.take().expect("its input");
    input.write_all(&b"a ".repeat(30_000)).expect("it reads");
    drop(input);
    let output = child.wait_with_output().expect("it ends");
    assert_eq!(output.status.code(), Some(0));
    assert_eq!(String::from_utf8_lossy(&output.stderr), "");
}

#[test]
fn example() {
    let built = Path::new(MOVESIG).parent().expect("its folder");
    let examples = Path::new(env!("CARGO_MANIFEST_DIR")).join("../../examples");
    for (file, status) in [("coin", 0), ("damaged", 1)] {
        let mut command = Command::new(built.join("examples/station"));
        command.arg(format!("{file}.move")).current_dir(&examples);
        let (ended, output, _) = run(&mut command, b"");
        let expected = fs::read_to_string(examples.join(format!("{file}.expected")));
        assert_eq!(output, expected.expect("what is expected"));
        assert_eq!(ended, status);
    }
}
