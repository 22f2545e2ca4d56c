//! Notes carried from edition 1 to edition 2: by the crate's function, by the program, and from C between guarded
//! pages under the sanitizers.

use movesig::{carry, tokens, CarryRefusal, Edition, Refusal, Span, LONGEST, MOST_NOTES};
use std::{
    error::Error,
    fs,
    path::{Path, PathBuf},
    process::{Command, Output},
};

fn top() -> PathBuf {
    Path::new(env!("CARGO_MANIFEST_DIR")).join("../..")
}

fn temporary(name: &str) -> PathBuf {
    Path::new(env!("CARGO_TARGET_TMPDIR")).join(name)
}

/// What becomes of the notes; where the call is refused they must stay.
fn carried(text: &[u8], notes: &[usize]) -> Result<Vec<usize>, CarryRefusal> {
    let mut list = notes.to_vec();
    let result = carry(text, &mut list);
    if result.is_err() {
        assert_eq!(list, notes, "{}", text.escape_ascii());
    }
    result.map(|()| list)
}

fn bad(index: usize) -> Result<Vec<usize>, CarryRefusal> {
    Err(CarryRefusal::Note { index })
}

fn refused(refusal: Refusal) -> Result<Vec<usize>, CarryRefusal> {
    Err(CarryRefusal::Text(refusal))
}

#[test]
fn what_is_decided() {
    assert_eq!(carried(b"1_000 a", &[1, 0, 7, 6]), Ok(vec![0, 0, 7, 6]));
    assert_eq!(carried(b"1u168 b", &[1]), Ok(vec![0]));
    assert_eq!(carried(b"1u8x\"00\"", &[0, 3]), Ok(vec![0, 3]));
    assert_eq!(carried(b"a", &[0, 5, 9]), bad(1));
    assert_eq!(carried(b"", &[0]), Ok(vec![0]));
    assert_eq!(carried(b"", &[1]), bad(0));
    assert_eq!(carried(b"a b", &[1]), bad(0));
    assert_eq!(carried(b"a b", &[usize::MAX, 0]), bad(0));
    let long = [&[b' '; 70_000][..], b"1_0"].concat();
    let notes = [70_001, 70_000, 70_003];
    assert_eq!(carried(&long, &notes), Ok(vec![70_000, 70_000, 70_003]));
}

#[test]
fn how_many_notes() {
    assert_eq!(MOST_NOTES, 256);
    for count in [0, 1, 255, 256] {
        assert_eq!(carried(b"1_0", &vec![1; count]), Ok(vec![0; count]));
    }
    for count in [257, 300, 100_000] {
        assert_eq!(carried(b"1_0", &vec![1; count]), bad(256));
    }
    // a wrong note before the 257th comes first
    let mut notes = vec![0; 257];
    notes[255] = 2;
    assert_eq!(carried(b"1_0", &notes), bad(255));
    notes[3] = usize::MAX;
    assert_eq!(carried(b"1_0", &notes), bad(3));
}

/// What the text is refused for comes before the notes, however many and wherever they are.
#[test]
fn the_text_is_read_first() {
    let at = |byte| Span {
        start: byte,
        end: byte,
    };
    let opener = Span { start: 3, end: 5 };
    for notes in [&[][..], &[0], &[9], &[usize::MAX; 300]] {
        assert_eq!(
            carried(b"a $", notes),
            refused(Refusal::NoToken { at: at(2) })
        );
        // which edition 2 reads
        assert_eq!(
            carried(b"1_x\"a\"", notes),
            refused(Refusal::NoToken { at: at(3) })
        );
        assert_eq!(
            carried(b"1_ /*", notes),
            refused(Refusal::CommentNotClosed { opener })
        );
        let long = vec![b'$'; LONGEST + 1];
        assert_eq!(carried(&long, notes), refused(Refusal::TextTooLong));
    }
}

#[test]
fn refusals_in_words() {
    let mut notes = [5];
    let note = carry(b"a", &mut notes).unwrap_err();
    assert_eq!(note.number(), 20);
    let words = "refused 20: no token of edition 1 starts at the note, or it is past the 256th: \
                 the note with index 0";
    assert_eq!(note.to_string(), words);
    let text = carry(b"$", &mut notes).unwrap_err();
    assert_eq!(
        (text.number(), text.reason()),
        (5, "no token starts with this byte")
    );
    assert_eq!(
        text.to_string(),
        "refused 5: no token starts with this byte, at 0..0"
    );
    assert_eq!(CarryRefusal::from(Refusal::TextTooLong).number(), 1);
    let error: &dyn Error = &text;
    assert!(error.source().is_none());
}

/// Every text of up to five of these words, with all its starts as notes: each goes to the one token that covers
/// it, and a text that edition 1 reads to its end is read by edition 2.
#[test]
fn the_token_that_covers() {
    const WORDS: [&str; 8] = ["1", "0x", "_", "u16", "x", "\"a\"", " ", "6"];
    let (mut read, mut moved) = (0, 0);
    for choice in 0..8usize.pow(5) {
        let words = (0..5).map(|place| WORDS[choice >> (3 * place) & 7]);
        let text = words.collect::<String>().into_bytes();
        let of = |edition| tokens(edition, &text, 0).collect::<Result<Vec<_>, _>>();
        let Ok(old) = of(Edition::One) else {
            continue;
        };
        let new = of(Edition::Two).expect("edition 2 reads what edition 1 reads");
        let notes: Vec<usize> = old.iter().rev().map(|token| token.span.start).collect();
        let due: Vec<usize> = notes
            .iter()
            .map(|&note| {
                let covering = new
                    .iter()
                    .filter(|token| token.span.range().contains(&note));
                let covering: Vec<_> = covering.collect();
                match covering[..] {
                    [token] => token.span.start,
                    _ => {
                        assert!(covering.is_empty() && note == text.len());
                        note
                    }
                }
            })
            .collect();
        assert_eq!(carried(&text, &notes), Ok(due.clone()));
        read += 1;
        moved += usize::from(due != notes);
    }
    assert!(
        read > 1_000 && moved > 500,
        "{read} read, {moved} with notes that moved"
    );
}

fn movesig(name: &str, text: &[u8], words: &str) -> (i32, String, String) {
    let folder = temporary(&format!("carry-{name}"));
    fs::create_dir_all(&folder).expect("a folder");
    fs::write(folder.join("f.move"), text).expect("written");
    let mut command = Command::new(env!("CARGO_BIN_EXE_movesig"));
    command.args(words.split(' ')).current_dir(folder);
    let Output {
        status,
        stdout,
        stderr,
    } = command
        .env_remove("COLUMNS")
        .output()
        .expect("it can be run");
    let text = |bytes| String::from_utf8(bytes).expect("what it writes is UTF-8");
    (status.code().expect("it ends"), text(stdout), text(stderr))
}

#[test]
fn program() {
    let text = b"1_000 a\n2u16";
    let (status, output, errors) = movesig("notes", text, "carry f.move 1 0 6 2:2 12 2:5");
    let lines =
        "1 -> 0  1_000\n0 -> 0  1_000\n6 -> 6  a\n9 -> 8  2u16\n12 -> 12  EOF\n12 -> 12  EOF\n";
    assert_eq!((status, &*output, &*errors), (0, lines, ""));
    let (status, output, errors) = movesig("json", text, "--json carry f.move 9");
    let object =
        "{\"file\":\"f.move\",\"note\":9,\"token\":\"NumTypedValue\",\"number\":2,\"start\":8,\
                  \"end\":12,\"line\":2,\"column\":1,\"text\":\"2u16\"}\n";
    assert_eq!((status, &*output, &*errors), (0, object, ""));
    // what could disturb a terminal, and what is long
    let (_, output, _) = movesig("bytes", b"b\"a\x1b[2K\"", "carry f.move 0");
    assert_eq!(output, "0 -> 0  b\"a\\x1b[2K\"\n");
    let (_, output, _) = movesig("long", &[b'7'; 300], "carry f.move 0");
    assert_eq!(
        output,
        format!("0 -> 0  {}... (300 bytes)\n", "7".repeat(100))
    );
}

#[test]
fn program_refused() {
    let text = b"1_000 a\n2u16";
    for (words, due) in [
        (
            "carry f.move 1 3 2",
            "f.move: refused 20: no token of edition 1 starts at note 2 of 3, byte 3\n",
        ),
        (
            "carry f.move 99999999999999999999999",
            "f.move: refused 20: no token of edition 1 starts at note 1 of 1, byte 18446744073709551615\n",
        ),
    ] {
        let (status, output, errors) = movesig("refused", text, words);
        assert_eq!((status, &*output, &*errors), (1, "", due), "{words}");
    }
    let many = ["carry f.move", &" 0".repeat(300)].concat();
    let (status, output, errors) = movesig("many", text, &many);
    let due = "f.move: refused 20: more than 256 notes: note 257 of 300, byte 0\n";
    assert_eq!((status, &*output, &*errors), (1, "", due));
    let (status, output, errors) = movesig("refused-json", text, "--json carry f.move 0 5");
    let due = "{\"file\":\"f.move\",\"refused\":20,\"reason\":\"no token of edition 1 starts at the note, or \
               it is past the 256th\",\"index\":1,\"note\":5}\n";
    assert_eq!((status, &*output, &*errors), (1, due, ""));
    // a file that is refused is shown as for the other commands, whatever the notes are
    let (status, output, errors) = movesig("fault", b"1_0 $", "carry f.move 9 1:1");
    let due = "f.move:1:5 (byte 4): refused 5: no token starts with this byte\n1 | 1_0 $\n  |     ^ byte 0x24\n";
    assert_eq!((status, &*output, &*errors), (1, "", due));
    let long = vec![b' '; LONGEST + 1];
    let (status, _, errors) = movesig("too-long", &long, "carry f.move 7:7");
    let due = "f.move: refused 1: text over 1,048,575 bytes: it has 1048576\n";
    assert_eq!((status, &*errors), (1, due));
}

#[test]
fn program_usage() {
    for (words, due) in [
        ("carry", "no file is given"),
        ("carry f.move", "no note is given: a place of the file"),
        ("carry 1 f.move", "a place before its file: 1"),
        (
            "carry f.move g.move",
            "not a place: g.move: it is a byte, counted from 0, or LINE:COLUMN, both from 1",
        ),
        (
            "--edition 1 carry f.move 0",
            "carry takes no edition: it goes from edition 1 to edition 2",
        ),
        (
            "carry f.move 0 --edition 2",
            "carry takes no edition: it goes from edition 1 to edition 2",
        ),
    ] {
        let (status, output, errors) = movesig("usage", b"a", words);
        let due = format!("movesig: {due} (see movesig --help)\n");
        assert_eq!((status, &*output, errors), (2, "", due), "{words}");
    }
    let (status, _, errors) = movesig("place", b"a", "carry f.move 0 3:1");
    let due = "movesig: f.move: no such place: 3:1: the text ends in line 1\n";
    assert_eq!((status, &*errors), (2, due));
    for words in ["help", "man", "completions"] {
        let (_, output, _) = movesig("help", b"", words);
        assert!(output.contains("carry"), "{words}");
    }
}

/// A program of one source file in C or C++ and the library; none where the compiler is not here.
fn compiled(
    name: &str,
    language: &str,
    standard: &str,
    more: &[&str],
    source: &Path,
) -> Option<PathBuf> {
    if Command::new(name).arg("--version").output().is_err() {
        eprintln!("{name} is not here: left out");
        return None;
    }
    let stem = source.file_stem().expect("a name").to_string_lossy();
    let folder = source.parent().and_then(Path::file_name).expect("a folder");
    let made = temporary(&format!("{}-{stem}-{name}", folder.to_string_lossy()));
    let mut command = Command::new(name);
    command.args(["-Wall", "-Wextra", "-Werror", "-pedantic", standard, "-I"]);
    command.arg(top().join("include")).args(more);
    command.args(["-x", language]).arg(source);
    command
        .args(["-x", "none", env!("MOVESIG_LIBRARY"), "-o"])
        .arg(&made);
    succeed(&mut command);
    Some(made)
}

fn succeed(command: &mut Command) -> String {
    let output = command.output().expect("it can be run");
    let said =
        [output.stdout, output.stderr].map(|bytes| String::from_utf8_lossy(&bytes).into_owned());
    assert!(output.status.success(), "{command:?}: {said:?}");
    said.concat()
}

#[test]
fn random_notes_under_sanitizers() {
    let source = top().join("rust/movesig/tests/carry.c");
    let sanitized = [
        "-g",
        "-O1",
        "-fno-sanitize-recover=all",
        "-fsanitize=address,undefined",
    ];
    for (name, language, standard, rounds) in [
        ("gcc", "c", "-std=c99", "100000"),
        ("g++", "c++", "-std=c++11", "10000"),
    ] {
        if let Some(program) = compiled(name, language, standard, &sanitized, &source) {
            succeed(Command::new(program).arg(rounds));
        }
    }
}

#[test]
fn example() {
    let file = temporary("carry-example.move");
    fs::write(&file, "1_000 a\n2u16").expect("written");
    let source = top().join("examples/carry.c");
    for (name, language, standard) in [("gcc", "c", "-std=c99"), ("g++", "c++", "-std=c++98")] {
        let Some(program) = compiled(name, language, standard, &[], &source) else {
            continue;
        };
        let output = succeed(
            Command::new(&program)
                .arg(&file)
                .args(["1", "0", "9", "12"]),
        );
        let due = "note 0: 1 -> 0\nnote 1: 0 -> 0\nnote 2: 9 -> 8\nnote 3: 12 -> 12\n";
        assert_eq!(output, due, "{name}");
        let refused = Command::new(&program).arg(&file).args(["1", "2"]).output();
        let refused = refused.expect("it can be run");
        assert_eq!(refused.status.code(), Some(1), "{name}");
        let said = String::from_utf8_lossy(&refused.stdout).into_owned();
        assert_eq!(said, "refused 20: note 1, at offset 2\n", "{name}");
    }
}
