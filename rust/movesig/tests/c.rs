//! The header and the library from C and C++: the examples, random calls between guarded pages
//! under the sanitizers, results that are dropped, texts that are far too long, the room for the tree of a
//! type, the names behind the numbers, and the stack that the calls take. Each needs gcc, g++, clang or
//! clang++, and says so where it is not there.

use movesig::{type_room, CarryRefusal, Damage, Kind, RecordKind, TokenKind, LONGEST};
use std::{
    fs,
    path::{Path, PathBuf},
    process::{Command, Output},
};

fn top() -> PathBuf {
    Path::new(env!("CARGO_MANIFEST_DIR")).join("../..")
}

fn tests() -> PathBuf {
    Path::new(env!("CARGO_MANIFEST_DIR")).join("tests")
}

/// The compiler with the words that all calls of it have; none where it is not here.
fn compiler(name: &str) -> Option<Command> {
    if Command::new(name).arg("--version").output().is_err() {
        eprintln!("{name} is not here: left out");
        return None;
    }
    let mut command = Command::new(name);
    command.args(["-Wall", "-Wextra", "-Werror", "-pedantic", "-I"]);
    command.arg(top().join("include"));
    Some(command)
}

/// Runs it: what it wrote, with both its exit status and its name where it failed.
fn run(command: &mut Command) -> Output {
    let output = command.output().expect("it can be run");
    let said = String::from_utf8_lossy(&output.stderr);
    assert!(output.status.success(), "{command:?}: {said}");
    output
}

/// A program of one source file, read as `language`, and the library.
fn program(name: &str, mut compiler: Command, language: &str, source: &Path) -> PathBuf {
    let made = Path::new(env!("CARGO_TARGET_TMPDIR")).join(name);
    compiler.args(["-x", language]).arg(source);
    compiler.args(["-x", "none", env!("MOVESIG_LIBRARY"), "-o"]);
    run(compiler.arg(&made));
    made
}

#[test]
fn header_alone() {
    let source = Path::new(env!("CARGO_TARGET_TMPDIR")).join("header.c");
    // twice, since a header may be included twice
    fs::write(&source, "#include <movesig.h>\n#include <movesig.h>\n").expect("written");
    for (name, language, standards) in [
        ("gcc", "c", ["-std=c99", "-std=c11", "-std=c17", "-std=c2x"]),
        (
            "g++",
            "c++",
            ["-std=c++98", "-std=c++11", "-std=c++17", "-std=c++20"],
        ),
        (
            "clang",
            "c",
            ["-std=c99", "-std=c11", "-std=c17", "-std=c2x"],
        ),
        (
            "clang++",
            "c++",
            ["-std=c++98", "-std=c++11", "-std=c++17", "-std=c++20"],
        ),
    ] {
        for standard in standards {
            if let Some(mut compiler) = compiler(name) {
                compiler.args([standard, "-fsyntax-only", "-x", language]);
                run(compiler.arg(&source));
            }
        }
    }
}

/// A result that is dropped is warned of, whichever call it is of and however the header says so.
#[test]
fn dropped_results() {
    let calls = [
        "next_token(1, 0, 0, 0, answer)",
        "next_comment(1, 0, 0, 0, answer)",
        "read(3, 1, 0, 0, 0, 0, 0, answer)",
        "display(3, 1, 0, 0, 0, 0, 0, answer)",
        "carry(0, 0, 0, 0, answer)",
        "outline(1, 0, 0, 0, 0, answer + 6, 0, 0, answer)",
        "open(0, 0, 0, 0, answer)",
        "child(0, 0, 0, 0, 0, 0, answer)",
        "opened_child(0, 0, 0, 0, answer)",
    ];
    let source = Path::new(env!("CARGO_TARGET_TMPDIR")).join("dropped.c");
    let write = |before: &str, behind: &str| {
        let calls = calls.map(|call| format!("    {before}movesig_{call}{behind};\n"));
        let calls = calls.concat();
        let code = format!(
            "#include <movesig.h>\nvoid drop(uint64_t *answer);\n\
             void drop(uint64_t *answer)\n{{\n{calls}}}\n"
        );
        fs::write(&source, code).expect("written");
    };
    for (name, language, standard) in [
        ("gcc", "c", "-std=c99"),
        ("gcc", "c", "-std=c2x"),
        ("g++", "c++", "-std=c++98"),
        ("g++", "c++", "-std=c++17"),
        ("clang", "c", "-std=c99"),
        ("clang++", "c++", "-std=c++98"),
        ("clang++", "c++", "-std=c++17"),
    ] {
        // what looks at the results is compiled, what drops them is not
        for (before, behind, dropped) in [("if (", ") {}", 0), ("", "", calls.len())] {
            let Some(mut compiler) = compiler(name) else {
                continue;
            };
            write(before, behind);
            compiler.args([standard, "-c", "-o", "/dev/null", "-x", language]);
            let output = compiler.arg(&source).output().expect("it can be run");
            let said = String::from_utf8_lossy(&output.stderr);
            assert_eq!(
                output.status.success(),
                dropped == 0,
                "{compiler:?}: {said}"
            );
            let warned = said.lines().filter(|line| line.contains("error: ignoring"));
            assert_eq!(warned.count(), dropped, "{compiler:?}: {said}");
        }
    }
}

/// Room for the trees of a text stops at the longest text, so that a file of any length can be asked about;
/// of a text that is too long no byte is looked at.
#[test]
fn huge_texts() {
    let Some(mut compiler) = compiler("gcc") else {
        return;
    };
    let source = Path::new(env!("CARGO_TARGET_TMPDIR")).join("huge.c");
    let code = r#"
        #define _DEFAULT_SOURCE
        #include <movesig.h>
        #include <stdio.h>
        #include <stdlib.h>
        #include <sys/mman.h>
        static uint8_t tree[MOVESIG_TREE_ROOM(SIZE_MAX)];
        static const size_t lengths[] = {MOVESIG_LONGEST + 1, 2000000000, (size_t)1 << 40};
        int main(void)
        {
            size_t index;
            if (sizeof tree != MOVESIG_TREE_ROOM(MOVESIG_LONGEST) || MOVESIG_TREE_ROOM(5) != 214)
                return 1;
            for (index = 0; index < sizeof lengths / sizeof *lengths; index++) {
                size_t len = lengths[index], room = MOVESIG_TREE_ROOM(len), count;
                size_t note = 0;
                uint64_t answer[8][6], pending[3] = {62, 0, 0};
                /* which nobody may read */
                uint8_t *text = mmap(NULL, len, PROT_NONE, MAP_PRIVATE | MAP_ANONYMOUS | MAP_NORESERVE, -1, 0);
                uint8_t *out = malloc(room);
                if (text == MAP_FAILED || out == NULL)
                    return 2;
                if (movesig_next_token(1, text, len, 0, answer[0]) != MOVESIG_TEXT_TOO_LONG ||
                    movesig_next_comment(1, text, len, 0, answer[1]) != MOVESIG_TEXT_TOO_LONG ||
                    movesig_read(3, 1, text, len, 0, out, room, answer[2]) != MOVESIG_TEXT_TOO_LONG ||
                    movesig_display(3, 1, text, len, 0, out, room, answer[3]) != MOVESIG_TEXT_TOO_LONG ||
                    movesig_carry(text, len, &note, 1, answer[4]) != MOVESIG_TEXT_TOO_LONG ||
                    movesig_outline(1, text, len, 0, 9, pending, out, room, answer[5]) != MOVESIG_TEXT_TOO_LONG ||
                    movesig_open(text, len, text, len, answer[6]) != MOVESIG_TEXT_TOO_LONG ||
                    movesig_child(text, len, text, len, 0, 0, answer[7]) != MOVESIG_TEXT_TOO_LONG)
                    return 3;
                for (count = 0; count < 48; count++)
                    if (answer[count / 6][count % 6] != 0)
                        return 4;
                free(out);
                munmap(text, len);
            }
            return 0;
        }"#;
    fs::write(&source, code).expect("written");
    compiler.arg("-std=c99");
    run(&mut Command::new(program("huge", compiler, "c", &source)));
}

/// Room for the tree of a type is the same in C and in the crate, for any arguments; and in C, types that have
/// the most records take all of it, in short texts and in long ones.
#[test]
fn type_rooms() {
    let bytes = [
        0, 1, 2, 3, 4, 5, 6, 7, 255, 4_096, 8_189, 8_190, 8_191, 8_192, 32_768, 65_535, 65_536,
    ];
    let texts = [0, 3, 8_190, 65_534, 65_535, 65_536, LONGEST];
    let huge = [LONGEST + 1, 1 << 32, usize::MAX / 14, usize::MAX];
    let mut pairs = vec![];
    for n in bytes.into_iter().chain([LONGEST]).chain(huge) {
        pairs.extend(texts.into_iter().chain(huge).map(|len| (n, len)));
        if n < LONGEST {
            pairs.push((n, n)); // the type is the text
        }
    }
    let due: Vec<String> = pairs
        .iter()
        .map(|&(n, len)| type_room(n, len).to_string())
        .collect();
    let source = tests().join("type_room.c");
    for (name, language, standard) in [("gcc", "c", "-std=c99"), ("g++", "c++", "-std=c++98")] {
        let Some(mut compiler) = compiler(name) else {
            continue;
        };
        compiler.args([standard, "-O1"]);
        let rooms = program(&format!("type-room-{name}"), compiler, language, &source);
        let words = pairs
            .iter()
            .flat_map(|(n, len)| [n.to_string(), len.to_string()]);
        let output = Command::new(rooms).args(words).output();
        let output = output.expect("it can be run");
        let found = String::from_utf8_lossy(&output.stdout);
        let lines: Vec<&str> = found.lines().collect();
        assert_eq!(output.status.code(), Some(0), "{name}: {:?}", lines.last());
        assert_eq!(lines, due, "{name}");
    }
}

#[test]
fn example() {
    let source = top().join("examples/station.c");
    for (name, language, standard) in [("gcc", "c", "-std=c99"), ("g++", "c++", "-std=c++98")] {
        let Some(mut compiler) = compiler(name) else {
            continue;
        };
        compiler.arg(standard);
        let station = program(&format!("station-{name}"), compiler, language, &source);
        for (file, status) in [("coin", 0), ("damaged", 1)] {
            let output = Command::new(&station)
                .arg(format!("{file}.move"))
                .current_dir(top().join("examples"))
                .output()
                .expect("the example can be run");
            let expected = top().join(format!("examples/{file}.expected"));
            let expected = fs::read_to_string(expected).expect("what is expected");
            assert_eq!(String::from_utf8_lossy(&output.stdout), expected, "{name}");
            assert_eq!(output.status.code(), Some(status), "{name}: {file}");
        }
    }
}

/// The example that shows the bytes of a tree, on both sides of where it becomes wide.
#[test]
fn tree_example() {
    let source = top().join("examples/tree.c");
    for (name, language, standard) in [("gcc", "c", "-std=c99"), ("g++", "c++", "-std=c++98")] {
        let Some(mut compiler) = compiler(name) else {
            continue;
        };
        compiler.arg(standard);
        let tree = program(&format!("tree-{name}"), compiler, language, &source);
        let narrow = [
            "   0   10 00 0a 00 00 00 01 00",
            "   8   08 00 03 00 00 00 01 00",
        ];
        let wide = [
            "   0   04 00 63 00",
            "   4   1c 00 00 00 0a 00 00 00 00 00 01 00 00 00",
            "  18   0e 00 00 00 03 00 00 00 00 00 01 00 00 00",
        ];
        for (blanks, shown) in [(65_534, &narrow[..]), (65_535, &wide)] {
            let file = Path::new(env!("CARGO_TARGET_TMPDIR")).join(format!("tree-{name}.move"));
            fs::write(&file, format!("a{}", " ".repeat(blanks))).expect("written");
            let input = fs::File::open(&file).expect("it is there");
            let output = run(Command::new(&tree).stdin(input));
            let output = String::from_utf8_lossy(&output.stdout).into_owned();
            assert_eq!(output.lines().collect::<Vec<_>>(), shown, "{name}");
        }
    }
}

#[test]
fn random_calls_under_sanitizers() {
    for (name, language, standard, rounds) in [
        ("gcc", "c", "-std=c99", "150000"),
        ("g++", "c++", "-std=c++11", "10000"),
    ] {
        let Some(mut compiler) = compiler(name) else {
            continue;
        };
        compiler.args([standard, "-g", "-O1", "-fno-sanitize-recover=all"]);
        compiler.arg("-fsanitize=address,undefined");
        let source = tests().join("boundary.c");
        let program = program(&format!("boundary-{name}"), compiler, language, &source);
        run(Command::new(program).arg(rounds));
    }
}

/// The names in C are those of the crate.
#[test]
fn names() {
    let Some(mut compiler) = compiler("gcc") else {
        return;
    };
    let source = Path::new(env!("CARGO_TARGET_TMPDIR")).join("names.c");
    let code = r#"
        #include <movesig.h>
        #include <stdio.h>
        int main(void)
        {
            unsigned number;
            printf("%d %d\n", movesig_version() == MOVESIG_VERSION && MOVESIG_VERSION_SYMBOL == MOVESIG_VERSION,
                   MOVESIG_STACK);
            for (number = 0; number < 300; number++)
                printf("%s; %s; %s; %s\n", movesig_reason(number), movesig_item_name(number),
                       movesig_record_name(number), movesig_token_name(number));
            return 0;
        }"#;
    fs::write(&source, code).expect("written");
    compiler.arg("-std=c99");
    let output = run(&mut Command::new(program("names", compiler, "c", &source)));
    let output = String::from_utf8(output.stdout).expect("UTF-8");
    let mut lines = output.lines();
    assert_eq!(lines.next(), Some(&*format!("1 {}", movesig::STACK)));
    // the crate's reasons stand in the order of their numbers
    let reasons = include_str!("../src/refusal.rs").lines();
    let reasons = reasons.filter_map(|line| line.trim().strip_suffix("\","));
    let reasons: Vec<&str> = reasons
        .filter_map(|line| line.split("=> \"").nth(1))
        .collect();
    for (number, line) in lines.enumerate() {
        let kind = Kind::ALL.iter().find(|kind| kind.number() == number as u64);
        let records = RecordKind::ALL.iter();
        let record = records
            .clone()
            .find(|kind| usize::from(kind.number()) == number);
        let token = u8::try_from(number).ok().and_then(TokenKind::from_number);
        let names = [
            kind.map_or("unknown", |kind| kind.name()),
            record.map_or("unknown", |kind| kind.name()),
            token.map_or("unknown", TokenKind::name),
        ];
        let (reason, others) = line.split_once("; ").expect("four names");
        assert_eq!(others, names.join("; "));
        match number {
            0 => assert_eq!(reason, "accepted"),
            1..=14 => assert_eq!(reason, reasons[number - 1]),
            15 => assert_eq!(reason, Damage::RecordUnfit { record: 0 }.reason()),
            16 => assert_eq!(reason, Damage::NoRecordKind { record: 0 }.reason()),
            17 => assert_eq!(reason, Damage::NotAllowed { record: 0 }.reason()),
            18 => assert_eq!(reason, reasons[14]),
            19 => assert_eq!(reason, reasons[15]),
            20 => assert_eq!(reason, CarryRefusal::Note { index: 0 }.reason()),
            21 => assert_eq!(reason, reasons[16]),
            _ => assert_eq!(reason, "unknown"),
        }
    }
}

#[test]
fn stack() {
    let Some(mut compiler) = compiler("gcc") else {
        return;
    };
    compiler.args(["-std=c11", "-O1", "-pthread"]);
    let program = program("stack", compiler, "c", &tests().join("stack.c"));
    let output = Command::new(program).output().expect("it can be run");
    let said = String::from_utf8_lossy(&output.stdout);
    assert!(output.status.success(), "{said}");
}
