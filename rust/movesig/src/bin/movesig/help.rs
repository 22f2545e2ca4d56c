//! The text of `--help`, and the manual page and the completions that are made of it.

use movesig::Kind;

const PURPOSE: &str = "reads Move source with the proved signature reader";

const USAGE: [&str; 9] = [
    "movesig [--json] [--edition N] tokens FILE ...",
    "movesig [--json] [--edition N] comments FILE ...",
    "movesig [--json] [--edition N] [--tokens N] outline FILE ...",
    "movesig [--json] [--edition N] read KIND FILE [PLACE] ...",
    "movesig [--json] [--edition N] line KIND FILE [PLACE] ...",
    "movesig [--json] [--edition N] read KIND FILE [PLACE] --save TREEFILE",
    "movesig [--json] carry FILE PLACE ...",
    "movesig [--json] open TREEFILE FILE",
    "movesig help | man | completions",
];

/// A row begins with two blanks: a word, two blanks or more, what it is; more blanks go on with it.
const SECTIONS: [(&str, &str); 8] = [
    (
        "Commands",
        r"
  tokens       each token: its span, its kind and its spelling; the first of a
               line under the line's number
  comments     each doc comment: its span, its place and its text
  outline      each name that struct, fun or const declares: its span, the
               keyword, the name and the first line of its doc comment, the
               last one before it since the last ; { or }
  read         the item as a tree: each record's kind, its span and, for a
               leaf, its spelling, to the right of what it belongs to; then the
               token that follows
  line         the item as one line; the token that follows is told on
               standard error
  carry        each note, a PLACE where a token of edition 1 starts: its byte,
               the byte of the token of edition 2 that covers it, and that
               token's spelling, EOF at the text's end
  open         the tree that was saved in TREEFILE over the text FILE, as read
               shows it
  help         this text
  man          this text as a manual page, in roff
  completions  completions for bash
",
    ),
    (
        "Options",
        r"
  --json         one object a line, for machines: see below
  --edition N    the edition of Move that the files are written in: 1, which it
                 is if left out, or 2, where a number may hold _ behind its
                 first digit and end in u16, u32 and u256 too
  --tokens N     outline reads the files in portions of N tokens, 1 or more,
                 and shows the same; all at once if left out
  --save TREEFILE
                 read saves the bytes of its tree in this file too, where the
                 item is accepted
  -h, --help     this text
  -V, --version  the version
  --             no word behind it is an option
",
    ),
    (
        "Words",
        r"
KIND is name, value, type, binds (a binding list) or lambda (the binding list
of a lambda).

PLACE is where the item is read from: a byte, counted from 0, or LINE:COLUMN,
both counted from 1. It is byte 0 if left out. A word behind FILE that begins
with a digit is its PLACE; a file of such a name is written ./1.

For carry a PLACE is where a note is. There is at least one, in any order, and
at most 256 are carried.

TREEFILE holds the bytes of a tree, narrow or wide. One that read saved opens
over the FILE that it was read from. A file that was there is overwritten.

The FILE - is standard input. With more than one FILE its name stands before
each line.
",
    ),
    (
        "Places",
        r"
Spans count bytes from 0; the byte behind the last is their end. Columns are
counted in characters, a tab as one, and each byte that is part of no UTF-8
character as one.
",
    ),
    (
        "Refusals",
        r"
A refusal is shown on standard error as

  FILE:LINE:COLUMN (byte OFFSET): refused NUMBER: why

and, where the text or the PLACE is at fault, the source line with ^ under the
place and - under the second place, where there is another. Where a token is at
fault it is told with what could have stood there. Long lines are cut around
the place, with ... ; the environment variable COLUMNS, where it is set, says
how wide the screen is.

A line holds bytes from 32 to 126 only. A string with another byte in it has no
line (refusal 18); read shows its tree.

An item is read only from a PLACE at which a token of the file starts or ends,
or from byte 0. Any other is refused (refusal 21): the nearest such bytes
before it and behind it are told, and a note says whether it is inside a token
or a comment.

Notes are carried all or none. Where no token of edition 1 starts at one of
them, or there are more than 256, the first such note is told, counted from 1,
with its byte (refusal 20); what is wrong with the file is told before that.
--edition with carry is bad usage: it names both editions itself.

What is wrong with a saved tree is shown as

  TREEFILE: byte OFFSET: refused NUMBER: why

the OFFSET counting the bytes of the tree, with the bytes of the record's head
below and what they say. No place of the text is marked: the text was not read.
--edition with open is bad usage: it reads no tokens.

&mut without a space behind it is read as it stands, and a note on standard
error says so.
",
    ),
    (
        "What is made visible",
        r"
Letters of all scripts and emoji are shown as they are, a tab of a source line
as four blanks, and what could deceive or disturb a terminal as \x1b or
\u{202e}: controls, characters that turn text round, invisible and unassigned
ones, more than four marks on a letter, and bytes that are not UTF-8. Where
the widths of a line's characters are not certain, the line is shown once more,
with escapes, above the marks. Spellings of more than 100 bytes are cut, and
the comments of an outline where the screen ends, with ... .
Records of a tree are indented up to 136 levels below the first; deeper ones
begin with the number of their level.

Reports are coloured on a terminal, unless NO_COLOR is set.
",
    ),
    (
        "JSON",
        r"
Each object stands on a line of standard output, refusals too. All are ASCII;
bytes that are not UTF-8 become U+FFFD, and the spans tell which they are.

  tokens    file, token (its kind), number, start, end, line, column, text
  comments  file, comment (its text), start, end, line, column, text_start,
            text_end
  outline   file, keyword, number (of its token's kind), name, start, end,
            line, column; where it has a comment: comment (its text),
            comment_start, comment_end
  read      file, item, at, tree, next, notes
  line      file, item, at, shown (the line), next, notes
  carry     file, note (its byte), token (the kind of that which covers it),
            number, start, end, line, column, text; of refusal 20 file,
            refused, reason, index (of the note, from 0) and note
  open      file, saved (the file of the tree), tree; of a damaged one file,
            saved, refused, reason, byte (of the tree) and head (its bytes in
            hex)
  tree      record (its kind), number, start, end, text (of a leaf), children
  next      token, number, start, end, text
  notes     a list of at and note
  refusal   file, item and at (of read and line), refused (its number), reason;
            by the text or its place: start, end, line, column, second (start,
            end, line, column; where it is another place), found (as next) and
            due (a list of words) where a token is at fault, nearest (a list of
            bytes; of 21), notes (of read and line); else limit, of the text or
            of the line, and, where it is known, the text's length
  failure   file, error: it cannot be read, or has no such place
",
    ),
    (
        "Exit status",
        r"
0 accepted, 1 refused, 2 bad usage or a file that cannot be read; the greatest
of several files.
",
    ),
];

pub fn help() -> String {
    let mut text = format!("movesig {PURPOSE}.\n\n");
    for (number, line) in USAGE.iter().enumerate() {
        text += if number == 0 { "usage: " } else { "       " };
        text += line;
        text += "\n";
    }
    for (title, body) in SECTIONS {
        let rows = body.starts_with("\n  ");
        text += &["\n", title, ":", if rows { "" } else { "\n" }, body].concat();
    }
    text
}

/// The manual page: the same text in roff.
pub fn man() -> String {
    let version = env!("CARGO_PKG_VERSION");
    let mut page =
        format!(".TH MOVESIG 1 \"\" \"movesig {version}\"\n.SH NAME\nmovesig \\- {PURPOSE}\n");
    page += ".SH SYNOPSIS\n.nf\n";
    for line in USAGE {
        page += &roff(line);
    }
    page += ".fi\n";
    for (title, body) in SECTIONS {
        page += &[".SH ", &title.to_uppercase(), "\n"].concat();
        for line in body.trim_matches('\n').lines() {
            page += &roff_line(line);
        }
    }
    page
}

/// A row of a list, a line that goes on, or the end of a paragraph.
fn roff_line(line: &str) -> String {
    let row = line
        .strip_prefix("  ")
        .filter(|rest| !rest.starts_with(' '));
    match row.map(|row| row.split_once("  ").unwrap_or((row, ""))) {
        Some((word, rest)) => format!(".TP\n.B {}{}", roff(word), roff(rest.trim_start())),
        None if line.is_empty() => ".PP\n".to_string(),
        None => roff(line.trim_start()),
    }
}

/// A line of text, without what roff would take for its own.
fn roff(line: &str) -> String {
    if line.is_empty() {
        return String::new();
    }
    let line = line.replace('\\', "\\e").replace('-', "\\-");
    let guard = if line.starts_with(['.', '\'']) {
        "\\&"
    } else {
        ""
    };
    format!("{guard}{line}\n")
}

/// Completions for bash.
pub fn completions() -> String {
    let kinds = Kind::ALL.map(Kind::name).join(" ");
    format!(
        r#"# Completions of movesig for bash.
_movesig() {{
    local word=${{COMP_WORDS[COMP_CWORD]}} plain=() other last=
    for other in "${{COMP_WORDS[@]:1:COMP_CWORD-1}}"; do
        [[ $other == --* || $last == --edition || $last == --tokens || $last == --save ]] || plain+=("$other")
        last=$other
    done
    if [[ $last == --edition ]]; then
        mapfile -t COMPREPLY < <(compgen -W '1 2' -- "$word")
    elif [[ $last == --tokens ]]; then
        COMPREPLY=()
    elif [[ $last == --save ]]; then
        compopt -o filenames 2>/dev/null
        mapfile -t COMPREPLY < <(compgen -f -- "$word")
    elif [[ $word == --* ]]; then
        mapfile -t COMPREPLY < <(compgen -W '--json --edition --tokens --save --help --version --' -- "$word")
    elif ((${{#plain[@]}} == 0)); then
        mapfile -t COMPREPLY < <(compgen -W 'tokens comments outline read line carry open help man completions' -- "$word")
    elif ((${{#plain[@]}} == 1)) && [[ ${{plain[0]}} == read || ${{plain[0]}} == line ]]; then
        mapfile -t COMPREPLY < <(compgen -W '{kinds}' -- "$word")
    else
        compopt -o filenames 2>/dev/null
        mapfile -t COMPREPLY < <(compgen -f -- "$word")
    fi
}}
complete -F _movesig movesig
"#
    )
}
