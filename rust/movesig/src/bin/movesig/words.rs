//! The words of the command line.

use crate::{
    carry::Carry,
    job::{Job, Place, Work},
    open::Open,
    visible,
};
use movesig::{Edition, Kind};
use std::{
    ffi::{OsStr, OsString},
    mem,
};

/// What is asked for.
pub enum Asked {
    Help,
    Man,
    Completions,
    Version,
    Jobs(Vec<Job>),
    Carry(Carry),
    Open(Open),
}

/// The words of the command line: what its options say, and the words that are none.
#[derive(Default)]
struct Words {
    /// What an option asks for, whatever stands behind it.
    told: Option<Asked>,
    json: bool,
    edition: Option<Edition>,
    tokens: Option<usize>,
    save: Option<OsString>,
    plain: Vec<OsString>,
}

/// What the words ask for, or what is wrong with them.
pub fn asked(words: impl Iterator<Item = OsString>) -> Result<Asked, String> {
    let mut words = sorted(words)?;
    match words.told.take() {
        Some(told) => Ok(told),
        None => asked_by_command(words),
    }
}

fn sorted(mut words: impl Iterator<Item = OsString>) -> Result<Words, String> {
    let mut sorted = Words::default();
    let mut options = true;
    while let Some(word) = words.next() {
        match word.to_str().filter(|_| options) {
            Some("--") => options = false,
            Some("--help" | "-h") => return Ok(sorted.telling(Asked::Help)),
            Some("--version" | "-V") => return Ok(sorted.telling(Asked::Version)),
            Some("--json") => sorted.json = true,
            Some("--edition") => sorted.edition = Some(edition_of(words.next())?),
            Some("--tokens") => sorted.tokens = Some(tokens_of(words.next())?),
            Some("--save") => sorted.save = Some(tree_file(words.next())?),
            Some(name) if is_option(name) => {
                return Err(format!("no such option: {}", shown(&word)));
            }
            _ => sorted.plain.push(word),
        }
    }
    Ok(sorted)
}

impl Words {
    fn telling(self, asked: Asked) -> Words {
        Words {
            told: Some(asked),
            ..self
        }
    }
}

/// What the first word that is no option asks for.
fn asked_by_command(mut asked: Words) -> Result<Asked, String> {
    let mut words = mem::take(&mut asked.plain).into_iter();
    let command = words.next().ok_or("no command is given")?;
    if asked.tokens.is_some() && command != "outline" {
        return Err("--tokens goes with outline alone".to_string());
    }
    if asked.save.is_some() && command != "read" {
        return Err("--save goes with read alone".to_string());
    }
    let (edition, json) = (asked.edition, asked.json);
    let work = match command.to_str() {
        Some("tokens") => Work::Tokens,
        Some("comments") => Work::Comments,
        Some("outline") => Work::Outline(asked.tokens.unwrap_or(usize::MAX)),
        Some("read") => Work::Read(kind(words.next())?),
        Some("line") => Work::Line(kind(words.next())?),
        Some("carry") => return Ok(Asked::Carry(carried(words, edition, json)?)),
        Some("open") => return Ok(Asked::Open(opened(words, edition, json)?)),
        Some("help") => return Ok(Asked::Help),
        Some("man") => return Ok(Asked::Man),
        Some("completions") => return Ok(Asked::Completions),
        _ => return Err(format!("no such command: {}", shown(&command))),
    };
    let files = files(words, matches!(work, Work::Read(_) | Work::Line(_)))?;
    jobs(work, files, asked)
}

/// The same work on each file.
fn jobs(work: Work, files: Vec<(OsString, Place)>, asked: Words) -> Result<Asked, String> {
    let several = files.len() > 1;
    if several && asked.save.is_some() {
        return Err("--save goes with one file".to_string());
    }
    let job = |(file, place)| Job {
        work,
        edition: asked.edition.unwrap_or(Edition::One),
        file,
        place,
        save: asked.save.clone(),
        json: asked.json,
        several,
    };
    Ok(Asked::Jobs(files.into_iter().map(job).collect()))
}

/// A word such as `-1` is a place, and a wrong one.
fn is_option(word: &str) -> bool {
    let rest = word.strip_prefix('-').unwrap_or_default();
    !rest.is_empty() && !rest.starts_with(|first: char| first.is_ascii_digit())
}

/// The files, each with the place behind it.
fn files(
    words: impl Iterator<Item = OsString>,
    placed: bool,
) -> Result<Vec<(OsString, Place)>, String> {
    let mut files: Vec<(OsString, Place)> = vec![];
    let mut expected = false;
    for word in words {
        if placed && is_like_a_place(&word) {
            let place = place(&word)?;
            match files.last_mut() {
                Some((_, at)) if expected => *at = place,
                Some(_) => return Err(format!("one place too many: {}", shown(&word))),
                None => return Err(format!("a place before its file: {}", shown(&word))),
            }
            expected = false;
        } else {
            files.push((word, Place::Byte(0)));
            expected = true;
        }
    }
    if files.is_empty() {
        return Err("no file is given".to_string());
    }
    Ok(files)
}

/// The file whose notes are carried, and the notes.
fn carried(
    mut words: impl Iterator<Item = OsString>,
    edition: Option<Edition>,
    json: bool,
) -> Result<Carry, String> {
    if edition.is_some() {
        return Err("carry takes no edition: it goes from edition 1 to edition 2".to_string());
    }
    let file = words.next().ok_or("no file is given")?;
    if is_like_a_place(&file) {
        return Err(format!("a place before its file: {}", shown(&file)));
    }
    let notes: Result<Vec<Place>, String> = words.map(|word| place(&word)).collect();
    let notes = notes?;
    if notes.is_empty() {
        return Err("no note is given: a place of the file".to_string());
    }
    let job = Job {
        work: Work::Tokens,
        edition: Edition::One,
        file,
        place: Place::Byte(0),
        save: None,
        json,
        several: false,
    };
    Ok(Carry { job, notes })
}

/// The file that a tree was saved in, and that of its text.
fn opened(
    mut words: impl Iterator<Item = OsString>,
    edition: Option<Edition>,
    json: bool,
) -> Result<Open, String> {
    if edition.is_some() {
        return Err("open takes no edition: it reads no tokens".to_string());
    }
    let tree = words.next().ok_or("no file of a tree is given")?;
    let file = words.next().ok_or("no file is given")?;
    if let Some(more) = words.next() {
        return Err(format!("one word too many: {}", shown(&more)));
    }
    if tree == "-" && file == "-" {
        return Err("standard input is either the tree or the text".to_string());
    }
    Ok(Open { tree, file, json })
}

/// The file that the word behind `--save` names.
fn tree_file(word: Option<OsString>) -> Result<OsString, String> {
    let word = word.ok_or("no file is given to save the tree in")?;
    match word == "-" {
        true => Err("a tree is saved in a file, not in -".to_string()),
        false => Ok(word),
    }
}

fn is_like_a_place(word: &OsStr) -> bool {
    let word = word.as_encoded_bytes();
    let sign = word.first().is_some_and(|byte| b"+-:".contains(byte));
    let first = word.get(usize::from(sign));
    word.is_empty() || first.is_some_and(u8::is_ascii_digit)
}

/// The edition that the word behind `--edition` names.
fn edition_of(word: Option<OsString>) -> Result<Edition, String> {
    let word = word.ok_or("no edition is given: 1 or 2")?;
    match word.to_str() {
        Some("1") => Ok(Edition::One),
        Some("2") => Ok(Edition::Two),
        _ => Err(format!("no such edition: {}: it is 1 or 2", shown(&word))),
    }
}

/// How many tokens a portion has, by the word behind `--tokens`.
fn tokens_of(word: Option<OsString>) -> Result<usize, String> {
    let word = word.ok_or("no number of tokens is given")?;
    match number(word.as_encoded_bytes()) {
        Some(tokens @ 1..) => Ok(tokens),
        _ => Err(format!(
            "not a number of tokens: {}: it is 1 or more",
            shown(&word)
        )),
    }
}

fn kind(word: Option<OsString>) -> Result<Kind, String> {
    const KINDS: &str = "name, value, type, binds or lambda";
    let word = word.ok_or_else(|| format!("no kind is given: {KINDS}"))?;
    let named = word.to_str().and_then(Kind::from_name);
    named.ok_or_else(|| format!("no such kind: {}: it is {KINDS}", shown(&word)))
}

fn place(word: &OsStr) -> Result<Place, String> {
    let bytes = word.as_encoded_bytes();
    let colon = bytes.iter().position(|&byte| byte == b':');
    let place = match colon.map(|at| (&bytes[..at], &bytes[at + 1..])) {
        None => number(bytes).map(Place::Byte),
        Some((line, column)) => match (number(line), number(column)) {
            (Some(line @ 1..), Some(column @ 1..)) => Some(Place::LineColumn(line, column)),
            _ => None,
        },
    };
    place.ok_or_else(|| {
        let rule = "a byte, counted from 0, or LINE:COLUMN, both from 1";
        format!("not a place: {}: it is {rule}", shown(word))
    })
}

/// A decimal number. One that is too long to be stored is past the end of every text, and so
/// is the greatest that can be.
fn number(digits: &[u8]) -> Option<usize> {
    let all_digits = !digits.is_empty() && digits.iter().all(u8::is_ascii_digit);
    all_digits.then(|| {
        digits.iter().fold(0, |sum: usize, digit| {
            sum.saturating_mul(10).saturating_add((digit - b'0').into())
        })
    })
}

/// A word of the command line, safe to show.
fn shown(word: &OsStr) -> String {
    visible::cut(word.as_encoded_bytes(), 4_096)
}
