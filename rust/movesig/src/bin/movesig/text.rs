//! The bytes of a file or of standard input, and trees that are saved in files.

use movesig::{tree_room, LONGEST};
use std::{
    ffi::OsStr,
    fs::{self, File},
    io::{self, ErrorKind, Read},
};

/// A text, or as many of its bytes as show that there are too many.
pub struct Text {
    pub bytes: Vec<u8>,
    /// How long it is, if that is known.
    pub length: Option<u64>,
}

/// Of what is too long at most so many bytes are counted.
const COUNTED: u64 = 1 << 24;

/// The text, or why it cannot be read.
pub fn open(file: &OsStr) -> Result<Text, String> {
    open_within(file, LONGEST)
}

/// A saved tree, or why it cannot be read. One that is longer than any tree of a text is not read.
pub fn open_tree(file: &OsStr) -> Result<Vec<u8>, String> {
    let most = tree_room(LONGEST);
    let tree = open_within(file, most)?;
    match tree.bytes.len() > most {
        true => Err(format!(
            "is longer than any tree: {} bytes, of at most {most}",
            tree.length()
        )),
        false => Ok(tree.bytes),
    }
}

/// Saves a tree in the file, which must not be the one that its text is in.
pub fn save(file: &OsStr, text: &OsStr, tree: &[u8]) -> Result<(), String> {
    let same = fs::canonicalize(file)
        .is_ok_and(|file| fs::canonicalize(text).is_ok_and(|text| text == file));
    if same {
        return Err("is the text itself: its tree is saved elsewhere".to_string());
    }
    fs::write(file, tree).map_err(|error| reason(&error, "may not be written"))
}

/// The bytes, or one more than so many.
fn open_within(file: &OsStr, most: usize) -> Result<Text, String> {
    let text = if file == "-" {
        if is_closed() {
            return Err("is closed".to_string());
        }
        read(&mut io::stdin().lock(), None, most)
    } else {
        File::open(file).and_then(|mut file| {
            let about = file.metadata()?;
            let length = about.is_file().then_some(about.len());
            read(&mut file, length, most)
        })
    };
    text.map_err(|error| reason(&error, "may not be read"))
}

fn reason(error: &io::Error, denied: &str) -> String {
    match error.kind() {
        ErrorKind::NotFound => "no such file".to_string(),
        ErrorKind::IsADirectory => "is a directory".to_string(),
        ErrorKind::PermissionDenied => denied.to_string(),
        _ => error.to_string(),
    }
}

fn read(from: &mut impl Read, length: Option<u64>, most: usize) -> io::Result<Text> {
    let mut bytes = vec![];
    from.take(most as u64 + 1).read_to_end(&mut bytes)?;
    let length = match length {
        _ if bytes.len() <= most => Some(bytes.len() as u64),
        Some(length) if length > most as u64 => Some(length),
        _ => {
            let more = io::copy(&mut from.take(COUNTED), &mut io::sink())?;
            (more < COUNTED).then_some(bytes.len() as u64 + more)
        }
    };
    Ok(Text { bytes, length })
}

impl Text {
    /// Its length for people.
    pub fn length(&self) -> String {
        match self.length {
            Some(length) => length.to_string(),
            None => format!("more than {COUNTED}"),
        }
    }
}

/// Whether standard input was closed when the program began. The run-time system then opens the null
/// device in its place, for reading and writing; whoever passes the null device opens it for reading.
fn is_closed() -> bool {
    let null = fs::read_link("/proc/self/fd/0").is_ok_and(|file| file.as_os_str() == "/dev/null");
    let about = fs::read_to_string("/proc/self/fdinfo/0").unwrap_or_default();
    let flags = about.lines().find_map(|line| line.strip_prefix("flags:"));
    let flags = flags.and_then(|flags| u32::from_str_radix(flags.trim(), 8).ok());
    null && flags.is_some_and(|flags| flags & 3 == 2)
}
