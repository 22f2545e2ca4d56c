//! Stands in for `move_command_line_common::files`.

/// Names the file that a place is in. Here there is one file.
#[derive(Debug, Clone, Copy, PartialEq, Eq, PartialOrd, Ord, Hash)]
pub struct FileHash(pub [u8; 32]);

/// The one file.
pub const THE_FILE: FileHash = FileHash([0; 32]);
