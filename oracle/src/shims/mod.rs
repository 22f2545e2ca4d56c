//! Stand-ins for what the Rust files lean on and that is not at hand. They hold
//! what they are given and decide nothing.

#[macro_use]
pub mod location;
pub mod diagnostics;
pub mod files;
pub mod shared;
pub mod symbol;

use std::collections::BTreeMap;

/// Doc comments by their span, as in the move-compiler crate.
pub type FileCommentMap = BTreeMap<(u32, u32), String>;

/// Doc comments by the place of what they belong to, as in the move-compiler crate.
pub type MatchedFileCommentMap = BTreeMap<u32, String>;
