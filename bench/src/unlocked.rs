//! The original without its locks: its files with plain cells in their place.
use ::unlocked as original;

#[path = "theirs.rs"]
mod theirs;
pub use theirs::Theirs;
