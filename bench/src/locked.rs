//! The original as it is: its locks are the standard library's.
use original;

#[path = "theirs.rs"]
mod theirs;
pub use theirs::Theirs;
