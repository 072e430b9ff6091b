//! Pixman's regions, and its compositing of pixels that a region clips.
mod functions;
mod picture;
mod region;

pub use picture::Picture;
pub use region::{Box32, Region};

/// Nothing else of this crate may be called where it is false.
pub const INSTALLED: bool = cfg!(pixman);
