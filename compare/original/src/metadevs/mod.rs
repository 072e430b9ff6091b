//! The original's displays.
#[allow(warnings)]
pub mod video;
