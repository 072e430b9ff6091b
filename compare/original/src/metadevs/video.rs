// The original's `video/mod.rs`, and in the same module what reaches its private parts.
include!(concat!(env!("OUT_DIR"), "/video/mod.rs"));

pub mod lent;
