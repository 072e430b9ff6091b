// The original's `windows/mod.rs`, and in the same module what reaches its private parts.
include!(concat!(env!("OUT_DIR"), "/windows/mod.rs"));

pub mod group;
