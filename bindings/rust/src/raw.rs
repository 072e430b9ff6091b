//! The functions and structs of roqshyn.h, by its names without `Roq`: build/header.rs writes them.
use crate::rect::{Pos, Rect};
use core::mem::size_of;

include!(concat!(env!("OUT_DIR"), "/raw.rs"));

impl Session {
    pub const ZEROS: Session = Session { words: [0; size_of::<Session>() / 8] };
}
