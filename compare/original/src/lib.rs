//! The original's window group, compiled from its own files, with stand-ins for what they lean on.
//!
//! The original is two crates, `kernel` and `gui`. Here it is one, which is also known to itself as `kernel`.
//!
//! The package `unlocked` builds the same files without locks, by the stand-ins of the folder `unlocked`.
#[cfg(not(feature = "unlocked"))]
extern crate core;
extern crate self as kernel;

#[cfg(feature = "unlocked")]
#[path = "unlocked/core.rs"]
mod core;

#[macro_use]
mod macros;

pub mod arch;
pub mod embedded_images;
pub mod futures;
pub mod input;
pub mod metadevs;
#[cfg_attr(feature = "unlocked", path = "unlocked/sync.rs")]
pub mod sync;
pub mod threads;
pub mod user_async;
#[allow(warnings)]
pub mod windows;

pub use metadevs::video::{Dims, Pos, Rect};

pub mod lib {
    mod lazy;
    pub mod mem;
    pub mod ring_buffer;
    pub mod sparse_vec;

    pub use self::lazy::LazyStatic;
}

pub mod prelude {
    pub use std::any::Any;
}

/// A pixel.
#[derive(Clone, Copy)]
pub struct Colour(pub u32);

impl Colour {
    pub fn as_argb32(&self) -> u32 {
        self.0
    }
}
