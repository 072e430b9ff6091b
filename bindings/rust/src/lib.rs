//! The window group of railway control panels for Rust, over the proved archive `libroqshyn.a`.
//!
//! A [`Session`] comes from [`Session::start`] and from nowhere else. The caller owns the store and the screen and lends them to each call; what a
//! call hands back of them, as the list of [`Session::visible`], is a part of what was lent. A call answers `Ok`, or the question of document 01 or
//! 02 that it answered with a no, as an [`Error`]; it has changed nothing then. Nothing is allocated, nothing is kept.
//!
//! When the screen is right, in which order events come, what a move and a release are: all that `roqshyn.h` says at its top holds here.
//!
//! ```
//! use roqshyn::{Error, Event, Pos, Rect, Session};
//!
//! let mut store = vec![0; 16 * 1000];
//! let mut screen = vec![0; 80 * 48];
//! let mut session = Session::start(1000)?;
//! let panel = session.create()?;
//! session.resize(panel, 40, 25, &mut store)?;
//! session.move_window(panel, 10, 10)?;
//! session.fill(panel, Rect::new(0, 0, 40, 25), 0x28_5a96, &mut store)?;
//! session.show(panel)?;
//! session.redraw(false, 80, 48, &store, &mut screen)?;
//! assert_eq!(screen[10 * 80 + 10], 0x28_5a96);
//!
//! session.route(Event::MouseDown { at: Pos::new(15, 20), button: 1 })?;
//! assert_eq!(session.pop(panel)?, Event::Resize);
//! assert_eq!(session.pop(panel)?, Event::MouseDown { at: Pos::new(5, 10), button: 1 });
//! assert_eq!(session.pop(panel), Err(Error::NoEvent));
//! # Ok::<(), Error>(())
//! ```
//!
//! No session can be made by hand, and none is copied: who makes calls on a copy would be somebody else who writes the store.
//!
//! ```compile_fail,E0423
//! let session = roqshyn::Session([0; 1]);
//! ```
//! ```compile_fail,E0599
//! let copy = roqshyn::Session::start(1).unwrap().clone();
//! ```
//!
//! What is handed back lives no longer than what was lent.
//!
//! ```compile_fail,E0505
//! let pixels = vec![0; 64];
//! let line = roqshyn::scanline(&pixels, 8, 8, 1, 0, 8).unwrap();
//! drop(pixels);
//! assert_eq!(line.len(), 8);
//! ```
#![no_std]

mod error;
mod event;
mod id;
mod pixels;
mod raw;
mod rect;
mod session;
mod sheet;
mod times;
mod version;

pub use error::Error;
pub use event::Event;
pub use id::Id;
pub use pixels::{fill_scanline, region, region_mut, scanline, scanline_mut, set_scanline};
pub use rect::{Dims, Pieces, Pos, Rect};
pub use session::{
    Hit, Located, Look, Meant, Session, SessionState, Share, Walk, WindowState, Zoom, MOST_DISPLAYS, MOST_POINTS,
    MOST_RECTS, MOST_SHEET, WINDOWS,
};
pub use sheet::{read_sheet, MOST_READ};
pub use times::{busiest, Second};
pub use version::version;
