//! What is measured: a list of calls on a scene.
use crate::call::Call;
use crate::plain::Copied;
use crate::scene::Scene;

/// How the name of a cold class ends.
pub const COLD: &str = ", pixels in no cache";

/// Who plays the same calls.
#[derive(Clone, Copy, PartialEq)]
pub enum Beside {
    Original,
    Pixman,
    /// Pixman, with one region of all windows above for a visible list.
    PixmanAtOnce,
    /// A loop over rows in Rust.
    Loops,
    /// Our own library, with an undivided redraw in place of a walk's first portion and nothing in place of the others.
    Undivided,
    /// Our own library, with a move in place of a drag.
    Moved,
    /// A loop over the same rows and the same table in Rust, in place of a dimmed redraw.
    Table,
    /// Our own library, with dimming off.
    Bright,
    /// Our own library, with a visible list in place of a share.
    Listed,
    /// Our own library, with a forced redraw in place of what it makes stale.
    Drawn,
    /// A loop in Rust with the rule of a look in f64.
    Floats,
    /// A loop over event times in Rust, the same as ours.
    OnePass,
    /// A loop in Rust that counts the events of every second anew.
    Square,
}

impl Beside {
    pub fn name(self) -> &'static str {
        match self {
            Beside::Original => "original",
            Beside::Pixman | Beside::PixmanAtOnce => "pixman",
            Beside::Loops | Beside::Table | Beside::Floats | Beside::OnePass | Beside::Square => "Rust",
            Beside::Undivided => "undivided",
            Beside::Moved => "moves",
            Beside::Bright => "dimming off",
            Beside::Listed => "visible list",
            Beside::Drawn => "redraw",
        }
    }
    pub fn is_pixman(self) -> bool {
        self == Beside::Pixman || self == Beside::PixmanAtOnce
    }
}

/// What has to be done at least, as the C library does it.
pub enum Limit {
    None,
    /// `memcpy` of these rows.
    Rows(Copied),
    /// `memcpy` of all visible rows at each redraw.
    Redraws,
    /// `memset` of so many pixels.
    Cleared(u32),
}

pub struct Class {
    pub name: String,
    pub scene: Scene,
    /// The calls whose time is taken.
    pub timed: Vec<Call>,
    /// Calls after which the timed ones find all as it was.
    pub between: Vec<Call>,
    /// The time is divided by this: how often the timed calls do what the name says.
    pub parts: usize,
    pub limit: Limit,
    pub beside: Beside,
    /// Whether each redraw finds its pixels in no cache. Then we are timed alone.
    pub is_cold: bool,
    /// When the original does its share of the work, where it is at another time.
    pub note: &'static str,
}

impl Class {
    pub fn new(name: impl Into<String>, scene: Scene, timed: Vec<Call>) -> Class {
        let parts = calls(&timed);
        let (name, between) = (name.into(), Vec::new());
        let (limit, beside) = (Limit::None, Beside::Original);
        Class { name, scene, timed, between, parts, limit, beside, is_cold: false, note: "" }
    }
    pub fn between(mut self, calls: Vec<Call>) -> Class {
        self.between = calls;
        self
    }
    pub fn parts(mut self, parts: usize) -> Class {
        self.parts = parts;
        self
    }
    pub fn limit(mut self, limit: Limit) -> Class {
        self.limit = limit;
        self
    }
    pub fn beside(mut self, beside: Beside) -> Class {
        self.beside = beside;
        self
    }
    pub fn cold(mut self) -> Class {
        self.is_cold = true;
        self.name += COLD;
        self
    }
    pub fn note(mut self, note: &'static str) -> Class {
        self.note = note;
        self
    }
    /// Whether the time is that of a single call.
    pub fn is_single(&self) -> bool {
        self.parts == calls(&self.timed)
    }
}

fn calls(timed: &[Call]) -> usize {
    timed.iter().map(Call::times).sum()
}
