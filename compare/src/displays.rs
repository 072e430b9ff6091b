//! The shadow's displays, and where windows go by them, in the words of document 02, N2.
use crate::area::Area;

/// What stays visible at least of a window that comes to the closest display.
const LEAST: u32 = 20;

/// The display that a position is on, or else the closest one.
#[derive(Clone, Copy)]
pub enum Located {
    On(Area),
    Closest(Area),
}

/// "up to eight in order of adding"
#[derive(Clone, Default)]
pub struct Displays(Vec<Area>);

impl Displays {
    pub fn add(&mut self, display: Area) {
        self.0.push(display);
    }
    pub fn count(&self) -> usize {
        self.0.len()
    }
    pub fn all(&self) -> &[Area] {
        &self.0
    }

    /// "An off-screen position gives the display holding the point nearest in a straight line, the first on ties, or (0,0,0,0) with no display"
    pub fn at(&self, x: u32, y: u32) -> Located {
        if let Some(display) = self.0.iter().find(|display| display.has(x, y)) {
            return Located::On(*display);
        }
        // Of several that are as near it gives the first.
        let nearest = self.0.iter().min_by_key(|display| away(display, x, y));
        Located::Closest(nearest.copied().unwrap_or_default())
    }

    /// How many displays a position is on, or else how many are as near as the nearest.
    pub fn candidates(&self, x: u32, y: u32) -> usize {
        let least = self.0.iter().map(|display| away(display, x, y)).min();
        self.0.iter().filter(|display| Some(away(display, x, y)) == least).count()
    }

    /// What a window takes that is maximised: "(0,0,0,0) … as in the Rust" where it is on no display.
    pub fn taken(&self, window: &Area) -> Area {
        match self.at(window.left, window.top) {
            Located::On(display) => display,
            Located::Closest(_) => Area::default(),
        }
    }

    /// Where `update_dims` puts a window: "a maximised window takes the display answered", and another that is on none comes to the closest.
    pub fn updated(&self, window: &Area, is_maximised: bool) -> Area {
        match self.at(window.left, window.top) {
            Located::On(display) | Located::Closest(display) if is_maximised => display,
            Located::On(_) => *window,
            Located::Closest(display) => {
                let x = warped(display.left, display.right, window.left);
                let y = warped(display.top, display.bottom, window.top);
                Area::new(x, y, window.w(), window.h())
            }
        }
    }
}

/// "A difference below 0 in the 20 pixel rule" would be the Rust's.
pub fn is_below_zero(display: &Area) -> bool {
    display.right < LEAST || display.bottom < LEAST
}

/// "A difference below 0 in the 20 pixel rule counts as 0."
fn warped(from: u32, to: u32, number: u32) -> u32 {
    number.min(to.saturating_sub(LEAST)).max(from)
}

/// The square of the distance to the nearest pixel of a display; 0 on it.
fn away(display: &Area, x: u32, y: u32) -> u64 {
    let along =
        |from: u32, to: u32, number: u32| u64::from(from.saturating_sub(number).max((number + 1).saturating_sub(to)));
    let (across, down) = (along(display.left, display.right, x), along(display.top, display.bottom, y));
    across * across + down * down
}
