//! The shadow's damage list of one window.
use crate::area::Area;

#[derive(Clone, Copy, PartialEq)]
pub enum Direction {
    Right,
    Left,
    Down,
    Up,
}

/// How an area joins the list.
pub enum Joined {
    Contained,
    Merged(usize, Direction),
    Appended,
}

#[derive(Clone, Default)]
pub struct Damage(Vec<Area>);

impl Damage {
    pub fn set(&mut self, area: Area) {
        self.0.clear();
        self.0.push(area);
    }
    pub fn count(&self) -> usize {
        self.0.len()
    }
    /// Whether a pixel is drawn of a window that is marked: all are where there is no entry.
    pub fn has(&self, x: u32, y: u32) -> bool {
        self.0.is_empty() || self.0.iter().any(|entry| entry.has(x, y))
    }
    pub fn is_full(&self) -> bool {
        self.0.len() == 16
    }
    pub fn join(&self, area: &Area) -> Joined {
        if self.0.iter().any(|entry| entry.holds(area)) {
            return Joined::Contained;
        }
        let merge = |(place, entry)| Some(Joined::Merged(place, direction(entry, area)?));
        self.0.iter().enumerate().find_map(merge).unwrap_or(Joined::Appended)
    }
    pub fn add(&mut self, area: Area) -> Joined {
        let joined = self.join(&area);
        match joined {
            Joined::Contained => {}
            Joined::Merged(place, _) => self.0[place] = self.0[place].union(&area),
            Joined::Appended => self.0.push(area),
        }
        joined
    }
}

/// Where the entry grows if the area merges with it.
fn direction(entry: &Area, area: &Area) -> Option<Direction> {
    let inside = |low: u32, side: u32, high: u32| low < side && side <= high;
    if entry.top == area.top && entry.bottom == area.bottom {
        if inside(entry.left, area.left, entry.right) {
            return Some(Direction::Right);
        }
        if inside(entry.left, area.right, entry.right) {
            return Some(Direction::Left);
        }
    }
    if entry.left == area.left && entry.right == area.right {
        if inside(entry.top, area.top, entry.bottom) {
            return Some(Direction::Down);
        }
        if inside(entry.top, area.bottom, entry.bottom) {
            return Some(Direction::Up);
        }
    }
    None
}
