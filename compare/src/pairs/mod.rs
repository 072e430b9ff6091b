//! Random sessions, and for each two lists of fills, blits and marks, one on each of two windows.
mod look;
mod session;
mod writes;

use crate::call::{read, Line};
use crate::places::Places;
use crate::random::Random;
use std::ops::Range;

/// Lines of a script, each of which gets one answer: those that make the session, one list, the other list, and those that show what
/// the lists left.
pub struct Pair {
    pub lines: Vec<String>,
    /// The places of each list's calls in `lines`.
    pub lists: [Range<usize>; 2],
    pub ids: [u32; 2],
    /// The places of the lines that show the screen before and after the first drawing that follows the lists.
    pub screens: [usize; 2],
    /// Where the windows are while the lists are played.
    pub windows: Places,
}

struct Maker<'a> {
    random: &'a mut Random,
    c: u32,
    screen: (u32, u32),
    colours: u32,
    /// A redraw was begun and has windows left to draw.
    is_walking: bool,
    lines: Vec<String>,
    windows: Places,
}

/// Something that is done to a window.
type Action<'a> = fn(&mut Maker<'a>, u32);

impl Pair {
    pub fn random(random: &mut Random) -> Pair {
        let mut maker = Maker::new(random);
        maker.session();
        let ids = maker.ids();
        maker.lend();
        let lists = ids.map(|id| maker.list(id));
        let screens = maker.look();
        Pair { lines: maker.lines, lists, ids, screens, windows: maker.windows }
    }
}

impl<'a> Maker<'a> {
    fn new(random: &'a mut Random) -> Maker<'a> {
        let c = random.from_to(1, 60).max(random.from_to(1, 60));
        let screen = (random.from_to(4, 12), random.from_to(3, 8));
        Maker { random, c, screen, colours: 0, is_walking: false, lines: Vec::new(), windows: Places::default() }
    }

    /// No call that changes where windows are is refused, so that `windows` can follow.
    fn say(&mut self, line: &str) {
        if let Line::Call(call) = read(line.as_bytes()) {
            self.windows = self.windows.after(&call).unwrap_or_else(|| self.windows.clone());
        }
        self.lines.push(line.to_string());
    }

    fn used(&self) -> Vec<u32> {
        (0..16).filter(|&id| self.windows.used[id as usize]).collect()
    }

    fn ids(&mut self) -> [u32; 2] {
        let one = self.id();
        loop {
            let other = self.id();
            if other != one {
                return [one, other];
            }
        }
    }

    /// Mostly of a window in use.
    fn id(&mut self) -> u32 {
        let used = self.used();
        match self.random.from_to(0, 29) {
            0 => self.random.pick(&[3, 15, 16, 65_536, 4_294_967_295]),
            _ if used.len() < 2 => self.random.from_to(0, 3),
            _ => self.random.pick(&used),
        }
    }

    /// At times the store has a wrong length while the lists are played.
    fn lend(&mut self) {
        let right = 16 * self.c;
        if self.random.chance(60) {
            let wrong = self.random.pick(&[0, right - 1, right + 1, 2 * right]);
            self.say(&format!("lend {wrong}"));
        }
    }

    fn list(&mut self, id: u32) -> Range<usize> {
        let start = self.lines.len();
        for _ in 0..self.random.weighted(&[(1, 0), (3, 1), (4, 2), (4, 3), (3, 4)]) {
            self.write(id);
        }
        start..self.lines.len()
    }
}
