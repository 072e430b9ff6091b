//! Displays and maximising in the shadow: where windows go, the entries of "Not common" that these calls fall under, and what came up.
use crate::area::Area;
use crate::call::Call;
use crate::displays::{is_below_zero, Located};
use crate::entry::Entry;
use crate::places::Places;

/// What came up, for the table.
pub const KINDS: [&str; 10] = [
    "asked, on one display",
    "asked, on several",
    "asked, one is closest",
    "asked, several as close",
    "maximised on a display",
    "maximised on none",
    "updated, maximised, takes the display it has",
    "updated, maximised, takes another",
    "updated, stays on its display",
    "updated, comes to the closest",
];

impl Places {
    /// "Maximising sets a flag"
    pub fn maximise(&mut self, id: usize) {
        self.at[id] = self.displays.taken(&self.at[id]);
        self.maximised[id] = true;
        self.was_maximised[id] = true;
    }

    /// Each window by itself, hidden ones too; "`update_dims` keeps" the flag.
    pub fn update_dims(&mut self) {
        for id in self.in_use() {
            self.at[id] = self.displays.updated(&self.at[id], self.maximised[id]);
        }
    }

    pub fn in_use(&self) -> Vec<usize> {
        (0..16).filter(|&id| self.used[id]).collect()
    }

    /// The size of each window that takes a display, by maximise or by update-dims.
    pub fn sizes_taken(&self, call: &Call) -> Vec<(usize, Area)> {
        let at = |id: usize| self.at[id];
        match *call {
            Call::Maximise(id) => vec![(id as usize, self.displays.taken(&at(id as usize)))],
            Call::UpdateDims => {
                let taking = self.in_use().into_iter().filter(|&id| self.maximised[id]);
                taking.map(|id| (id, self.displays.updated(&at(id), true))).collect()
            }
            _ => Vec::new(),
        }
    }

    /// "The three with no display, such a difference, and `update_dims` with nothing shown are no common ground."
    pub fn dims_entry(&self, call: &Call) -> Option<Entry> {
        if !matches!(call, Call::DisplayAt(..) | Call::Maximise(_) | Call::UpdateDims) {
            return None;
        }
        if self.displays.count() == 0 {
            return Some(Entry::NoDisplay);
        }
        if let Call::UpdateDims = call {
            return self.update_entry();
        }
        None
    }

    fn update_entry(&self) -> Option<Entry> {
        if self.order.is_empty() {
            return Some(Entry::NothingShown);
        }
        let entry = |id: usize| match self.displays.at(self.at[id].left, self.at[id].top) {
            // Nothing in the Rust clears its flag.
            _ if self.was_maximised[id] && !self.maximised[id] => Some(Entry::FlagKept),
            Located::Closest(_) if self.maximised[id] => Some(Entry::MaximisedOff),
            Located::Closest(display) if is_below_zero(&display) => Some(Entry::BelowZero),
            _ => None,
        };
        self.in_use().into_iter().find_map(entry)
    }

    /// Counts an accepted call, before it is followed.
    pub fn count_dims(&self, call: &Call, kinds: &mut [u64; 10]) {
        match *call {
            Call::DisplayAt(x, y) => {
                let several = usize::from(self.displays.candidates(x, y) > 1);
                kinds[several + 2 * self.is_off(x, y)] += 1;
            }
            Call::Maximise(id) => {
                let at = self.at[id as usize];
                kinds[4 + self.is_off(at.left, at.top)] += 1;
            }
            Call::UpdateDims => self.in_use().into_iter().for_each(|id| kinds[self.updated_kind(id)] += 1),
            _ => {}
        }
    }

    fn updated_kind(&self, id: usize) -> usize {
        let at = self.at[id];
        match self.maximised[id] {
            true => 6 + usize::from(self.displays.updated(&at, true) != at),
            false => 8 + self.is_off(at.left, at.top),
        }
    }

    fn is_off(&self, x: u32, y: u32) -> usize {
        usize::from(matches!(self.displays.at(x, y), Located::Closest(_)))
    }
}
