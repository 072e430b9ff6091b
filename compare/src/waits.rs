//! The shadow's events: how many wait in each window's queue, and whether a move is unread.
use original::input::Event;

#[derive(Clone, Default)]
pub struct Waits {
    queued: [u32; 16],
    moved: [bool; 16],
}

impl Waits {
    pub fn create(&mut self, id: usize) {
        (self.queued[id], self.moved[id]) = (0, false);
    }

    /// "dropped if the queue is full"
    pub fn queue(&mut self, id: usize) {
        self.queued[id] = 16.min(self.queued[id] + 1);
    }

    /// An event that the window took.
    pub fn took(&mut self, event: &Event, id: usize) {
        match *event {
            Event::MouseMove(..) => self.moved[id] = true,
            _ => self.queue(id),
        }
    }

    /// "Pop: the queue first, then an unread move"
    pub fn pop(&mut self, id: usize) {
        match self.queued[id] {
            0 => self.moved[id] = false,
            count => self.queued[id] = count - 1,
        }
    }

    /// How many events are queued, and whether a move is unread, 0 or 1.
    pub fn of(&self, id: usize) -> [u32; 2] {
        [self.queued[id], self.moved[id].into()]
    }

    /// "a number whose bit i is set exactly when a pop of window i would answer 0"
    pub fn bits(&self, used: &[bool; 16]) -> u32 {
        let waits = |id: &usize| used[*id] && (self.queued[*id] > 0 || self.moved[*id]);
        (0..16).filter(waits).map(|id| 1 << id).sum()
    }
}
