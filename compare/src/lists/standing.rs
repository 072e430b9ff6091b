//! What is stale, what waits, and how things stand.
use super::{Maker, Step};

impl Maker<'_> {
    fn length(&mut self) -> u32 {
        self.random.from_to(0, self.scene.side)
    }

    /// Of the whole screen, of a part, or far out; now and then of no call.
    pub fn stale(&mut self) -> Step {
        let which = self.random.pick(&[0, 0, 0, 0, 1, 1, 2, 2, 2, 3]);
        let (w, h) = self.scene.screen;
        let area = match self.random.from_to(0, 9) {
            0..=3 => (0, 0, w, h),
            4 => (0, 0, 32_767, 32_767),
            5 => (self.coordinate(), self.coordinate(), self.length(), self.length()),
            6 => (w, h, self.random.pick(&[0, 1, 32_767, 32_768]), 1),
            _ => (self.random.from_to(0, w), self.random.from_to(0, h), self.length(), self.length()),
        };
        self.say(&format!("stale {which} {} {} {} {}", area.0, area.1, area.2, area.3))
    }

    pub fn waiting(&mut self) -> Step {
        self.say("waiting")
    }

    pub fn window(&mut self) -> Step {
        let id = self.id();
        self.say(&format!("window {id}"))
    }

    pub fn session(&mut self) -> Step {
        self.say("session")
    }
}
