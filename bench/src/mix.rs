//! A second of dragging: 200 events and 30 redraws. A panel is pressed, dragged across the screen and back, and let go,
//! so that the next second finds it where it was. Its program moves it, or drags it.
use crate::call::{Area, Call};

pub const EVENTS: u32 = 200;
pub const REDRAWS: u32 = 30;
/// Where the finger lies in the panel.
const GRIP: u32 = 20;

/// A call that puts a window at a place: a move or a drag.
pub type Go = fn(u32, u32, u32) -> Call;

/// The panel that is dragged, where it lies at first, and how far an event drags it.
pub struct Drag {
    pub id: u32,
    pub start: (u32, u32),
    pub step: (u32, u32),
}

impl Drag {
    pub fn second(&self, go: Go) -> Vec<Call> {
        let mut calls = Vec::new();
        for event in 0..EVENTS {
            if event == 0 {
                self.button(&mut calls, Call::Press, 0x00c0_3020);
            } else if event == EVENTS - 1 {
                self.button(&mut calls, Call::Release, 0x0030_c020);
            } else {
                self.drag(&mut calls, event.min(EVENTS - 2 - event), go);
            }
            if event * REDRAWS / EVENTS != (event + 1) * REDRAWS / EVENTS {
                calls.push(Call::Redraw(false));
            }
        }
        calls
    }

    /// The panel takes the press or the release and shows it.
    fn button(&self, calls: &mut Vec<Call>, what: fn(u32, u32) -> Call, colour: u32) {
        calls.extend([what(self.start.0 + GRIP, self.start.1 + GRIP), Call::Pop(self.id)]);
        calls.extend([Call::Fill(self.id, Area(10, 10, 60, 30), colour), Call::Mark(self.id)]);
    }

    /// The panel reads where the finger went, and goes there.
    fn drag(&self, calls: &mut Vec<Call>, steps: u32, go: Go) {
        let (x, y) = (self.start.0 + steps * self.step.0, self.start.1 + steps * self.step.1);
        calls.extend([Call::Point(x + GRIP, y + GRIP), Call::Pop(self.id), go(self.id, x, y)]);
    }
}
