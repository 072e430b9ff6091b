//! Lines that show the state, so that it is compared.
use super::{Maker, Step};

impl Maker<'_> {
    pub fn screen(&mut self) -> Step {
        let (w, h) = self.scene.screen;
        self.say(&format!("screen {w} {h}"))
    }

    /// A part of the state.
    pub fn look(&mut self) -> Step {
        let id = self.id();
        match self.random.from_to(0, 9) {
            0..=4 => self.visible(id),
            5..=6 if self.scene.c < 1000 => self.say(&format!("pixels {id}")),
            7 if self.scene.c < 1000 => self.screen(),
            _ => self.say("focus"),
        }
    }

    fn visible(&mut self, id: u32) -> Step {
        let before = self.script.answers.0.len();
        self.say(&format!("visible {id}"))?;
        let numbers = self.script.answers.0[before..].iter().filter(|&&byte| byte == b' ').count();
        self.tally.at_most("rectangles in a visible list", numbers.saturating_sub(1) / 4);
        self.tally.at_most("windows shown", self.script.player.shadow.places.order.len());
        Ok(())
    }

    pub fn share(&mut self) -> Step {
        let id = self.id();
        self.say(&format!("share {id}"))
    }

    /// All of it: how things stand, lists, pixels, events, focus and screen.
    pub fn whole_state(&mut self) -> Step {
        self.say("focus")?;
        self.say("session")?;
        self.say("waiting")?;
        for id in 0..16 {
            if !self.script.player.shadow.places.used[id as usize] {
                continue;
            }
            self.say(&format!("window {id}"))?;
            self.visible(id)?;
            self.say(&format!("pixels {id}"))?;
            self.pop_all(id)?;
        }
        let (w, h) = self.scene.screen;
        self.say(&format!("stale 0 0 0 {w} {h}"))?;
        self.say(&format!("redraw 0 {w} {h}"))?;
        self.screen()
    }

    fn pop_all(&mut self, id: u32) -> Step {
        for _ in 0..18 {
            self.say(&format!("pop {id}"))?;
            if self.script.answers.0.ends_with(b"\n10\n") {
                break;
            }
        }
        Ok(())
    }
}
