//! Displays added and asked for, and windows maximised on them and updated.
use super::{Maker, Step};
use crate::area::Area;

impl Maker<'_> {
    /// Some displays, which may lie on one another.
    pub fn displays(&mut self) -> Step {
        for _ in 0..self.random.pick(&[1, 1, 2, 2, 3, 8]) {
            self.display()?;
        }
        Ok(())
    }

    /// Mostly a display that a window of C pixels fills at most, and that ends at 20 or beyond.
    pub fn display(&mut self) -> Step {
        let (w, h) = self.display_size();
        let (x, y) = (self.beginning(w), self.beginning(h));
        // The last place, and the first that is too far out.
        let end = self.random.pick(&[32_767u32, 32_768]);
        match self.random.from_to(0, 59) {
            0 => self.say(&format!("display {x} {y} 0 {h}")),
            1 => self.say(&format!("display {x} {y} {w} 0")),
            2 => self.say(&format!("display {x} {} {w} {h}", end.saturating_sub(h))),
            3 => self.say(&format!("display {} {y} {w} {h}", end.saturating_sub(w))),
            4 => self.say(&format!("display {x} {end} {w} {h}")),
            5 => self.say(&format!("display 0 0 {} {}", self.scene.screen.0, self.scene.screen.1)),
            6..=14 => self.display_beside(w, h),
            _ => self.say(&format!("display {x} {y} {w} {h}")),
        }
    }

    fn display_size(&mut self) -> (u32, u32) {
        let w = self.random.from_to(1, self.scene.side.min(self.scene.c).max(1));
        let h = self.random.from_to(1, (self.scene.c / w).clamp(1, self.scene.side.max(2)));
        match self.random.chance(100) {
            true => (w + self.random.from_to(0, 40), h + self.random.from_to(0, 40)),
            false => (w, h),
        }
    }

    fn beginning(&mut self, size: u32) -> u32 {
        let least = match self.random.chance(700) {
            true => 20u32.saturating_sub(size),
            false => 0,
        };
        (least + self.random.from_to(0, self.scene.span)).min(32_767 - size.min(32_767))
    }

    /// At the right end of the last one or under it, one pixel apart, or over its corner.
    fn display_beside(&mut self, w: u32, h: u32) -> Step {
        let Some(&last) = self.script.player.shadow.places.displays.all().last() else { return Ok(()) };
        let gap = self.random.from_to(0, 2);
        let (x, y) = match self.random.from_to(0, 2) {
            0 => (last.right + gap, last.top),
            1 => (last.left, last.bottom + gap),
            _ => (last.right.saturating_sub(gap), last.bottom.saturating_sub(gap)),
        };
        self.say(&format!("display {x} {y} {w} {h}"))
    }

    /// A point on a display, near one, anywhere, or as near to two; without displays one is added.
    pub fn display_at(&mut self) -> Step {
        let Some(display) = self.any_display() else { return self.display() };
        let (x, y) = match self.random.from_to(0, 9) {
            0..=1 => (self.coordinate(), self.coordinate()),
            2 => return self.as_near(display),
            _ => self.point_by(display),
        };
        self.say(&format!("display-at {x} {y}"))
    }

    /// The point is (5,0) away from the one display, and (3,4) or (4,3) from the other.
    fn as_near(&mut self, display: Area) -> Step {
        let (x, y) = (display.right + 4, display.top);
        let (right, down) = self.random.pick(&[(3, 4), (4, 3)]);
        let (w, h) = self.display_size();
        self.say(&format!("display {} {} {w} {h}", x + right, y + down))?;
        self.say(&format!("display-at {x} {y}"))
    }

    fn any_display(&mut self) -> Option<Area> {
        let displays = self.script.player.shadow.places.displays.all();
        (!displays.is_empty()).then(|| self.random.pick(displays))
    }

    /// A point on the display, or not far from it.
    fn point_by(&mut self, display: Area) -> (u32, u32) {
        let far = self.random.pick(&[0, 0, 5]);
        let mut along = |from: u32, to: u32| self.random.from_to(from.saturating_sub(far), to - 1 + far);
        (along(display.left, display.right), along(display.top, display.bottom))
    }

    /// Often by way of one row or none, so that it grows within the common ground; now and then where it takes nothing.
    pub fn maximise(&mut self) -> Step {
        let id = self.id();
        let old = self.script.player.shadow.places.at[id.min(15) as usize];
        if let Some(display) = self.any_display().filter(|_| self.random.chance(800)) {
            let (x, y) = self.point_by(display);
            self.say(&format!("move {id} {x} {y}"))?;
        }
        if self.random.chance(850) {
            let rows = self.random.from_to(0, 1);
            self.say(&format!("resize {id} {} {rows}", old.w()))?;
        }
        self.say(&format!("maximise {id}"))?;
        self.look()
    }

    pub fn update_dims(&mut self) -> Step {
        self.say("update-dims")?;
        self.look()
    }

    /// A window that was maximised beside all displays takes a display that is added under it, and others come to the closest.
    pub fn spread(&mut self) -> Step {
        let id = self.id();
        let (x, y) = (self.coordinate(), self.coordinate());
        self.say(&format!("move {id} {x} {y}"))?;
        self.say(&format!("resize {id} 1 0"))?;
        self.say(&format!("maximise {id}"))?;
        let (w, h) = self.display_size();
        self.say(&format!("display 0 0 {w} {h}"))?;
        self.update_dims()?;
        self.redraw()?;
        self.screen()
    }
}
