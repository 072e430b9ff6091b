//! Windows created, shown, raised, hidden, moved, dragged, resized, dropped and put on a layer.
use super::{Maker, Step};

impl Maker<'_> {
    /// Mostly a window in use.
    pub fn id(&mut self) -> u32 {
        let used = self.script.player.shadow.places.used;
        let used: Vec<u32> = (0..16).filter(|&id| used[id as usize]).collect();
        match self.random.from_to(0, 199) {
            0 => self.random.pick(&[16, 17, 255, 65_535, 65_536, 4_294_967_295]),
            1..=4 => self.random.from_to(0, 15),
            _ if used.is_empty() => 0,
            _ => self.random.pick(&used),
        }
    }

    pub fn coordinate(&mut self) -> u32 {
        match self.random.from_to(0, 399) {
            0 => self.random.pick(&[32_768, 65_535, 65_536, 4_294_967_295]),
            1..=4 => self.random.pick(&[32_767, 32_766, 16_384]),
            _ => self.random.from_to(0, self.scene.span),
        }
    }

    /// A width and a height, mostly within the window's room.
    fn size(&mut self) -> (u32, u32) {
        let c = self.scene.c;
        let w = self.random.from_to(0, self.scene.side);
        match self.random.from_to(0, 99) {
            0 => self.random.pick(&[
                (c, 1),
                (1, c),
                (c + 1, 1),
                (1, c + 1),
                (32_767, 0),
                (0, 32_767),
                (32_768, 0),
                (0, 32_768),
            ]),
            1 => (w, self.random.from_to(0, 40_000)),
            _ => (w, self.random.from_to(0, (c / w.max(1)).min(self.scene.side))),
        }
    }

    pub fn add_window(&mut self) -> Step {
        let count = self.script.player.shadow.places.used.iter().filter(|used| **used).count();
        let enough = count as u32 >= self.scene.windows && !self.random.chance(60);
        if enough {
            return Ok(());
        }
        self.say("create")?;
        let id = self.id();
        if self.random.chance(700) {
            let (w, h) = self.size();
            self.say(&format!("resize {id} {w} {h}"))?;
        }
        if self.random.chance(800) {
            self.say(&format!("show {id}"))?;
        }
        Ok(())
    }

    pub fn show(&mut self) -> Step {
        let id = self.id();
        self.say(&format!("show {id}"))
    }

    /// Accepted, it leaves the common ground.
    pub fn raise(&mut self) -> Step {
        let id = self.id();
        self.say(&format!("raise {id}"))?;
        self.redraw()?;
        self.screen()
    }

    pub fn hide(&mut self) -> Step {
        let id = self.id();
        self.say(&format!("hide {id}"))
    }

    pub fn drop(&mut self) -> Step {
        let id = self.id();
        self.say(&format!("drop {id}"))?;
        if self.random.chance(500) {
            return self.say("create");
        }
        Ok(())
    }

    /// Mostly the layer that it has; a change to layer 1 leaves the common ground.
    pub fn layer(&mut self) -> Step {
        let id = self.id();
        let layer = match self.random.from_to(0, 19) {
            0 => self.random.pick(&[2u32, 3, 255, 256, 4_294_967_295]),
            1..=4 => 1,
            _ => 0,
        };
        self.say(&format!("layer {id} {layer}"))?;
        self.redraw()?;
        self.screen()
    }

    pub fn move_window(&mut self) -> Step {
        let (id, x, y) = (self.id(), self.coordinate(), self.coordinate());
        self.say(&format!("move {id} {x} {y}"))
    }

    /// Accepted, it leaves the common ground.
    pub fn drag_window(&mut self) -> Step {
        let (id, x, y) = (self.id(), self.coordinate(), self.coordinate());
        self.say(&format!("drag {id} {x} {y}"))?;
        self.redraw()?;
        self.screen()
    }

    /// A press, moves in steps with redraws between, and a release.
    pub fn drag(&mut self) -> Step {
        let places = &self.script.player.shadow.places;
        if places.order.is_empty() {
            return Ok(());
        }
        let id = self.random.pick(&places.order);
        let at = places.at[id];
        let (mut x, mut y) = (at.left, at.top);
        self.say(&format!("mousedown {x} {y} 0"))?;
        let (right, down) = (self.random.from_to(0, 4), self.random.from_to(0, 4));
        for _ in 0..self.random.from_to(2, 12) {
            x = (x + right).saturating_sub(2);
            y = (y + down).saturating_sub(2);
            self.say(&format!("move {id} {x} {y}"))?;
            if self.random.chance(400) {
                self.say(&format!("mousemove {x} {y}"))?;
                self.redraw()?;
            }
        }
        self.say(&format!("mouseup {x} {y} 0"))
    }

    pub fn resize(&mut self) -> Step {
        let id = self.id();
        let (w, h) = self.size();
        let old = self.script.player.shadow.places.at[id.min(15) as usize];
        match self.random.from_to(0, 9) {
            0..=2 => self.say(&format!("resize {id} {w} {h}")),
            3..=4 => self.say(&format!("resize {id} {} {h}", old.w())),
            5..=6 => self.say(&format!("resize {id} {} {}", w.min(old.w()), h.min(old.h()))),
            _ => {
                // By way of one row or none, a window grows again within the common ground.
                let rows = self.random.from_to(0, 1);
                self.say(&format!("resize {id} {} {rows}", old.w()))?;
                self.say(&format!("resize {id} {w} {h}"))
            }
        }
    }
}
