//! Windows created, shown, hidden, dragged, moved and the like.
use super::list::Maker;

impl Maker<'_> {
    /// A window that covers the screen.
    pub fn lowest(&mut self) {
        let (w, h) = self.screen;
        self.say("create");
        self.say(&format!("resize 0 {w} {h}"));
        self.paint(0);
        self.say("show 0");
    }

    /// Most are shown.
    pub fn add_window(&mut self) {
        let Some(id) = self.shadow.places.used.iter().position(|used| !used) else { return };
        let id = id as u32;
        self.say("create");
        let (w, h) = self.size();
        self.say(&format!("resize {id} {w} {h}"));
        let (x, y) = self.anywhere();
        self.say(&format!("move {id} {x} {y}"));
        self.paint(id);
        if self.random.chance(900) {
            self.say(&format!("show {id}"));
        }
    }

    /// At most C pixels, and seldom none.
    fn size(&mut self) -> (u32, u32) {
        let w = self.random.from_to(1, 10);
        let h = self.random.from_to(1, 8).min(self.c / w);
        (w, if self.random.chance(20) { 0 } else { h })
    }

    /// On the screen, or a little outside.
    fn anywhere(&mut self) -> (u32, u32) {
        let (w, h) = self.screen;
        (self.random.from_to(0, w + 1), self.random.from_to(0, h + 1))
    }

    /// Mostly near to where the window is; at times there, or far away.
    fn aim(&mut self, id: u32) -> (u32, u32) {
        let at = self.shadow.places.at[id as usize];
        match self.random.from_to(0, 29) {
            0 => (at.left, at.top),
            1 => (32_767, at.top),
            2..=7 => self.anywhere(),
            _ => {
                let (right, down) = (self.random.from_to(0, 6), self.random.from_to(0, 6));
                ((at.left + right).saturating_sub(3).min(32_767), (at.top + down).saturating_sub(3))
            }
        }
    }

    pub fn drag(&mut self) {
        let Some(id) = self.shown() else { return };
        let (x, y) = self.aim(id);
        self.say(&format!("drag {id} {x} {y}"));
    }

    /// A press, a raise and drags in steps, some of them drawn, and a release.
    pub fn drag_by_finger(&mut self) {
        let Some(id) = self.shown() else { return };
        let at = self.shadow.places.at[id as usize];
        self.say_refused(&format!("mousedown {} {} 1", at.left, at.top));
        if self.random.chance(500) {
            self.say(&format!("raise {id}"));
        }
        for _ in 0..self.random.from_to(2, 6) {
            let (x, y) = self.aim(id);
            self.say(&format!("drag {id} {x} {y}"));
            if !self.shadow.is_walking() && self.random.chance(400) {
                self.redraw();
            }
        }
        self.say_refused(&format!("mouseup {} {} 1", at.left, at.top));
    }

    /// Not in a walk: there the two plays would be apart, and few screens could be compared.
    pub fn drag_hidden(&mut self) {
        if !self.shadow.is_walking() {
            self.drag_any_hidden();
        }
    }

    pub fn drag_any_hidden(&mut self) {
        let places = &self.shadow.places;
        let hidden: Vec<usize> = places.in_use().into_iter().filter(|id| !places.order.contains(id)).collect();
        if !hidden.is_empty() {
            let id = self.random.pick(&hidden) as u32;
            let (x, y) = self.aim(id);
            self.say(&format!("drag {id} {x} {y}"));
        }
    }

    /// By 3, also where 5 would refuse it too; and by 5.
    pub fn drag_refused(&mut self) {
        let Some(used) = self.used() else { return };
        let id = self.random.pick(&[used, 16, 4_294_967_295]);
        let large = self.random.pick(&[32_768u32, 65_536, 4_294_967_295]);
        let (x, y) = self.random.pick(&[(large, 1), (1, large), (large, large)]);
        self.say_refused(&format!("drag {id} {x} {y}"));
    }

    pub fn move_window(&mut self) {
        let Some(id) = self.used() else { return };
        let (x, y) = self.aim(id);
        self.say(&format!("move {id} {x} {y}"));
    }

    pub fn resize(&mut self) {
        let Some(id) = self.used() else { return };
        let (w, h) = self.size();
        self.say(&format!("resize {id} {w} {h}"));
    }

    pub fn show(&mut self) {
        let Some(id) = self.used() else { return };
        self.say(&format!("show {id}"));
    }

    pub fn raise(&mut self) {
        let Some(id) = self.used() else { return };
        self.say(&format!("raise {id}"));
    }

    pub fn hide(&mut self) {
        let Some(id) = self.used() else { return };
        self.say(&format!("hide {id}"));
    }

    pub fn drop(&mut self) {
        let Some(id) = self.used() else { return };
        self.say(&format!("drop {id}"));
    }

    pub fn layer(&mut self) {
        let Some(id) = self.used() else { return };
        let layer = self.random.from_to(0, 1);
        self.say(&format!("layer {id} {layer}"));
    }

    pub fn dim(&mut self) {
        let on = self.random.from_to(0, 1);
        self.say(&format!("dim {on}"));
    }

    /// Side by side, each as large as the screen or smaller.
    pub fn displays(&mut self) {
        let (w, h) = self.screen;
        for place in 0..self.random.from_to(1, 3) {
            let (width, height) = (self.random.from_to(1, w), self.random.from_to(1, h));
            self.say(&format!("display {} 0 {width} {height}", place * w));
        }
    }

    /// A drag clears the flag that a maximised window has, as a move does.
    pub fn dims(&mut self) {
        if self.random.chance(400) {
            return self.say("update-dims");
        }
        let Some(id) = self.used() else { return };
        self.say(&format!("maximise {id}"));
        if self.random.chance(700) {
            let (x, y) = self.aim(id);
            self.say(&format!("drag {id} {x} {y}"));
            self.say("update-dims");
        }
    }

    /// Taken or not, both plays have the same.
    pub fn event(&mut self) {
        let (x, y) = self.anywhere();
        let (word, end) = self.random.pick(&[("mousedown", " 1"), ("mouseup", " 1"), ("mousemove", "")]);
        self.say_refused(&format!("{word} {x} {y}{end}"));
        let Some(id) = self.used() else { return };
        self.say_refused(&format!("pop {id}"));
    }
}
