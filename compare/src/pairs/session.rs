//! The session before the lists.
use super::{Action, Maker};

impl<'a> Maker<'a> {
    pub fn session(&mut self) {
        self.say(&format!("start {}", self.c));
        let count = self.random.from_to(2, 4);
        (0..count).for_each(|id| self.window(id));
        if self.random.chance(850) {
            self.redraw(0);
        }
        for _ in 0..self.random.from_to(0, 8) {
            let id = self.random.from_to(0, count - 1);
            if self.windows.used[id as usize] {
                self.action()(self, id);
            }
        }
        if self.random.chance(150) {
            self.walk();
        }
    }

    /// Most windows are shown and meet others.
    fn window(&mut self, id: u32) {
        self.say("create");
        self.windows.create(id as usize);
        let (w, h) = self.size();
        self.say(&format!("resize {id} {w} {h}"));
        self.move_window(id);
        let data = self.data(w * h);
        self.say(&format!("blit {id} 0 0 {w} {h} {w}{data}"));
        if self.random.chance(930) {
            self.say(&format!("show {id}"));
        }
    }

    /// At most C pixels, and seldom none.
    fn size(&mut self) -> (u32, u32) {
        let w = self.random.from_to(2, 9).min(self.c);
        let h = self.random.from_to(2, 7).min(self.c / w);
        (w, if self.random.chance(30) { 0 } else { h })
    }

    /// Those that owe a full redraw come seldom, since it draws a window whether it is marked or not.
    fn action(&mut self) -> Action<'a> {
        self.random.weighted::<Action<'a>>(&[
            (40, Maker::write),
            (10, Maker::fill_many),
            (10, Maker::input),
            (10, Maker::redraw),
            (2, Maker::move_window),
            (4, Maker::drag),
            (4, Maker::raise),
            (1, Maker::drop),
        ])
    }

    fn input(&mut self, id: u32) {
        let at = self.windows.at[id as usize];
        self.say(&format!("mousedown {} {} 1", at.left, at.top));
        self.say(&format!("mousemove {} {}", at.left, at.top));
        self.say(&format!("keydown {id}"));
    }

    fn redraw(&mut self, _: u32) {
        let (w, h) = self.screen;
        self.say(&format!("redraw 0 {w} {h}"));
    }

    fn move_window(&mut self, id: u32) {
        let (w, h) = self.screen;
        let (x, y) = (self.random.from_to(0, w - 2), self.random.from_to(0, h - 2));
        self.say(&format!("move {id} {x} {y}"));
    }

    fn drag(&mut self, id: u32) {
        let (w, h) = self.screen;
        let (x, y) = (self.random.from_to(0, w - 2), self.random.from_to(0, h - 2));
        self.say(&format!("drag {id} {x} {y}"));
    }

    /// By one call, or by hide and show.
    fn raise(&mut self, id: u32) {
        if self.random.chance(500) {
            return self.say(&format!("raise {id}"));
        }
        self.say(&format!("hide {id}"));
        self.say(&format!("show {id}"));
    }

    fn drop(&mut self, id: u32) {
        self.say(&format!("drop {id}"));
    }

    /// A redraw window by window, of which at least one portion is left.
    fn walk(&mut self) {
        let shown = self.windows.order.len() as u32;
        if shown == 0 {
            return;
        }
        self.is_walking = true;
        self.say("begin 0");
        let (w, h) = self.screen;
        for _ in 0..self.random.from_to(0, shown - 1) {
            self.say(&format!("portion {w} {h}"));
        }
    }
}
