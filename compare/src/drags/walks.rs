//! What is written is marked, and all is drawn: by a redraw, or by a walk in which something comes in between.
use super::list::Maker;

impl Maker<'_> {
    pub fn draw(&mut self) {
        match self.random.chance(300) {
            true => self.walk(),
            false => self.redraw(),
        }
    }

    pub fn redraw(&mut self) {
        self.mark_written();
        let forced = u32::from(self.random.chance(50));
        let (w, h) = self.screen;
        self.say(&format!("redraw {forced} {w} {h}"));
        self.screen();
    }

    fn screen(&mut self) {
        let (w, h) = self.screen;
        self.say(&format!("screen {w} {h}"));
    }

    fn portions(&mut self, count: usize) {
        let (w, h) = self.screen;
        (0..count).for_each(|_| self.say(&format!("portion {w} {h}")));
    }

    /// Hidden windows are dragged in it, or other calls come in between: after both, the plays could differ by right.
    fn walk(&mut self) {
        self.mark_written();
        let forced = u32::from(self.random.chance(100));
        self.say(&format!("begin {forced}"));
        let is_for_hidden = self.random.chance(250);
        for _ in 0..self.random.from_to(0, 3) {
            let shown = self.shadow.places.order.len() as u32;
            let count = self.random.from_to(0, shown) as usize;
            self.portions(count);
            match is_for_hidden {
                true => self.drag_any_hidden(),
                false => self.action()(self),
            }
            self.mark_written();
        }
        if self.random.chance(150) {
            return self.redraw();
        }
        // Enough of them from the bottom on, and one more, which both plays refuse.
        self.portions(self.shadow.places.order.len() + 1);
        self.screen();
    }
}
