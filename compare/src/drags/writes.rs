//! Fills, blits and marks.
use super::list::Maker;

impl Maker<'_> {
    /// None comes twice, so that a pixel tells what was written to it last.
    fn colour(&mut self) -> u32 {
        self.colours += 1;
        self.colours
    }

    /// Every pixel gets a colour of its own.
    pub fn paint(&mut self, id: u32) {
        let at = self.shadow.places.at[id as usize];
        self.blit(id, [0, 0, at.w(), at.h()]);
    }

    fn blit(&mut self, id: u32, [x, y, w, h]: [u32; 4]) {
        let data: String = (0..w * h).map(|_| format!(" {}", self.colour())).collect();
        self.say(&format!("blit {id} {x} {y} {w} {h} {}{data}", w.max(1)));
        self.unmarked.push(id);
    }

    fn fill(&mut self, id: u32, [x, y, w, h]: [u32; 4]) {
        let colour = self.colour();
        self.say(&format!("fill {id} {x} {y} {w} {h} {colour}"));
        self.unmarked.push(id);
    }

    /// Often partly outside the window. At times its mark comes at once, and else before it is drawn.
    pub fn write(&mut self) {
        let Some(id) = self.used() else { return };
        let window = self.shadow.places.at[id as usize];
        let bounds = [(0, window.w().min(20)), (0, window.h().min(20)), (1, 6), (1, 6)];
        let area = bounds.map(|(least, most)| self.random.from_to(least, most));
        match self.random.chance(500) {
            true => self.fill(id, area),
            false => self.blit(id, area),
        }
        if self.random.chance(400) {
            self.mark_written();
        }
    }

    /// Areas of which none merges: as many dirty entries as there is room for, or nearly.
    pub fn fill_many(&mut self) {
        let Some(id) = self.used() else { return };
        let window = self.shadow.places.at[id as usize];
        let count = self.random.from_to(13, 17).min(window.w() * window.h());
        for place in 0..count {
            self.fill(id, [0, 0, place % window.w() + 1, place / window.w() + 1]);
        }
    }

    /// Also of a window without damage.
    pub fn mark(&mut self) {
        let Some(id) = self.used() else { return };
        self.say(&format!("mark {id}"));
    }

    /// Those that were dropped meanwhile cannot be.
    pub fn mark_written(&mut self) {
        for id in std::mem::take(&mut self.unmarked) {
            if self.shadow.places.used[id as usize] && !self.random.chance(self.forgets) {
                self.say(&format!("mark {id}"));
            }
        }
    }
}
