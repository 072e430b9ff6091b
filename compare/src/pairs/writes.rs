//! Fills, blits and marks, of which some are refused.
use super::{Action, Maker};

impl<'a> Maker<'a> {
    pub fn write(&mut self, id: u32) {
        let write = self.random.pick::<Action<'a>>(&[Maker::fill, Maker::blit, Maker::mark]);
        write(self, id);
    }

    /// None comes twice, so that a pixel tells what was written to it last.
    fn colour(&mut self) -> u32 {
        self.colours += 1;
        self.colours
    }

    pub fn data(&mut self, count: u32) -> String {
        (0..count).map(|_| format!(" {}", self.colour())).collect()
    }

    /// Often partly outside the window, at times empty; now and then a number is the largest coordinate or above it.
    fn area(&mut self, id: u32) -> [u32; 4] {
        let window = self.windows.at[id.min(15) as usize];
        let least = u32::from(!self.random.chance(150));
        let bounds = [(0, window.w()), (0, window.h()), (least, window.w() + 1), (least, window.h() + 1)];
        let mut area = bounds.map(|(least, most)| self.random.from_to(least, most));
        if self.random.chance(100) {
            let place = self.random.from_to(0, 3) as usize;
            area[place] = self.random.pick(&[32_767, 32_768, 65_536, 4_294_967_295]);
        }
        area
    }

    fn fill(&mut self, id: u32) {
        let ([x, y, w, h], colour) = (self.area(id), self.colour());
        self.say(&format!("fill {id} {x} {y} {w} {h} {colour}"));
    }

    /// At times the stride is 0 or another than the width, or the data ends early.
    fn blit(&mut self, id: u32) {
        let [x, y, w, h] = self.area(id);
        let stride = self.random.weighted(&[(14, w.max(1)), (3, w / 2 + 1), (1, 0), (1, 40_000)]);
        let whole = (u64::from(stride) * u64::from(h)).min(64) as u32;
        let count = if self.random.chance(300) { self.random.from_to(0, whole) } else { whole };
        let data = self.data(count);
        self.say(&format!("blit {id} {x} {y} {w} {h} {stride}{data}"));
    }

    fn mark(&mut self, id: u32) {
        self.say(&format!("mark {id}"));
    }

    /// Areas of which none merges: as many dirty entries as there is room for.
    pub fn fill_many(&mut self, id: u32) {
        let window = self.windows.at[id as usize];
        for place in 0..16.min(window.w() * window.h()) {
            let (w, h, colour) = (place % window.w() + 1, place / window.w() + 1, self.colour());
            self.say(&format!("fill {id} 0 0 {w} {h} {colour}"));
        }
    }
}
