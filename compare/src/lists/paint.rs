//! Fills, blits, marks and redraws.
use super::{Maker, Step};

impl Maker<'_> {
    /// Often one of three, so that pixels get the value that they have.
    pub fn colour(&mut self) -> u32 {
        match self.random.from_to(0, 49) {
            0 => self.random.from_to(0, 4_294_967_295),
            1..=20 => self.random.from_to(1, 3),
            _ => self.random.from_to(1, 99),
        }
    }

    /// The size of the window, or a little more.
    fn room(&mut self, id: u32) -> (u32, u32) {
        let at = self.script.player.shadow.places.at[id.min(15) as usize];
        let more = self.random.pick(&[0, 0, 0, 1, 3]);
        (at.w() + more, at.h() + more)
    }

    pub fn fill(&mut self) -> Step {
        let id = self.id();
        let (right, bottom) = self.room(id);
        let (x, y) = (self.random.from_to(0, right), self.random.from_to(0, bottom));
        let (w, h, colour) = (self.random.from_to(0, right), self.random.from_to(0, bottom), self.colour());
        match self.random.from_to(0, 59) {
            0 => {
                let far = [self.coordinate(), self.coordinate(), self.coordinate(), self.coordinate()];
                self.say(&format!("fill {id} {} {} {} {} {colour}", far[0], far[1], far[2], far[3]))
            }
            1..=9 => self.say(&format!("fill {id} 0 0 {right} {bottom} {colour}")),
            10..=24 => self.say(&format!("fill {id} {x} {y} 1 1 {colour}")),
            _ => self.say(&format!("fill {id} {x} {y} {w} {h} {colour}")),
        }
    }

    /// Areas side by side or one under the other, whose damage merges.
    pub fn fill_strips(&mut self) -> Step {
        let id = self.id();
        let (right, bottom) = self.room(id);
        let (mut x, mut y) = (self.random.from_to(0, right / 2), self.random.from_to(0, bottom / 2));
        let (w, h) = (self.random.from_to(1, 4), self.random.from_to(1, 4));
        let rightward = self.random.chance(500);
        let overlap = self.random.from_to(0, 1);
        if self.random.chance(700) {
            self.clear_damage(id)?;
        }
        let most = self.random.pick(&[5, 5, 20]);
        for _ in 0..self.random.from_to(2, most) {
            let colour = self.colour();
            self.say(&format!("fill {id} {x} {y} {w} {h} {colour}"))?;
            match rightward {
                true => x += w - overlap.min(w - 1),
                false => y += h - overlap.min(h - 1),
            }
        }
        self.show_damage(id)
    }

    /// Areas of which none merges, dots apart or one larger than the other: as many dirty entries as there is room for.
    pub fn fill_many(&mut self) -> Step {
        let id = self.id();
        let (right, _) = self.room(id);
        let dots = self.random.chance(500);
        let in_row = if dots { right.div_ceil(2).max(1) } else { right.max(1) };
        self.clear_damage(id)?;
        for at in 0..self.random.from_to(2, 18) {
            let colour = self.colour();
            let (column, row) = (at % in_row, at / in_row);
            match dots {
                true => self.say(&format!("fill {id} {} {} 1 1 {colour}", 2 * column, 2 * row))?,
                false => self.say(&format!("fill {id} 0 0 {} {} {colour}", column + 1, row + 1))?,
            }
        }
        self.show_damage(id)
    }

    /// Draws the window's damage, at times at another width, where it falls on other pixels of the screen and all of it is seen.
    fn show_damage(&mut self, id: u32) -> Step {
        let (w, h) = self.scene.screen;
        let (w, h) = self.random.pick(&[(w, h), (h, w), (w + 1, h), (w * h, 1)]);
        let entries = self.script.player.shadow.entries(id.min(15));
        self.tally.at_most("dirty entries of a window", entries);
        self.say(&format!("mark {id}"))?;
        self.say(&format!("redraw 0 {w} {h}"))?;
        self.say(&format!("screen {w} {h}"))
    }

    /// Areas as long as they may be, which merge into entries with sides up to 65,534.
    pub fn blit_far(&mut self) -> Step {
        let id = self.id();
        let at = self.random.from_to(0, 3);
        let thick = self.random.pick(&[1, 2, 32_767]);
        self.clear_damage(id)?;
        let [first, second] = match self.random.chance(500) {
            true => [format!("0 {at} 32767 {thick}"), format!("32767 {at} 32767 {thick}")],
            false => [format!("{at} 0 {thick} 32767"), format!("{at} 32767 {thick} 32767")],
        };
        self.say(&format!("blit {id} {first} 1 51 52 53"))?;
        self.say(&format!("blit {id} {second} 1 54"))?;
        self.fill()?;
        self.show_damage(id)
    }

    /// A drawn window has no damage.
    fn clear_damage(&mut self, id: u32) -> Step {
        let (w, h) = self.scene.screen;
        self.say(&format!("mark {id}"))?;
        self.say(&format!("redraw 0 {w} {h}"))
    }

    pub fn blit(&mut self) -> Step {
        let id = self.id();
        let (right, bottom) = self.room(id);
        let (x, y) = (self.random.from_to(0, right), self.random.from_to(0, bottom));
        let least = u32::from(!self.random.chance(50));
        let (w, h) = (self.random.from_to(least, right.clamp(1, 40)), self.random.from_to(least, bottom.clamp(1, 30)));
        let (x, y) = if self.random.chance(10) { (self.coordinate(), self.coordinate()) } else { (x, y) };
        let stride = match self.random.from_to(0, 99) {
            0 => 0,
            1..=3 => self.random.pick(&[w + 1, w + 5, 40_000, 4_294_967_295]),
            4..=30 => self.random.from_to(1, w.max(1)),
            _ => w,
        };
        let most = w.min(stride) * h + 3;
        let count = self.random.from_to(0, most).max(self.random.from_to(0, most)).min(4096);
        let data: Vec<String> = (0..count).map(|_| self.colour().to_string()).collect();
        self.say(&format!("blit {id} {x} {y} {w} {h} {stride} {}", data.join(" ")))
    }

    pub fn mark(&mut self) -> Step {
        let id = self.id();
        self.say(&format!("mark {id}"))
    }

    pub fn redraw(&mut self) -> Step {
        let (w, h) = self.scene.screen;
        let full = u32::from(self.random.chance(100));
        match self.random.from_to(0, 99) {
            0 => self.say(&format!("redraw {full} {} {}", h, w)),
            1 => self.say(&format!("redraw {full} {} {}", w + 1, h)),
            2 => self.say(&format!("redraw {full} 0 {h}")),
            _ => self.say(&format!("redraw {full} {w} {h}")),
        }
    }

    /// A write, a mark and a redraw that is not full unless it must be.
    pub fn paint(&mut self) -> Step {
        let id = self.id();
        let colour = self.colour();
        let (right, bottom) = self.room(id);
        let (x, y) = (self.random.from_to(0, right), self.random.from_to(0, bottom));
        let (w, h) = self.scene.screen;
        self.say(&format!("redraw 0 {w} {h}"))?;
        self.say(&format!("fill {id} {x} {y} 3 2 {colour}"))?;
        if self.random.chance(800) {
            return self.show_damage(id);
        }
        self.say(&format!("redraw 0 {w} {h}"))?;
        self.screen()
    }
}
