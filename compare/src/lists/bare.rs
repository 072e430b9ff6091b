//! Bare geometry and bare pixels.
use super::{Maker, Step};

impl Maker<'_> {
    fn side(&mut self) -> u32 {
        match self.random.from_to(0, 49) {
            0 => self.random.pick(&[2_147_483_648, 4_294_967_294, 4_294_967_295]),
            1 => self.random.from_to(0, 4_294_967_295),
            _ => self.random.from_to(0, 9),
        }
    }

    fn rect(&mut self) -> String {
        let sides = [self.side(), self.side(), self.side(), self.side()];
        sides.map(|side| side.to_string()).join(" ")
    }

    pub fn geometry(&mut self) -> Step {
        let (a, b) = (self.rect(), self.rect());
        let (x, y) = (self.side(), self.side());
        match self.random.from_to(0, 6) {
            0 => self.say(&format!("intersect {a} {b}")),
            1 => self.say(&format!("union {a} {b}")),
            2 => self.say(&format!("contains {a} {x} {y}")),
            3 => self.say(&format!("contains-rect {a} {b}")),
            4 => self.say(&format!("within {a} {x} {y}")),
            _ => self.say(&format!("pieces {a} {b}")),
        }
    }

    fn numbers(&mut self, count: u32) -> String {
        let numbers: Vec<String> = (0..count).map(|_| self.colour().to_string()).collect();
        numbers.join(" ")
    }

    pub fn bare_pixels(&mut self) -> Step {
        let (w, h) = (self.random.from_to(0, 5), self.random.from_to(0, 4));
        let (line, ofs, len) = (self.random.from_to(0, h), self.random.from_to(0, w), self.random.from_to(0, 7));
        let large = self.random.pick(&[32_767, 32_768]);
        let len = if self.random.chance(50) { large } else { len };
        let count = if self.random.chance(60) { self.random.from_to(0, 25) } else { w * h };
        let pixels = self.numbers(count);
        match self.random.from_to(0, 3) {
            0 => self.say(&format!("scanline {w} {h} {line} {ofs} {len} {pixels}")),
            1 => self.say(&format!("fill-scanline {w} {h} {line} {ofs} {len} 77 {pixels}")),
            2 => {
                let count = self.random.from_to(0, 6);
                let data = self.numbers(count);
                self.say(&format!("set-scanline {w} {h} {line} {ofs} {len} {count} {data} {pixels}"))
            }
            _ => self.region(),
        }
    }

    fn region(&mut self) -> Step {
        let (x, y, w, h) = (
            self.random.from_to(0, 3),
            self.random.from_to(0, 3),
            self.random.from_to(0, 4),
            self.random.from_to(0, 3),
        );
        let stride = if self.random.chance(20) { self.side() } else { self.random.from_to(0, 7) };
        let needed = u64::from(x) + (u64::from(y) + u64::from(h)) * u64::from(stride) + u64::from(w);
        let count =
            (needed.min(60) as u32 + self.random.from_to(0, 3)).saturating_sub(self.random.from_to(0, stride.min(20)));
        let pixels = self.numbers(count);
        self.say(&format!("region {x} {y} {w} {h} {stride} {pixels}"))
    }
}
