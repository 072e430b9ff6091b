//! Events routed and popped.
use super::{Maker, Step};

impl Maker<'_> {
    /// Mostly a point in a shown window.
    fn point(&mut self) -> (u32, u32) {
        let places = &self.script.player.shadow.places;
        if places.order.is_empty() || self.random.chance(300) {
            return (self.coordinate(), self.coordinate());
        }
        let at = places.at[self.random.pick(&places.order)];
        (self.random.from_to(at.left, at.right), self.random.from_to(at.top, at.bottom))
    }

    /// No KeyFire: "Call lists for the Rust contain none."
    pub fn event(&mut self) -> Step {
        let (x, y) = self.point();
        let value = self.colour();
        let (button, count) = (self.random.from_to(0, 255), self.random.from_to(0, 255));
        match self.random.from_to(0, 10) {
            0 => self.say(&format!("keydown {value}")),
            1 => self.say(&format!("keyup {value}")),
            2 => self.say(&format!("text {value}")),
            3..=5 => self.say(&format!("mousemove {x} {y}")),
            6..=7 => self.say(&format!("mousedown {x} {y} {button}")),
            8 => self.say(&format!("mouseup {x} {y} {button}")),
            9 => self.say(&format!("mouseclick {x} {y} {button} {count}")),
            _ => self.say("resized"),
        }
    }

    /// The same, telling who took it. A kind is given numbers that it does not use, too.
    pub fn who(&mut self) -> Step {
        let (x, y) = self.point();
        let value = self.colour();
        let (button, count) = (self.random.from_to(0, 255), self.random.from_to(0, 255));
        let kind = self.random.pick(&[1, 2, 3, 5, 6, 6, 7, 7, 8, 9]);
        let first = if matches!(kind, 2..=5) { value } else { x };
        self.say(&format!("who {kind} {first} {y} {button} {count}"))
    }

    /// A press, at times a change of the windows, and its release, mostly at the same point. Off the window the list may end.
    pub fn press(&mut self) -> Step {
        let (x, y) = self.point();
        self.say(&format!("mousedown {x} {y} 1"))?;
        match self.random.from_to(0, 9) {
            0 => self.hide()?,
            1 => self.drag()?,
            2 => self.mark()?,
            3 => {
                // The window has no pixels then, and is remembered all the same.
                if let Some(id) = self.script.player.shadow.places.topmost(x, y) {
                    self.say(&format!("resize {id} 0 0"))?;
                }
            }
            _ => {}
        }
        let (x, y) = match self.random.chance(800) {
            true => (x, y),
            false => self.point(),
        };
        self.say(&format!("mouseup {x} {y} 1"))?;
        self.pop()
    }

    pub fn pop(&mut self) -> Step {
        let id = self.id();
        for _ in 0..self.random.from_to(1, 3) {
            self.say(&format!("pop {id}"))?;
        }
        Ok(())
    }

    /// Fingers, now and then too many of them, one too far out, or an x without its y.
    pub fn hits(&mut self) -> Step {
        let count = self.random.pick(&[0, 1, 2, 3, 5, 10, 10, 10, 31, 32, 33]);
        let mut numbers: Vec<String> = Vec::new();
        for _ in 0..count {
            let (x, y) = self.point();
            numbers.extend([x.to_string(), y.to_string()]);
        }
        if self.random.chance(50) {
            numbers.push(self.random.pick(&["0", "32767", "32768", "4294967295"]).to_string());
        }
        self.say(&format!("hits {}", numbers.join(" ")))
    }

    /// More events than a queue holds.
    pub fn flood(&mut self) -> Step {
        let (x, y) = self.point();
        let keys = self.random.chance(500);
        for value in 0..self.random.from_to(15, 20) {
            match keys {
                true => self.say(&format!("keydown {value}"))?,
                false => self.say(&format!("mousedown {x} {y} {value}"))?,
            }
        }
        Ok(())
    }
}
