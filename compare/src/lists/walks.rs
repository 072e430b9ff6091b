//! Redraws begun, and portions of them. An accepted portion is outside the common ground, so that most of these are refused. And dimming, which
//! is mostly switched off where it is off.
use super::{Maker, Step};

impl Maker<'_> {
    pub fn begin(&mut self) -> Step {
        let full = u32::from(self.random.chance(200));
        self.say(&format!("begin {full}"))
    }

    /// With a right screen and a right store it is refused unless a walk is on.
    pub fn portion(&mut self) -> Step {
        let (w, h) = self.scene.screen;
        match self.random.from_to(0, 9) {
            0 => self.say(&format!("portion {w} 0")),
            1 => self.say("portion 32768 1"),
            2..=3 => {
                let wrong = self.random.pick(&[0, w * h - 1, w * h + 1]);
                self.say(&format!("lend-screen {wrong}"))?;
                self.say(&format!("portion {w} {h}"))
            }
            _ => self.say(&format!("portion {w} {h}")),
        }
    }

    /// A walk that is begun, sent back by a move and dropped by a redraw.
    pub fn walk(&mut self) -> Step {
        self.begin()?;
        // Refused, it leaves the walk where it is.
        self.say("portion 0 1")?;
        if self.random.chance(700) {
            let _ = self.move_window();
        }
        if self.random.chance(300) {
            self.hide_all()?;
        }
        self.redraw()?;
        self.portion()?;
        self.screen()
    }

    /// Off, it is as it was, and a walk goes on; on, the list ends here.
    pub fn dim(&mut self) -> Step {
        let on = u32::from(self.random.chance(200));
        self.say(&format!("dim {on}"))?;
        self.redraw()?;
        self.screen()
    }

    /// With nothing shown any more a walk is over, and no redraw is owed.
    fn hide_all(&mut self) -> Step {
        for id in self.script.player.shadow.places.order.clone() {
            self.say(&format!("hide {id}"))?;
        }
        self.portion()?;
        self.paint()
    }
}
