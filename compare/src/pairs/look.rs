//! Lines that show what the lists left.
use super::Maker;

impl Maker<'_> {
    /// What is drawn next, what the windows hold, and the damage that is left, by a redraw with all windows marked. Gives the places of the
    /// lines that show the screen before and after the first drawing.
    pub fn look(&mut self) -> [usize; 2] {
        self.say(&format!("lend {}", 16 * self.c));
        let screens = self.draw(if self.is_walking { "portion" } else { "redraw 0" });
        self.say("focus");
        for id in self.used() {
            for word in ["pixels", "visible", "pop", "pop", "pop", "mark"] {
                self.say(&format!("{word} {id}"));
            }
        }
        self.draw("redraw 0");
        screens
    }

    /// At times on a wider screen, where what is drawn falls on other pixels than before and all of it is seen.
    fn draw(&mut self, word: &str) -> [usize; 2] {
        let (w, h) = self.screen;
        let w = w + self.random.pick(&[0, 0, 1, 3]);
        let before = self.lines.len();
        self.say(&format!("screen {w} {h}"));
        self.say(&format!("{word} {w} {h}"));
        self.say(&format!("screen {w} {h}"));
        [before, before + 2]
    }
}
