//! What was compared, for the table.
use crate::call::Call;
use crate::shadow::Shadow;

#[derive(Default)]
pub struct Kinds {
    /// Drags of a shown window with nothing owed, and the lower windows that they uncovered.
    repairing: u64,
    uncovered: usize,
    owed: u64,
    walking: u64,
    hidden: u64,
    no_window: u64,
    large: u64,
    /// Screens compared in every pixel, and in those under a shown window; and those not compared.
    pub whole: u64,
    pub under_shown: u64,
    pub left_out: u64,
}

impl Kinds {
    /// Counts a call with its answer, before it is followed.
    pub fn count(&mut self, call: &Call, answer: &str, before: &Shadow) {
        let Call::Drag(id, ..) = *call else { return };
        match answer {
            "3" => self.no_window += 1,
            "5" => self.large += 1,
            _ if !before.places.is_shown(id) => self.hidden += 1,
            _ if before.is_walking() => self.walking += 1,
            _ if before.owed => self.owed += 1,
            _ => {
                self.repairing += 1;
                self.uncovered += before.places.uncovered(call).len();
            }
        }
    }

    pub fn compared(&self) -> u64 {
        self.whole + self.under_shown
    }

    pub fn print(&self) {
        println!("drags accepted: {}", self.repairing + self.owed + self.walking + self.hidden);
        println!("  of a shown window, nothing owed: {}, lower windows repaired: {}", self.repairing, self.uncovered);
        println!("  with a full redraw owed: {}", self.owed);
        println!("  with a walk on: {}", self.walking);
        println!("  of a hidden window: {}", self.hidden);
        println!("drags refused: {} by 3, {} by 5", self.no_window, self.large);
        println!("screens compared: {}", self.compared());
        println!("  in every pixel: {}", self.whole);
        println!("  in the pixels under a shown window: {}", self.under_shown);
        println!("screens outside the conditions: {}", self.left_out);
    }
}
