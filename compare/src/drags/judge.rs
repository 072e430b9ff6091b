//! Goes through both plays of a list line by line, and says where they must have the same.
use super::kinds::Kinds;
use crate::call::{read, Call, Line};
use crate::shadow::{Seen, Shadow};

pub struct Judge<'a> {
    kinds: &'a mut Kinds,
    /// The windows of the play with drags, and of that with moves.
    sides: [Shadow; 2],
    /// Written after its last mark.
    unmarked: [bool; 16],
    /// Something was written in the walk, or was not marked when it began.
    wrote: bool,
    /// A redraw, or the last portion of both plays, came last, and demand 3's conditions hold of it.
    drawn: bool,
    /// The walks of the two plays are not at the same window, or were not and are not yet over: a move sends a walk
    /// back also where its window is hidden, and a drag does not.
    apart: bool,
    /// Both screens are equal while the plays are not apart. Pixels under no shown window are as an earlier drawing
    /// left them, so that this ends with the first one that the conditions do not hold of.
    whole: bool,
}

impl Judge<'_> {
    pub fn new(kinds: &mut Kinds) -> Judge<'_> {
        let sides = [Shadow::fresh(Seen::default()), Shadow::fresh(Seen::default())];
        Judge { kinds, sides, unmarked: [false; 16], wrote: false, drawn: false, apart: false, whole: true }
    }

    /// Do the answers to this line differ, and must not? The first is that of the play with drags.
    pub fn differ(&mut self, line: &str, answers: [&str; 2]) -> bool {
        let Line::Call(call) = read(line.as_bytes()) else { return answers[0] != answers[1] };
        match call {
            Call::Screen(w, _) => return self.screens_differ(w as usize, answers),
            Call::Portion(..) => return self.portions_differ(&call, answers),
            _ if answers[0] != answers[1] => return true,
            _ => {}
        }
        let (answer, id) = answers[0].split_once(' ').unwrap_or((answers[0], "0"));
        self.kinds.count(&call, answer, &self.sides[0]);
        if answer == "0" {
            self.follow(&call, id.parse().unwrap_or(0));
        }
        false
    }

    /// Follows an accepted call, which gave the id if it is a create.
    fn follow(&mut self, call: &Call, id: usize) {
        self.whole &= !(self.apart && self.disturbs(call));
        let [dragged, moved] = &mut self.sides;
        dragged.follow(call, id);
        match *call {
            Call::Drag(id, x, y) => moved.follow(&Call::Move(id, x, y), 0),
            _ => moved.follow(call, id),
        }
        self.drawn = false;
        match *call {
            Call::Create => self.unmarked[id] = false,
            Call::Mark(id) => self.unmarked[id as usize] = false,
            Call::Fill(id, ..) | Call::Blit(id, ..) => {
                self.unmarked[id as usize] = true;
                self.wrote = true;
            }
            Call::Begin(_) => self.wrote = !self.are_marked(),
            Call::Redraw(..) => {
                self.drawn = self.are_marked();
                self.whole &= self.drawn;
            }
            _ => {}
        }
        self.compare_walks();
    }

    /// 0 while a walk is on, else 20.
    fn portions_differ(&mut self, call: &Call, answers: [&str; 2]) -> bool {
        for (side, answer) in self.sides.iter_mut().zip(answers) {
            if answer != if side.is_walking() { "0" } else { "20" } {
                return true;
            }
            if answer == "0" {
                side.follow(call, 0);
            }
        }
        self.whole &= self.are_marked();
        self.drawn = !self.sides.iter().any(Shadow::is_walking) && !self.wrote && self.are_marked();
        self.compare_walks();
        false
    }

    fn compare_walks(&mut self) {
        let [dragged, moved] = self.sides.each_ref().map(Shadow::windows_done);
        self.apart = dragged != moved || self.apart && dragged.is_some();
    }

    /// Does an accepted call change a window, or where windows are?
    fn disturbs(&self, call: &Call) -> bool {
        let places = &self.sides[0].places;
        match *call {
            Call::Fill(..) | Call::Blit(..) | Call::Dim(_) => true,
            Call::Drag(id, ..) => places.is_shown(id),
            _ => places.after(call).is_some(),
        }
    }

    /// "each window shown then was marked after its last write"
    fn are_marked(&self) -> bool {
        self.sides[0].places.order.iter().all(|&id| !self.unmarked[id])
    }

    /// "the second leaves every pixel under a shown window as the topmost window there has it"
    fn screens_differ(&mut self, w: usize, answers: [&str; 2]) -> bool {
        if self.whole && !self.apart {
            self.kinds.whole += 1;
            return answers[0] != answers[1];
        }
        if !self.drawn {
            self.kinds.left_out += 1;
            return false;
        }
        self.kinds.under_shown += 1;
        let places = &self.sides[0].places;
        let is_shown = |at: usize| places.topmost((at % w) as u32, (at / w) as u32).is_some();
        // The answer's own number comes first.
        let [dragged, moved] = answers.map(|answer| answer.split(' ').skip(1));
        dragged.zip(moved).enumerate().any(|(at, (one, other))| one != other && is_shown(at))
    }
}
