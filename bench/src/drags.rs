//! Windows that are dragged: single drags, and a second of them on one display and on eight, of a panel of 200 by 150.
//! Beside the original, which has no drag and moves; beside our own library with moves; and beside pixman, which has
//! regions of damage and no events.
use crate::call::{Call, Side};
use crate::class::{Beside, Class};
use crate::instead::Instead;
use crate::mix::Drag;
use crate::ours::Ours;
use crate::pixman;
use crate::scene::{cascade, eight_small_panel, station, Scene, DRAGGED, DRAGGED_OF_EIGHT, STEP};

/// How the names of the classes begin.
pub const DRAG: &str = "drag, ";
pub const DRAGS: &str = "a second of drags, one display";
pub const DRAGS_OF_EIGHT: &str = "a second of drags, eight displays";
const MOVES: &str = "the original has no drag: it moves the window, makes its visible lists and draws everything";

pub fn classes() -> Vec<Class> {
    let mut all: Vec<Class> = [(0, 15), (3, 12), (15, 0)].map(|(above, id)| single(above, id)).into();
    all.extend(seconds(DRAGS, station(), DRAGGED));
    all.extend(seconds(DRAGS_OF_EIGHT, eight_small_panel(), DRAGGED_OF_EIGHT));
    all
}

/// Eight drags to and fro on a screen that is drawn, some more than there are between two redraws; then they are drawn.
fn single(above: u32, id: u32) -> Class {
    let (x, y) = (id * STEP.0, id * STEP.1);
    let steps = [1, 2, 3, 4, 3, 2, 1, 0];
    let timed = steps.map(|k| Call::Drag(id, x + k, y + k)).into();
    let name = format!("{DRAG}{above} windows above and {id} below");
    Class::new(name, cascade(16), timed).between(vec![Call::Redraw(false)]).note(MOVES)
}

/// What pixman is not told.
fn is_event(call: &Call) -> bool {
    matches!(call, Call::Press(..) | Call::Release(..) | Call::Point(..) | Call::Pop(_))
}

fn seconds(name: &str, scene: Scene, drag: Drag) -> Vec<Class> {
    let class = |beside| Class::new(name, scene.clone(), drag.second(Call::Drag)).parts(1).beside(beside);
    let mut all = vec![class(Beside::Original).note(MOVES), class(Beside::Moved), class(Beside::Original).cold()];
    if pixman::INSTALLED {
        let mut alone = class(Beside::Pixman);
        alone.name += ", without events";
        alone.timed.retain(|call| !is_event(call));
        all.push(alone);
    }
    all
}

/// Our library without drags.
pub fn moved(ours: Ours) -> impl Side {
    Instead::new(ours, |ours, call| match *call {
        Call::Drag(id, x, y) => Some(ours.call(&Call::Move(id, x, y))),
        _ => None,
    })
}
