//! Many points together, beside as many calls of the original's `get_win_at_pos`.
use crate::call::Call;
use crate::class::Class;
use crate::scene::{cascade, STEP};
use roqshyn::Pos;

/// How the names of the classes begin.
pub const POINTS: &str = "32 points together";

/// Two points in each of 16 windows; and points that no window has, for which every window is looked at.
pub fn classes() -> Vec<Class> {
    let seen = |k: u32, dx: u32, dy: u32| Pos::new(k * STEP.0 + dx, k * STEP.1 + dy);
    let spread = (0..16).flat_map(|k| [seen(k, 2, 2), seen(15 - k, 20, 10)]).collect();
    let outside = (0..32).map(|k| Pos::new(900 + 10 * k, 40 + 10 * k)).collect();
    let class = |which: &str, points: Vec<Pos>| {
        Class::new(format!("{POINTS}, 16 windows{which}"), cascade(16), vec![Call::Hits(points)])
    };
    vec![class("", spread), class(", none has any", outside)]
}
