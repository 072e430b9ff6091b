//! Windows maximised and updated on eight displays, and displays asked for, beside the original's own functions.
use crate::call::Call;
use crate::class::{Class, Limit};
use crate::classes::{CLEARED, LISTS};
use crate::scene::{eight, eight_not_maximised, HEIGHT, WIDTH};

/// How the names of the classes begin.
pub const MAXIMISE: &str = "maximise";
pub const UPDATE: &str = "update of 16 windows on eight displays";
pub const DISPLAY_AT: &str = "display at a position, of eight";

pub fn classes() -> Vec<Class> {
    vec![
        maximised(),
        Class::new(format!("{UPDATE}, 8 maximised"), eight(), vec![Call::UpdateDims]).between(heard()).note(LISTS),
        Class::new(format!("{UPDATE}, none maximised"), eight_not_maximised(), vec![Call::UpdateDims]).note(LISTS),
        asked(", on it", HEIGHT / 2),
        asked(", on none", 2 * HEIGHT),
    ]
}

/// A plan of one row, half as wide as its display, takes it.
fn maximised() -> Class {
    let small = vec![Call::Pop(0), Call::Resize(0, WIDTH / 2, HEIGHT), Call::Resize(0, WIDTH / 2, 1)];
    let small: Vec<Call> = small.into_iter().chain([Call::Pop(0), Call::Pop(0)]).collect();
    let mut scene = eight();
    scene.setup.extend(small[1..].to_vec());
    let limit = Limit::Cleared(scene.c);
    let name = format!("{MAXIMISE}, 800 by 480, C 384,000");
    Class::new(name, scene, vec![Call::Maximise(0)]).between(small).limit(limit).note(CLEARED)
}

/// Every plan hears of an update.
fn heard() -> Vec<Call> {
    (0..8).map(Call::Pop).collect()
}

/// Positions in the middle of each display, or below it.
fn asked(which: &str, y: u32) -> Class {
    let points = (0..8).map(|k| Call::DisplayAt(k * WIDTH + WIDTH / 2, y)).collect();
    Class::new(format!("{DISPLAY_AT}{which}"), eight(), points)
}
