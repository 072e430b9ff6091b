//! The share in view by the words of document 02, N11: every pixel of the window is asked of every window above it. The original has no such
//! call, but the windows and their order are its own.
use crate::area::Area;
use original::windows::group::Group;

/// "24 when the window is hidden or has no pixels"
pub fn is_given(group: &Group, id: u32) -> bool {
    window_and_above(group, id).first().is_some_and(|window| !window.is_empty())
}

/// "100 × its unobscured pixels divided by w × h, as whole percent and exact remainder"
pub fn percent_and_remainder(group: &Group, id: u32) -> [u32; 2] {
    let areas = window_and_above(group, id);
    let size = areas[0].w() * areas[0].h();
    let seen = 100 * unobscured(&areas[0], &areas[1..]);
    [seen / size, seen % size]
}

/// Nothing where the window is hidden or there is none.
pub fn window_and_above(group: &Group, id: u32) -> Vec<Area> {
    group.shown().iter().skip_while(|(shown, _)| *shown != id).map(|(_, rect)| Area::of(rect)).collect()
}

/// "Pixels off the screen count too."
fn unobscured(window: &Area, above: &[Area]) -> u32 {
    let is_seen = |x: u32, y: u32| !above.iter().any(|area| area.has(x, y));
    let in_row = |y: u32| (window.left..window.right).filter(|&x| is_seen(x, y)).count() as u32;
    (window.top..window.bottom).map(in_row).sum()
}
