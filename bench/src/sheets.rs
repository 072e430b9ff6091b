//! The sheet of a window under 15 bars that cross, written and read: beside pixman's region of the same rectangles, which has a rectangle for each
//! interval too, in the same order.
use crate::call::Call;
use crate::class::{Beside, Class};
use crate::pixman;
use crate::scene::free_bars;

/// How the names of the classes begin, and how those end where pixman subtracts one region.
pub const WRITTEN: &str = "sheet written";
pub const READ: &str = "sheet read";
pub const AT_ONCE: &str = ", those above as one region";

pub fn classes() -> Vec<Class> {
    let ways = match pixman::INSTALLED {
        true => vec![(Beside::Pixman, ""), (Beside::PixmanAtOnce, AT_ONCE)],
        // Ours alone: the original has no sheets.
        false => vec![(Beside::Original, "")],
    };
    ways.into_iter().flat_map(|(beside, way)| [written(beside, way), read(beside, way)]).collect()
}

pub fn name(what: &str, way: &str) -> String {
    format!("{what}, of the lowest, crossing windows: 16{way}")
}

fn written(beside: Beside, way: &str) -> Class {
    Class::new(name(WRITTEN, way), free_bars(), vec![Call::Sheet(0)]).beside(beside)
}

/// Pixman has the rectangles from its region, made anew.
fn read(beside: Beside, way: &str) -> Class {
    let mut scene = free_bars();
    scene.setup.push(Call::Sheet(0));
    Class::new(name(READ, way), scene, vec![Call::ReadSheet]).beside(beside)
}
