//! Rectangles of one window, filled and blitted. How far the places of a rectangle lie apart decides from which of the caches its
//! pixels come, and that changes the ratios: so they lie near to each other, or far from each other.
use crate::call::{Area, Call};
use crate::class::{Beside, Class};
use crate::scene::{alone, Scene, HEIGHT, WIDTH};

const WIDTHS: [u32; 7] = [8, 16, 32, 64, 100, 300, 800];
/// The rows of a rectangle.
const ROWS: u32 = 64;
/// Single rows: a screen's, one whose pixels fit the first cache, and the longest that a window may have.
const SINGLE: [u32; 3] = [800, 4_000, 32_767];
/// A rectangle is drawn at so many places, one after the other.
const PLACES: u32 = 8;

pub fn classes() -> Vec<Class> {
    let mut all = Vec::new();
    for (word, call) in [("fill", fill as fn(Area) -> Call), ("blit", blit)] {
        for (lie, place) in [("near", near as fn(u32, u32) -> Area), ("far", far)] {
            for w in WIDTHS {
                let calls = (0..PLACES).map(|k| call(place(w, k))).collect();
                all.push(class(format!("{word} {w} by {ROWS}, {lie}"), alone(WIDTH, HEIGHT), calls));
            }
        }
        for w in SINGLE {
            all.push(class(format!("{word} {w} by 1"), alone(w, 1), vec![call(Area(0, 0, w, 1))]));
        }
    }
    all
}

fn class(name: String, scene: Scene, calls: Vec<Call>) -> Class {
    Class::new(name, scene, calls).beside(Beside::Loops)
}

fn fill(area: Area) -> Call {
    Call::Fill(0, area, 0x0033_6699)
}

fn blit(area: Area) -> Call {
    Call::Blit(0, area, (0..area.2 * area.3).collect())
}

/// The same rows, one column further each time: all alignments, and the same cache lines again.
fn near(w: u32, k: u32) -> Area {
    Area(k % (WIDTH - w + 1), 0, w, ROWS)
}

/// All over the window.
fn far(w: u32, k: u32) -> Area {
    Area((k * 83 + 5) % (WIDTH - w + 1), k * 151 % (HEIGHT - ROWS + 1), w, ROWS)
}
