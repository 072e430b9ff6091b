//! A closer look at a window of 1,280 by 800, beside a loop in Rust with the same rule in f64, as document 02 says it; with the factor 1 also beside
//! `memcpy` of as many rows. The target is the screen, and as large as the window fills it.
use crate::call::{Area, Call, Reply, Side};
use crate::class::{Beside, Class, Limit};
use crate::instead::Instead;
use crate::ours::Ours;
use crate::plain::Copied;
use crate::scene::{alone, Scene, HEIGHT, WIDTH};

/// How the names of the classes begin.
pub const LOOK: &str = "look";
/// The factors, none for fit, and the sizes of the targets.
pub const LOOKS: [(Option<f64>, u32, u32); 6] = [
    (Some(0.25), 310, 190),
    (Some(0.5), 630, 390),
    (Some(1.0), WIDTH, HEIGHT),
    (Some(2.0), WIDTH, HEIGHT),
    (Some(4.0), WIDTH, HEIGHT),
    (None, WIDTH, HEIGHT),
];
const WINDOW: (u32, u32) = (1280, 800);
const CORNER: (f64, f64) = (17.75, 9.25);

pub fn name(factor: Option<f64>) -> String {
    factor.map_or(format!("{LOOK}, fit"), |factor| format!("{LOOK}, factor {factor}"))
}

/// A window with no two rows alike, which is hidden.
fn scene(width: u32, height: u32) -> Scene {
    let (w, h) = WINDOW;
    let mut scene = Scene { width, height, ..alone(w, h) };
    let data = (0..w * h).map(|k| k.wrapping_mul(2_654_435_761)).collect();
    scene.setup.push(Call::Blit(0, Area(0, 0, w, h), data));
    scene
}

pub fn classes() -> Vec<Class> {
    let class = |(factor, width, height)| {
        let call = Call::Look(CORNER.0, CORNER.1, factor);
        let class = Class::new(name(factor), scene(width, height), vec![call]).beside(Beside::Floats);
        if factor == Some(1.0) {
            return class.limit(Limit::Rows(Copied::areas(vec![Area(0, 0, WIDTH, HEIGHT)])));
        }
        class
    };
    LOOKS.map(class).into()
}

/// The greatest factor with which the window passes the target in neither width nor height.
fn fit(w: usize, h: usize, tw: usize, th: usize) -> f64 {
    let passes = |factor: &&f64| **factor * w as f64 <= tw as f64 && **factor * h as f64 <= th as f64;
    *[4.0, 2.0, 1.0, 0.5].iter().find(passes).unwrap_or(&0.25)
}

/// What a target shows of a window.
#[inline(never)]
pub fn look(window: &[u32], w: usize, h: usize, x: f64, y: f64, factor: f64, target: &mut [u32], tw: usize) {
    for (j, row) in target.chunks_exact_mut(tw).enumerate() {
        let line = (y + j as f64 / factor) as usize;
        for (i, pixel) in row.iter_mut().enumerate() {
            let column = (x + i as f64 / factor) as usize;
            *pixel = if column < w && line < h { window[line * w + column] } else { 0 };
        }
    }
}

/// Our library, with the loop in place of a look.
pub fn floats(ours: Ours) -> impl Side {
    Instead::new(ours, |ours, call| {
        let Call::Look(x, y, factor) = *call else { return None };
        ours.look_by(|window, w, h, target, tw| match factor {
            Some(factor) => look(window, w, h, x, y, factor, target, tw),
            None => look(window, w, h, 0.0, 0.0, fit(w, h, tw, target.len() / tw), target, tw),
        });
        Some(Reply::Answer(0))
    })
}
