//! A closer look by the words of document 02, N9, in f64: each pixel of the target is worked out by itself. The original has no such call, but the
//! window and its pixels are its own.
use original::windows::group::Group;

#[derive(Clone, Copy, Debug)]
pub enum Zoom {
    Factor(f64),
    Fit,
}

/// A look at a window, and the size of the target.
#[derive(Clone, Copy, Debug)]
pub struct Look {
    pub id: u32,
    pub x: f64,
    pub y: f64,
    pub zoom: Zoom,
    pub width: u32,
    pub height: u32,
}

/// "a factor 0.25, 0.5, 1, 2 or 4 in f64", the greatest first
pub const FACTORS: [f64; 5] = [4.0, 2.0, 1.0, 0.5, 0.25];

/// "22 when, without fit, the factor is another or a corner number is no multiple of 0.25 from 0 to 32,767"
pub fn is_allowed(look: &Look) -> bool {
    match look.zoom {
        Zoom::Factor(factor) => FACTORS.contains(&factor) && is_corner(look.x) && is_corner(look.y),
        Zoom::Fit => true,
    }
}

/// "A corner of −0.0 counts as 0."
fn is_corner(x: f64) -> bool {
    (0.0..=32767.0).contains(&x) && (4.0 * x).fract() == 0.0
}

/// "23 when target width or height is not 1 to 32,767 or its length not their product"
pub fn is_target(look: &Look, length: u32) -> bool {
    let side = |n: u32| (1..=32767).contains(&n);
    side(look.width) && side(look.height) && u64::from(look.width) * u64::from(look.height) == u64::from(length)
}

/// "Target pixel (i,j) is the window pixel at (x + i / factor, y + j / factor), each sum rounded down; 0 outside the window."
pub fn target(group: &Group, look: &Look) -> Vec<u32> {
    let (pixels, (w, h)) = (group.pixels(look.id), group.size(look.id));
    let (x, y, factor) = match look.zoom {
        Zoom::Factor(factor) => (look.x, look.y, factor),
        Zoom::Fit => (0.0, 0.0, fit(w, h, look.width, look.height)),
    };
    let pixel = |i: u32, j: u32| {
        let (column, row) = ((x + f64::from(i) / factor).floor(), (y + f64::from(j) / factor).floor());
        match column < f64::from(w) && row < f64::from(h) {
            true => pixels[row as usize * w as usize + column as usize],
            false => 0,
        }
    };
    (0..look.height).flat_map(|j| (0..look.width).map(move |i| (i, j))).map(|(i, j)| pixel(i, j)).collect()
}

/// "the greatest factor that, multiplied by window width and height, passes neither target width nor target height, else 0.25"
pub fn fit(w: u32, h: u32, width: u32, height: u32) -> f64 {
    let passes = |factor: f64, size: u32, target: u32| factor * f64::from(size) > f64::from(target);
    let fits = |factor: &f64| !passes(*factor, w, width) && !passes(*factor, h, height);
    FACTORS.into_iter().find(fits).unwrap_or(0.25)
}
