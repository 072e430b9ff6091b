//! Pixman's regions, which keep their rectangles in bands as sheets do. They say nothing where it is not installed.
use crate::area::Area;
use crate::sheet::{Band, Span};
use ::pixman::{Box32, Region};

pub use ::pixman::INSTALLED;

fn region(areas: &[Area]) -> Region {
    let corners = |a: &Area| Box32 { x1: a.left as i32, y1: a.top as i32, x2: a.right as i32, y2: a.bottom as i32 };
    Region::of_all(&areas.iter().map(corners).collect::<Vec<Box32>>())
}

fn bands(region: &Region) -> Vec<Band> {
    let span = |b: &Box32| Span { left: b.x1 as u32, right: b.x2 as u32 };
    let band = |boxes: &[Box32]| {
        let (top, bottom) = (boxes[0].y1 as u32, boxes[0].y2 as u32);
        Band { top, bottom, spans: boxes.iter().map(span).collect() }
    };
    region.rectangles().chunk_by(|a, b| a.y1 == b.y1).map(band).collect()
}

/// The bands of all pixels of the rectangles.
pub fn of_areas(areas: &[Area]) -> Option<Vec<Band>> {
    INSTALLED.then(|| bands(&region(areas)))
}

/// The bands of a window without those above it, one by one, relative to it.
pub fn of_window(window: &Area, above: &[Area]) -> Option<Vec<Band>> {
    if !INSTALLED {
        return None;
    }
    let mut seen = region(&[*window]);
    for area in above {
        seen.subtract(&region(&[*area]));
    }
    seen.translate(-(window.left as i32), -(window.top as i32));
    Some(bands(&seen))
}
