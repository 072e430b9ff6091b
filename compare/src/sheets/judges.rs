//! The judges, each by a way of its own. They are held against each other before our program is.
use super::case::Case;
use super::pixman;
use crate::area::Area;
use crate::sheet::{bytes, fits, read, Band, Span};

/// The bands of all pixels that rectangles have, which may lie in any way: between two edges all rows are alike.
pub fn of_areas(areas: &[Area]) -> Vec<Band> {
    let mut edges: Vec<u32> = areas.iter().flat_map(|area| [area.top, area.bottom]).collect();
    edges.sort_unstable();
    edges.dedup();
    let mut bands: Vec<Band> = Vec::new();
    for rows in edges.windows(2) {
        let spans = between(areas, rows[0]);
        match bands.last_mut() {
            _ if spans.is_empty() => {}
            Some(last) if last.bottom == rows[0] && last.spans == spans => last.bottom = rows[1],
            _ => bands.push(Band { top: rows[0], bottom: rows[1], spans }),
        }
    }
    bands
}

/// The intervals of a row: those that meet or touch are one.
fn between(areas: &[Area], row: u32) -> Vec<Span> {
    let has = |area: &&Area| area.top <= row && row < area.bottom && area.left < area.right;
    let mut sides: Vec<Span> = areas.iter().filter(has).map(|a| Span { left: a.left, right: a.right }).collect();
    sides.sort_unstable_by_key(|span| span.left);
    let mut spans: Vec<Span> = Vec::new();
    for next in sides {
        match spans.last_mut() {
            Some(last) if next.left <= last.right => last.right = last.right.max(next.right),
            _ => spans.push(next),
        }
    }
    spans
}

/// The rectangles of bands, those without pixels left out.
fn areas_of(bands: &[Band]) -> Vec<Area> {
    let of_band = |band: &Band| {
        let (top, bottom) = (band.top, band.bottom);
        let area = move |span: &Span| Area { left: span.left, top, right: span.right, bottom };
        band.spans.iter().map(area).filter(|a| a.left < a.right && a.top < a.bottom).collect::<Vec<_>>()
    };
    bands.iter().flat_map(of_band).collect()
}

/// The bands that the words of document 02 read in the bytes, if they do; or what the judges do not agree on. By the second and the third judge bytes are
/// a sheet exactly where the pixels of their bands have the same bytes.
pub fn judged(read_bytes: &[u8]) -> Result<Option<Vec<Band>>, String> {
    let (by_rules, case) = (read(read_bytes), Case::of(read_bytes));
    if case.bytes() != read_bytes {
        return Err(format!("as a case the bytes are {:?}", case.bytes()));
    }
    let areas = areas_of(&case.bands);
    let by_areas = of_areas(&areas);
    let is_sheet = fits(&by_areas) && bytes(&by_areas) == read_bytes;
    if by_rules.is_some() != is_sheet || by_rules.as_ref().is_some_and(|bands| *bands != by_areas) {
        return Err(format!("by the rules {by_rules:?}, by rectangles {by_areas:?}"));
    }
    match pixman::of_areas(&areas) {
        Some(by_pixman) if by_pixman != by_areas => Err(format!("by rectangles {by_areas:?}, by pixman {by_pixman:?}")),
        _ => Ok(by_rules),
    }
}
