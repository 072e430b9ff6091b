//! Random sheets that keep the rules.
use crate::random::Random;
use crate::sheet::{bytes, Band, Span};

/// The greatest number of 15 bits.
pub const LAST: u32 = 32_767;
/// The most bytes that a line may have.
pub const MOST: usize = 4096;

/// How many bands, how many intervals at most, and how far an edge is from the one before it at most.
#[derive(Clone, Copy)]
pub struct Kind {
    pub bands: (u32, u32),
    pub spans: u32,
    pub gap: u32,
}

/// Mostly a few bands; now and then as many bands or intervals as a sheet may have, or as a line of a script.
pub fn kind(random: &mut Random) -> Kind {
    random.weighted(&[
        (500, Kind { bands: (0, 4), spans: 3, gap: 3 }),
        (250, Kind { bands: (1, 8), spans: 5, gap: 400 }),
        (60, Kind { bands: (1, 3), spans: 4, gap: 12_000 }),
        (40, Kind { bands: (5, 20), spans: 8, gap: 20 }),
        (10, Kind { bands: (60, 63), spans: 2, gap: 500 }),
        (10, Kind { bands: (1, 4), spans: 31, gap: 1_000 }),
        (4, Kind { bands: (20, 63), spans: 31, gap: 300 }),
    ])
}

/// Bands that keep the rules, from the top on, as long as they fit.
pub fn sheet(random: &mut Random, kind: Kind) -> Vec<Band> {
    let mut bands: Vec<Band> = Vec::new();
    for _ in 0..random.from_to(kind.bands.0, kind.bands.1) {
        match next(random, kind, bands.last()) {
            Some(band) => bands.push(band),
            None => break,
        }
    }
    while bytes(&bands).len() > MOST {
        bands.pop();
    }
    if random.chance(50) {
        stretch(&mut bands);
    }
    bands
}

/// The band below the last one, often touching it, and then often nearly the same.
fn next(random: &mut Random, kind: Kind, before: Option<&Band>) -> Option<Band> {
    let is_touching = random.chance(600);
    let from = before.map_or(0, |band| band.bottom);
    let top = if is_touching { from } else { from + random.from_to(0, kind.gap) };
    let bottom = top + random.from_to(1, kind.gap);
    let spans = match before {
        Some(before) if random.chance(500) => nearly(random, &before.spans),
        _ => spans(random, kind),
    };
    let repeats = before.is_some_and(|before| before.bottom == top && before.spans == spans);
    (bottom <= LAST && !spans.is_empty() && !repeats).then_some(Band { top, bottom, spans })
}

fn spans(random: &mut Random, kind: Kind) -> Vec<Span> {
    let count = random.from_to(1, kind.spans);
    // As many as there may be, in one of two.
    let count = if kind.spans == 31 && random.chance(500) { 31 } else { count };
    let mut left = random.from_to(0, kind.gap);
    let mut spans = Vec::new();
    for _ in 0..count {
        let right = left + random.from_to(1, kind.gap);
        if right > LAST {
            break;
        }
        spans.push(Span { left, right });
        left = right + random.from_to(1, kind.gap);
    }
    spans
}

/// The same intervals, but one is left out, one is longer or shorter, or all stay.
fn nearly(random: &mut Random, spans: &[Span]) -> Vec<Span> {
    let mut spans = spans.to_vec();
    let place = random.from_to(0, spans.len() as u32 - 1) as usize;
    match random.from_to(0, 3) {
        0 => _ = spans.remove(place),
        1 if spans[place].right - spans[place].left > 1 => spans[place].right -= 1,
        2 if spans.get(place + 1).map_or(LAST + 1, |next| next.left) > spans[place].right + 1 => {
            spans[place].right += 1
        }
        _ => {}
    }
    spans
}

/// The last band ends with the last row, and its last interval with the last column, unless it would be the band before.
fn stretch(bands: &mut [Band]) {
    let Some((last, before)) = bands.split_last_mut() else { return };
    let mut spans = last.spans.clone();
    if let Some(span) = spans.last_mut() {
        span.right = LAST;
    }
    last.bottom = LAST;
    if before.last().is_none_or(|band| band.spans != spans) {
        last.spans = spans;
    }
}
