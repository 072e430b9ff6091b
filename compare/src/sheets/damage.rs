//! Sheets with one rule broken, or with damage to their bytes, which may leave a sheet.
use super::case::Case;
use super::random::{kind, sheet, LAST, MOST};
use crate::random::Random;
use crate::sheet::{bytes, Band, Span};

/// A change of a sheet that has a band, of which it is handed the place of one; or nothing, where it cannot be made.
type Change = fn(&mut Random, &mut Case, usize) -> Option<()>;

/// The rules, each with a change that breaks it, and changes of bytes.
const CHANGES: [(&str, Change); 18] = [
    ("a band without rows", no_rows),
    ("a band upside down", upside_down),
    ("a band that begins above the end of the one before", over_the_band_before),
    ("two bands over the same rows", same_rows),
    ("bands in another order", other_order),
    ("touching bands alike", touching_alike),
    ("a band without intervals", no_spans),
    ("an empty interval", empty_span),
    ("an interval to the left", leftward),
    ("touching intervals", touching_spans),
    ("intervals in another order", spans_in_other_order),
    ("an interval over the one before", over_the_span_before),
    ("a bit in the filling", filling),
    ("a byte that follows", byte_follows),
    ("a byte missing", byte_missing),
    ("another count of bands", other_count),
    ("bits changed", bits_changed),
    ("bytes from another sheet", other_end),
];

/// A random sheet, mostly damaged, and what was done to it. Its bytes are what is read.
pub fn case(random: &mut Random) -> (&'static str, Vec<u8>) {
    if random.chance(30) {
        return ("random bytes", any_bytes(random));
    }
    let of = kind(random);
    let mut case = Case::good(sheet(random, of));
    let good = ("no damage", case.bytes());
    if random.chance(300) || case.bands.is_empty() {
        return good;
    }
    let (name, change) = random.pick(&CHANGES);
    let place = random.from_to(0, case.bands.len() as u32 - 1) as usize;
    match change(random, &mut case, place).map(|()| case.bytes()) {
        Some(damaged) if damaged.len() <= MOST => (name, damaged),
        _ => good,
    }
}

/// None at all now and then, and often few, of which many are 0.
fn any_bytes(random: &mut Random) -> Vec<u8> {
    let most = random.weighted(&[(30, 0), (500, 1), (300, 12), (160, 60), (10, 4096)]);
    let zeros = random.pick(&[0, 500, 900]);
    let byte = |random: &mut Random| if random.chance(zeros) { 0 } else { random.from_to(0, 255) as u8 };
    (0..random.from_to(most.min(1), most)).map(|_| byte(random)).collect()
}

/// The place of an interval.
fn any(random: &mut Random, spans: &[Span]) -> usize {
    random.from_to(0, spans.len() as u32 - 1) as usize
}

fn no_rows(_: &mut Random, case: &mut Case, place: usize) -> Option<()> {
    case.bands[place].bottom = case.bands[place].top;
    Some(())
}

fn upside_down(_: &mut Random, case: &mut Case, place: usize) -> Option<()> {
    let Band { top, bottom, .. } = &mut case.bands[place];
    std::mem::swap(top, bottom);
    Some(())
}

fn over_the_band_before(_: &mut Random, case: &mut Case, place: usize) -> Option<()> {
    let before = place.checked_sub(1)?;
    case.bands[place].top = case.bands[before].bottom - 1;
    Some(())
}

/// A band with several intervals becomes two, which have their rectangles in the same order.
fn same_rows(random: &mut Random, case: &mut Case, place: usize) -> Option<()> {
    let count = case.bands[place].spans.len() as u32;
    if count < 2 || case.bands.len() == 63 {
        return None;
    }
    let band = &mut case.bands[place];
    let spans = band.spans.split_off(random.from_to(1, count - 1) as usize);
    let other = Band { spans, ..*band };
    case.bands.insert(place + 1, other);
    Some(())
}

fn other_order(_: &mut Random, case: &mut Case, place: usize) -> Option<()> {
    let before = place.checked_sub(1)?;
    case.bands.swap(before, place);
    Some(())
}

/// A band becomes two, one of them with its last row.
fn touching_alike(_: &mut Random, case: &mut Case, place: usize) -> Option<()> {
    let Band { top, bottom, ref spans } = case.bands[place];
    if bottom - top < 2 || case.bands.len() == 63 {
        return None;
    }
    let below = Band { top: bottom - 1, bottom, spans: spans.clone() };
    case.bands[place].bottom = bottom - 1;
    case.bands.insert(place + 1, below);
    Some(())
}

fn no_spans(_: &mut Random, case: &mut Case, place: usize) -> Option<()> {
    case.bands[place].spans.clear();
    Some(())
}

fn empty_span(random: &mut Random, case: &mut Case, place: usize) -> Option<()> {
    let spans = &mut case.bands[place].spans;
    let at = any(random, spans);
    spans[at].right = spans[at].left;
    Some(())
}

fn leftward(random: &mut Random, case: &mut Case, place: usize) -> Option<()> {
    let spans = &mut case.bands[place].spans;
    let at = any(random, spans);
    let Span { left, right } = &mut spans[at];
    std::mem::swap(left, right);
    Some(())
}

/// An interval becomes two, of which one is its last column.
fn touching_spans(random: &mut Random, case: &mut Case, place: usize) -> Option<()> {
    let spans = &mut case.bands[place].spans;
    let at = any(random, spans);
    let Span { left, right } = spans[at];
    if right - left < 2 || spans.len() == 31 {
        return None;
    }
    spans[at].right = right - 1;
    spans.insert(at + 1, Span { left: right - 1, right });
    Some(())
}

fn spans_in_other_order(random: &mut Random, case: &mut Case, place: usize) -> Option<()> {
    let spans = &mut case.bands[place].spans;
    let at = any(random, spans);
    spans.swap(at.checked_sub(1)?, at);
    Some(())
}

fn over_the_span_before(random: &mut Random, case: &mut Case, place: usize) -> Option<()> {
    let spans = &mut case.bands[place].spans;
    let at = any(random, spans);
    spans[at].left = spans[at.checked_sub(1)?].right - 1;
    Some(())
}

/// One of the bits that are 0 in every sheet; some sheets have none.
fn filling(random: &mut Random, case: &mut Case, _: usize) -> Option<()> {
    let spans: usize = case.bands.iter().map(|band| band.spans.len()).sum();
    let bits = 6 + 35 * case.bands.len() + 30 * spans;
    let free = (8 - bits % 8) % 8;
    case.filling = 1 << random.from_to(0, free.checked_sub(1)? as u32);
    Some(())
}

fn byte_follows(random: &mut Random, case: &mut Case, _: usize) -> Option<()> {
    let byte = random.pick(&[0, 0, 1, 128, 255]);
    case.more = vec![byte; random.pick(&[1, 1, 2, 8])];
    Some(())
}

fn byte_missing(random: &mut Random, case: &mut Case, _: usize) -> Option<()> {
    case.lacks = random.from_to(1, 6) as usize;
    Some(())
}

fn other_count(random: &mut Random, case: &mut Case, _: usize) -> Option<()> {
    let mut changed = case.bytes();
    let by = random.pick(&[4, 252]);
    changed[0] = changed[0].wrapping_add(by);
    *case = Case::of(&changed);
    Some(())
}

fn bits_changed(random: &mut Random, case: &mut Case, _: usize) -> Option<()> {
    let mut changed = case.bytes();
    for _ in 0..random.pick(&[1, 1, 1, 2, 3]) {
        let at = random.from_to(0, 8 * changed.len() as u32 - 1);
        changed[at as usize / 8] ^= 128 >> (at % 8);
    }
    *case = Case::of(&changed);
    Some(())
}

fn other_end(random: &mut Random, case: &mut Case, _: usize) -> Option<()> {
    let other = kind(random);
    let (mut changed, other) = (case.bytes(), bytes(&sheet(random, other)));
    let at = random.from_to(1, LAST) as usize % changed.len().min(other.len());
    changed.truncate(at);
    changed.extend(&other[at..]);
    *case = Case::of(&changed);
    Some(())
}
