//! The questions of document 01 that the original does not ask: all but 10, 11 and 12. And the limits of the program itself.
use crate::area::Area;
use crate::busiest;
use crate::call::{Call, Scan};
use crate::hits;
use crate::look;
use crate::shadow::Shadow;
use crate::share;
use crate::sheet;
use original::input::Event;
use original::windows::group::Group;
use original::Rect;

/// What is lent, and the session's C.
pub struct Lent {
    pub c: u32,
    pub store: u32,
    /// The lengths for the next `redraw` or `portion`, the next `visible`, `hits` or `read-sheet`, the next `look` or `look-fit`, and the next
    /// `sheet`.
    pub screen: Option<u32>,
    pub list: Option<u32>,
    pub target: Option<u32>,
    pub sheet: Option<u32>,
}

pub const STORE: u32 = 6_144_000;
pub const SCREEN: u32 = 3_072_000;
/// Also what a `read-sheet` is lent where no `lend-list` is pending.
pub const LIST: u32 = 7_812;
pub const TARGET: u32 = 65_536;
pub const SHEET: u32 = 2_048;
/// What a `visible` and a `hits` are lent there.
const VISIBLE: u32 = 1_984;
const POINTS: u32 = 96;

/// Must the program answer `!`?
pub fn cannot(call: &Call, lent: &Lent) -> bool {
    let size = |w: u32, h: u32| u64::from(w) * u64::from(h);
    let large = |w: u32, h: u32| size(w, h) > u64::from(SCREEN);
    match *call {
        Call::Start(c) => (STORE / 16 + 1..=1_048_576).contains(&c),
        Call::Lend(pixels) => pixels > STORE,
        Call::LendScreen(pixels) => pixels > SCREEN,
        Call::LendList(numbers) => numbers > LIST,
        Call::LendTarget(pixels) => pixels > TARGET,
        Call::LendSheet(bytes) => bytes > SHEET,
        Call::Look(look) => lent.target.is_none() && size(look.width, look.height) > u64::from(TARGET),
        Call::Redraw(_, w, h) | Call::Portion(w, h) => lent.screen.is_none() && large(w, h),
        Call::Screen(w, h) | Call::Picture(w, h, _) => large(w, h),
        _ => false,
    }
}

/// The number of the first question with a no, or 0. The original knows of no walk, and of no limit to displays and what is maximised there: the
/// shadow does.
pub fn answer(call: &Call, group: &Group, lent: &Lent, shadow: &Shadow) -> u8 {
    let store = || (1, u64::from(lent.store) == 16 * u64::from(lent.c));
    let used = |id: u32| (3, id < 16 && group.is_used(id));
    let screen = |w: u32, h: u32| (8, is_screen(w, h, lent.screen));
    let displays = &shadow.places.displays;
    match call {
        Call::Start(c) => first_no(&[(2, (1..=1_048_576).contains(c))]),
        Call::Create => first_no(&[(4, group.count() < 16)]),
        Call::Show(id) | Call::Hide(id) | Call::Drop(id) | Call::Mark(id) | Call::Pop(id) => first_no(&[used(*id)]),
        Call::Raise(id) => first_no(&[used(*id)]),
        Call::Layer(id, layer) => first_no(&[used(*id), (17, *layer <= 1)]),
        Call::Display(region) => first_no(&[small_rect(region), (15, is_display(region)), (16, displays.count() < 8)]),
        Call::DisplayAt(x, y) => first_no(&[small(&[*x, *y])]),
        // The size of an unused id is not asked for.
        Call::Maximise(id) if !used(*id).1 => first_no(&[store(), used(*id)]),
        Call::Maximise(_) | Call::UpdateDims => {
            let fit = |size: &Area| u64::from(size.w()) * u64::from(size.h()) <= u64::from(lent.c);
            let sizes = shadow.places.sizes_taken(call);
            first_no(&[store(), (6, sizes.iter().all(|(_, size)| fit(size)))])
        }
        Call::Move(id, x, y) | Call::Drag(id, x, y) => first_no(&[used(*id), small(&[*x, *y])]),
        Call::Resize(id, w, h) => {
            let fits = u64::from(*w) * u64::from(*h) <= u64::from(lent.c);
            first_no(&[store(), used(*id), small(&[*w, *h]), (6, fits)])
        }
        Call::Fill(id, area, _) => first_no(&[store(), used(*id), small_rect(area)]),
        Call::Blit(id, area, stride, _) => first_no(&[store(), used(*id), small_rect(area), (7, *stride >= 1)]),
        Call::Route(event) | Call::Who(event) => {
            first_no(&[(21, !matches!(event, Event::KeyFire(_))), small_point(event)])
        }
        Call::Redraw(_, w, h) => first_no(&[store(), screen(*w, *h)]),
        Call::Portion(w, h) => first_no(&[store(), screen(*w, *h), (20, shadow.is_walking())]),
        Call::Stale(which, area) => {
            let is_there = *which != 2 || shadow.is_walking();
            first_no(&[small_rect(area), (28, *which <= 2), (20, is_there)])
        }
        Call::Window(id) => first_no(&[used(*id)]),
        Call::Visible(id) => {
            let needed = |id| 4 * group.visible(id).len() as u64;
            let room = u64::from(lent.list.unwrap_or(VISIBLE));
            first_no(&[used(*id), (9, needed(*id) <= room)])
        }
        Call::Share(id) => first_no(&[used(*id), (24, share::is_given(group, *id))]),
        Call::Look(look) => {
            let length = lent.target.unwrap_or(look.width.wrapping_mul(look.height));
            first_no(&[store(), used(look.id), (22, look::is_allowed(look)), (23, look::is_target(look, length))])
        }
        Call::Hits(points) => first_no(&[small(points), (25, hits::fit(points, lent.list.unwrap_or(POINTS)))]),
        Call::Sheet(id) => {
            let length = || sheet::bytes(&sheet::of_group(group, *id)).len() as u32;
            first_no(&[used(*id), (19, !used(*id).1 || length() <= lent.sheet.unwrap_or(SHEET))])
        }
        Call::ReadSheet(bytes) => read_sheet(bytes, lent.list.unwrap_or(LIST)),
        _ => bare(call),
    }
}

/// "19 when … the reader's list [is shorter] than its rectangles, asked after 18"
fn read_sheet(bytes: &[u8], room: u32) -> u8 {
    let read = sheet::read(bytes);
    let holds = |bands: &Vec<sheet::Band>| sheet::rects(bands).len() as u32 <= room;
    first_no(&[(18, read.is_some()), (19, read.as_ref().is_none_or(holds))])
}

fn bare(call: &Call) -> u8 {
    match call {
        Call::Intersect(a, b) | Call::Pieces(a, b) | Call::Union(a, b) | Call::ContainsRect(a, b) => {
            first_no(&[ends(a), ends(b)])
        }
        Call::Contains(a, ..) | Call::Within(a, ..) => first_no(&[ends(a)]),
        Call::Scanline(scan, pixels) => {
            let inside = scan.w == 0 || scan.line < scan.h && scan.ofs < scan.w && reaches(scan, pixels);
            first_no(&[small_scan(scan), (13, inside)])
        }
        Call::FillScanline(scan, _, pixels) | Call::SetScanline(scan, _, pixels) => {
            let inside = scan.line >= scan.h || scan.ofs >= scan.w || reaches(scan, pixels);
            first_no(&[small_scan(scan), (13, inside)])
        }
        Call::Busiest(times) => busiest::answer(times),
        Call::Region(area, stride, pixels) => first_no(&[small_rect(area), (13, is_region(area, *stride, pixels))]),
        _ => 0,
    }
}

fn first_no(questions: &[(u8, bool)]) -> u8 {
    questions.iter().find(|(_, yes)| !yes).map_or(0, |(number, _)| *number)
}

fn small(numbers: &[u32]) -> (u8, bool) {
    (5, numbers.iter().all(|&number| number <= 32_767))
}

fn small_rect(area: &Rect) -> (u8, bool) {
    small(&[area.pos.x, area.pos.y, area.dims.w, area.dims.h])
}

/// "15 when an added display has width or height 0, or x + w or y + h above 32,767"
fn is_display(region: &Rect) -> bool {
    let fits = |from: u32, size: u32| size > 0 && from.saturating_add(size) <= 32_767;
    fits(region.pos.x, region.dims.w) && fits(region.pos.y, region.dims.h)
}

fn small_scan(scan: &Scan) -> (u8, bool) {
    small(&[scan.w, scan.h, scan.line, scan.ofs, scan.len])
}

fn small_point(event: &Event) -> (u8, bool) {
    use Event::{MouseClick, MouseDown, MouseMove, MouseUp};
    match *event {
        MouseMove(x, y, ..) | MouseDown(x, y, _) | MouseClick(x, y, ..) | MouseUp(x, y, _) => small(&[x, y]),
        _ => small(&[]),
    }
}

fn is_screen(w: u32, h: u32, length: Option<u32>) -> bool {
    let side = 1..=32_767;
    side.contains(&w) && side.contains(&h) && length.is_none_or(|length| length == w * h)
}

fn ends(rect: &Rect) -> (u8, bool) {
    let sides = (rect.pos.x.checked_add(rect.dims.w), rect.pos.y.checked_add(rect.dims.h));
    (14, matches!(sides, (Some(_), Some(_))))
}

/// Does the part, cut to the width, end in the pixels?
fn reaches(scan: &Scan, pixels: &[u32]) -> bool {
    let start = u64::from(scan.line) * u64::from(scan.w) + u64::from(scan.ofs);
    start + u64::from(scan.len.min(scan.w.saturating_sub(scan.ofs))) <= pixels.len() as u64
}

fn is_region(area: &Rect, stride: u32, pixels: &[u32]) -> bool {
    let wide = |number: u32| u64::from(number);
    if area.dims.h == 0 || area.dims.w > stride {
        return false;
    }
    let start = wide(area.pos.x) + wide(area.pos.y) * wide(stride);
    start + wide(area.dims.h - 1) * wide(stride) + wide(area.dims.w) <= pixels.len() as u64
}
