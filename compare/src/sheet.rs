//! Region sheets by the words of document 02, N6: what a sheet holds is found pixel by pixel, and its bytes bit by bit. The original has no such calls,
//! but the windows and their order are its own.
use crate::area::Area;
use crate::share::window_and_above;
use original::windows::group::Group;

/// An interval of columns: from `left` on, and not `right`.
#[derive(Clone, Copy, Debug, PartialEq)]
pub struct Span {
    pub left: u32,
    pub right: u32,
}

/// Rows from `top` on, and not `bottom`.
#[derive(Clone, Debug, PartialEq)]
pub struct Band {
    pub top: u32,
    pub bottom: u32,
    pub spans: Vec<Span>,
}

/// "band count (6 bits), and per band top, bottom (15 each), interval count (5), then left, right (15 each)": each number, and its bits
fn fields(bands: &[Band]) -> Vec<(u32, u32)> {
    let sides = |span: &Span| [(span.left, 15), (span.right, 15)];
    let of_band = |band: &Band| {
        let mut fields = vec![(band.top, 15), (band.bottom, 15), (band.spans.len() as u32, 5)];
        fields.extend(band.spans.iter().flat_map(sides));
        fields
    };
    [(bands.len() as u32, 6)].into_iter().chain(bands.iter().flat_map(of_band)).collect()
}

/// Whether each number has room in its bits.
pub fn fits(bands: &[Band]) -> bool {
    fields(bands).iter().all(|&(number, bits)| number < 1 << bits)
}

/// "packed bits, most significant first"; "Zero bits fill the last byte, and no byte follows."
pub fn bytes(bands: &[Band]) -> Vec<u8> {
    let bits_of = |(number, bits): (u32, u32)| (0..bits).rev().map(move |place| (number >> place & 1) as u8);
    let bits: Vec<u8> = fields(bands).into_iter().flat_map(bits_of).collect();
    let byte = |bits: &[u8]| (0..8).fold(0, |byte, place| 2 * byte + bits.get(place).unwrap_or(&0));
    bits.chunks(8).map(byte).collect()
}

fn bit(bytes: &[u8], at: usize) -> u32 {
    bytes.get(at / 8).map_or(0, |byte| u32::from(byte >> (7 - at % 8) & 1))
}

/// The bands that any bytes would be if they kept the rules, and how many bits these are. Past the last byte every bit is 0.
pub fn bands_of(bytes: &[u8]) -> (Vec<Band>, usize) {
    let mut end = 0;
    let mut number = |bits: usize| {
        let first = end;
        end += bits;
        (first..end).fold(0, |number, at| 2 * number + bit(bytes, at))
    };
    let count = number(6);
    let band = |_| {
        let (top, bottom, count) = (number(15), number(15), number(5));
        Band { top, bottom, spans: (0..count).map(|_| Span { left: number(15), right: number(15) }).collect() }
    };
    let bands = (0..count).map(band).collect();
    (bands, end)
}

/// The sheet that the bytes are, or none: "18 when the bytes read break any of these rules."
pub fn read(bytes: &[u8]) -> Option<Vec<Band>> {
    let (bands, bits) = bands_of(bytes);
    let ends = bytes.len() == bits.div_ceil(8) && (bits..8 * bytes.len()).all(|at| bit(bytes, at) == 0);
    let follow = |pair: &[Band]| follows(&pair[0], &pair[1]);
    (ends && bands.iter().all(is_band) && bands.windows(2).all(follow)).then_some(bands)
}

/// "Each band's top is less than its bottom …; it has at least one interval"; "Intervals are not empty, go rightward and never touch."
fn is_band(band: &Band) -> bool {
    let are_apart = |pair: &[Span]| pair[0].right < pair[1].left;
    let spans = &band.spans;
    let goes_right = spans.iter().all(|span| span.left < span.right) && spans.windows(2).all(are_apart);
    band.top < band.bottom && !spans.is_empty() && goes_right
}

/// "… and not less than the bottom of the band before …; touching bands differ in their intervals"
fn follows(before: &Band, band: &Band) -> bool {
    before.bottom < band.top || before.bottom == band.top && before.spans != band.spans
}

/// "one rectangle an interval, in sheet order": x, y, w, h each.
pub fn rects(bands: &[Band]) -> Vec<u32> {
    let of_band = |band: &Band| {
        let (top, height) = (band.top, band.bottom - band.top);
        let rect = move |span: &Span| [span.left, top, span.right - span.left, height];
        band.spans.iter().flat_map(rect).collect::<Vec<_>>()
    };
    bands.iter().flat_map(of_band).collect()
}

/// "the visible part of a window, relative to it": each pixel is asked of every window above.
pub fn of_window(window: &Area, above: &[Area]) -> Vec<Band> {
    let is_seen = |x: u32, y: u32| !above.iter().any(|area| area.has(window.left + x, window.top + y));
    let row = |y: u32| (y, columns(window.w(), |x| is_seen(x, y)));
    let rows: Vec<(u32, Vec<Span>)> = (0..window.h()).map(row).filter(|(_, spans)| !spans.is_empty()).collect();
    let is_same = |a: &(u32, Vec<Span>), b: &(u32, Vec<Span>)| a.0 + 1 == b.0 && a.1 == b.1;
    let band = |rows: &[(u32, Vec<Span>)]| {
        let bottom = rows[0].0 + rows.len() as u32;
        Band { top: rows[0].0, bottom, spans: rows[0].1.clone() }
    };
    rows.chunk_by(is_same).map(band).collect()
}

fn columns(width: u32, is_seen: impl Fn(u32) -> bool) -> Vec<Span> {
    let seen: Vec<u32> = (0..width).filter(|&x| is_seen(x)).collect();
    let span = |columns: &[u32]| Span { left: columns[0], right: columns[0] + columns.len() as u32 };
    seen.chunk_by(|a, b| a + 1 == *b).map(span).collect()
}

/// The sheet of a window of the original; of a hidden one nothing is seen.
pub fn of_group(group: &Group, id: u32) -> Vec<Band> {
    match window_and_above(group, id).split_first() {
        Some((window, above)) => of_window(window, above),
        None => Vec::new(),
    }
}
