//! A line of a call script, read as CALL-SCRIPT.md says.
use crate::look::{Look, Zoom};
use original::input::Event;
use original::Rect;

pub enum Line {
    Passed,
    Malformed,
    Call(Call),
}

/// A scanline: width and height of the pixels, then line, ofs and len.
#[derive(Clone, Copy)]
pub struct Scan {
    pub w: u32,
    pub h: u32,
    pub line: u32,
    pub ofs: u32,
    pub len: u32,
}

pub enum Call {
    Start(u32),
    Create,
    Show(u32),
    Raise(u32),
    Hide(u32),
    Drop(u32),
    Mark(u32),
    Move(u32, u32, u32),
    Drag(u32, u32, u32),
    Resize(u32, u32, u32),
    Fill(u32, Rect, u32),
    Blit(u32, Rect, u32, Vec<u32>),
    Route(Event),
    Who(Event),
    Pop(u32),
    Redraw(bool, u32, u32),
    Begin(bool),
    Portion(u32, u32),
    Dim(bool),
    Stale(u32, Rect),
    Waiting,
    Window(u32),
    Session,
    Layer(u32, u32),
    Display(Rect),
    DisplayAt(u32, u32),
    Maximise(u32),
    UpdateDims,
    Visible(u32),
    Focus,
    Share(u32),
    Hits(Vec<u32>),
    Look(Look),
    Sheet(u32),
    ReadSheet(Vec<u8>),
    Lend(u32),
    LendScreen(u32),
    LendList(u32),
    LendTarget(u32),
    LendSheet(u32),
    Screen(u32, u32),
    Pixels(u32),
    Picture(u32, u32, String),
    Intersect(Rect, Rect),
    Pieces(Rect, Rect),
    Union(Rect, Rect),
    Contains(Rect, u32, u32),
    ContainsRect(Rect, Rect),
    Within(Rect, u32, u32),
    Scanline(Scan, Vec<u32>),
    FillScanline(Scan, u32, Vec<u32>),
    SetScanline(Scan, Vec<u32>, Vec<u32>),
    Region(Rect, u32, Vec<u32>),
    Busiest(Vec<u32>),
}

/// "PIXELS and DATA are at most 4,096 numbers together"; "0 to 4,096 numbers, x and y in turn"; "0 to 4,096 numbers, each 0 to 255, else
/// malformed".
const MOST: usize = 4096;
/// "DATA is 0 to 384,000 numbers"
const MOST_DATA: usize = 384_000;
/// "T… is 0 to 4,200 times in milliseconds; more make the line malformed"
const MOST_TIMES: usize = 4200;

/// Reads a line, which comes without its newline.
pub fn read(line: &[u8]) -> Line {
    if line.is_empty() || line[0] == b'#' {
        return Line::Passed;
    }
    match std::str::from_utf8(line).ok().and_then(call) {
        Some(call) => Line::Call(call),
        None => Line::Malformed,
    }
}

fn call(line: &str) -> Option<Call> {
    let mut words = line.split(' ').filter(|word| !word.is_empty());
    let word = words.next()?;
    if word == "picture" {
        return picture(&words.collect::<Vec<_>>());
    }
    let numbers = words.map(number).collect::<Option<Vec<_>>>()?;
    session(word, &numbers)
        .or_else(|| event(word, &numbers).map(Call::Route))
        .or_else(|| who(word, &numbers).map(Call::Who))
        .or_else(|| program(word, &numbers))
        .or_else(|| geometry(word, &numbers))
        .or_else(|| pixels(word, &numbers))
        .or_else(|| read_sheet(word, &numbers))
        .or_else(|| times(word, numbers))
}

/// "A number is decimal digits, 0 to 4294967295, leading zeros allowed"
fn number(word: &str) -> Option<u32> {
    let digits = word.bytes().all(|b| b.is_ascii_digit());
    let significant = word.trim_start_matches('0');
    match (digits, significant) {
        (false, _) => None,
        (true, "") => Some(0),
        (true, digits) => digits.parse().ok(),
    }
}

fn session(word: &str, numbers: &[u32]) -> Option<Call> {
    Some(match (word, numbers) {
        ("start", &[c]) => Call::Start(c),
        ("create", &[]) => Call::Create,
        ("show", &[id]) => Call::Show(id),
        ("raise", &[id]) => Call::Raise(id),
        ("hide", &[id]) => Call::Hide(id),
        ("drop", &[id]) => Call::Drop(id),
        ("mark", &[id]) => Call::Mark(id),
        ("move", &[id, x, y]) => Call::Move(id, x, y),
        ("drag", &[id, x, y]) => Call::Drag(id, x, y),
        ("resize", &[id, w, h]) => Call::Resize(id, w, h),
        ("fill", &[id, x, y, w, h, colour]) => Call::Fill(id, Rect::new(x, y, w, h), colour),
        ("blit", &[id, x, y, w, h, stride, ref data @ ..]) if data.len() <= MOST_DATA => {
            Call::Blit(id, Rect::new(x, y, w, h), stride, data.to_vec())
        }
        ("pop", &[id]) => Call::Pop(id),
        ("redraw", &[full, w, h]) if full <= 1 => Call::Redraw(full == 1, w, h),
        ("begin", &[full]) if full <= 1 => Call::Begin(full == 1),
        ("portion", &[w, h]) => Call::Portion(w, h),
        ("dim", &[on]) if on <= 1 => Call::Dim(on == 1),
        ("stale", &[which, x, y, w, h]) => Call::Stale(which, Rect::new(x, y, w, h)),
        ("waiting", &[]) => Call::Waiting,
        ("window", &[id]) => Call::Window(id),
        ("session", &[]) => Call::Session,
        ("layer", &[id, layer]) => Call::Layer(id, layer),
        ("display", &[x, y, w, h]) => Call::Display(Rect::new(x, y, w, h)),
        ("display-at", &[x, y]) => Call::DisplayAt(x, y),
        ("maximise", &[id]) => Call::Maximise(id),
        ("update-dims", &[]) => Call::UpdateDims,
        ("visible", &[id]) => Call::Visible(id),
        ("focus", &[]) => Call::Focus,
        ("share", &[id]) => Call::Share(id),
        ("look", &[id, xh, xl, yh, yl, fh, fl, width, height]) => {
            let zoom = Zoom::Factor(float(fh, fl));
            Call::Look(Look { id, x: float(xh, xl), y: float(yh, yl), zoom, width, height })
        }
        ("look-fit", &[id, xh, xl, yh, yl, width, height]) => {
            Call::Look(Look { id, x: float(xh, xl), y: float(yh, yl), zoom: Zoom::Fit, width, height })
        }
        ("hits", points) if points.len() <= MOST => Call::Hits(points.to_vec()),
        ("sheet", &[id]) => Call::Sheet(id),
        _ => return None,
    })
}

/// "x, y and factor as the upper and lower 32 bits of an f64"
fn float(high: u32, low: u32) -> f64 {
    f64::from_bits(u64::from(high) << 32 | u64::from(low))
}

fn event(word: &str, numbers: &[u32]) -> Option<Event> {
    let byte = |n: u32| u8::try_from(n).ok();
    Some(match (word, numbers) {
        ("keydown", &[v]) => Event::KeyDown(v),
        ("keyup", &[v]) => Event::KeyUp(v),
        ("keyfire", &[v]) => Event::KeyFire(v),
        ("text", &[v]) => Event::Text(v),
        ("mousemove", &[x, y]) => Event::MouseMove(x, y, 0, 0),
        ("mousedown", &[x, y, b]) => Event::MouseDown(x, y, byte(b)?),
        ("mouseup", &[x, y, b]) => Event::MouseUp(x, y, byte(b)?),
        ("mouseclick", &[x, y, b, n]) => Event::MouseClick(x, y, byte(b)?, byte(n)?),
        ("resized", &[]) => Event::Resize,
        _ => return None,
    })
}

/// "KIND is 1 Resize, 2 KeyDown, …, else malformed"; "C is the button and D the count, each 0 to 255, else malformed, of
/// every kind"
fn who(word: &str, numbers: &[u32]) -> Option<Event> {
    let ("who", &[kind, a, b, button, count]) = (word, numbers) else { return None };
    let (button, count) = (u8::try_from(button).ok()?, u8::try_from(count).ok()?);
    Some(match kind {
        1 => Event::Resize,
        2 => Event::KeyDown(a),
        3 => Event::KeyUp(a),
        4 => Event::KeyFire(a),
        5 => Event::Text(a),
        6 => Event::MouseMove(a, b, 0, 0),
        7 => Event::MouseDown(a, b, button),
        8 => Event::MouseClick(a, b, button, count),
        9 => Event::MouseUp(a, b, button),
        _ => return None,
    })
}

fn program(word: &str, numbers: &[u32]) -> Option<Call> {
    Some(match (word, numbers) {
        ("lend", &[pixels]) => Call::Lend(pixels),
        ("lend-screen", &[pixels]) => Call::LendScreen(pixels),
        ("lend-list", &[numbers]) => Call::LendList(numbers),
        ("lend-target", &[pixels]) => Call::LendTarget(pixels),
        ("lend-sheet", &[bytes]) => Call::LendSheet(bytes),
        ("screen", &[w, h]) => Call::Screen(w, h),
        ("pixels", &[id]) => Call::Pixels(id),
        _ => return None,
    })
}

/// "1 to 64 letters, digits, `-`, `_`, `.`, the first no `.`"
fn picture(words: &[&str]) -> Option<Call> {
    let &[w, h, name] = words else { return None };
    let plain = name.bytes().all(|b| b.is_ascii_alphanumeric() || b"-_.".contains(&b));
    let good = plain && name.len() <= 64 && !name.starts_with('.');
    good.then_some(Call::Picture(number(w)?, number(h)?, name.to_string()))
}

fn geometry(word: &str, numbers: &[u32]) -> Option<Call> {
    let &[x, y, w, h, ref rest @ ..] = numbers else { return None };
    let a = Rect::new(x, y, w, h);
    Some(match (word, rest) {
        ("intersect", &[x, y, w, h]) => Call::Intersect(a, Rect::new(x, y, w, h)),
        ("pieces", &[x, y, w, h]) => Call::Pieces(a, Rect::new(x, y, w, h)),
        ("union", &[x, y, w, h]) => Call::Union(a, Rect::new(x, y, w, h)),
        ("contains", &[x, y]) => Call::Contains(a, x, y),
        ("contains-rect", &[x, y, w, h]) => Call::ContainsRect(a, Rect::new(x, y, w, h)),
        ("within", &[w, h]) => Call::Within(a, w, h),
        _ => return None,
    })
}

fn pixels(word: &str, numbers: &[u32]) -> Option<Call> {
    let &[a, b, c, d, e, ref rest @ ..] = numbers else { return None };
    let scan = Scan { w: a, h: b, line: c, ofs: d, len: e };
    let call = match (word, rest) {
        ("scanline", pixels) => Call::Scanline(scan, few(pixels)?),
        ("fill-scanline", &[value, ref pixels @ ..]) => Call::FillScanline(scan, value, few(pixels)?),
        ("set-scanline", &[n, ref both @ ..]) if n as usize <= both.len() => {
            let (data, pixels) = both.split_at(n as usize);
            few(both)?;
            Call::SetScanline(scan, data.to_vec(), pixels.to_vec())
        }
        ("region", pixels) => Call::Region(Rect::new(a, b, c, d), e, few(pixels)?),
        _ => return None,
    };
    Some(call)
}

fn read_sheet(word: &str, numbers: &[u32]) -> Option<Call> {
    let is_sheet = word == "read-sheet" && numbers.len() <= MOST;
    let bytes = numbers.iter().map(|&number| u8::try_from(number).ok());
    is_sheet.then(|| bytes.collect::<Option<_>>()).flatten().map(Call::ReadSheet)
}

fn times(word: &str, numbers: Vec<u32>) -> Option<Call> {
    (word == "busiest" && numbers.len() <= MOST_TIMES).then_some(Call::Busiest(numbers))
}

fn few(numbers: &[u32]) -> Option<Vec<u32>> {
    (numbers.len() <= MOST).then(|| numbers.to_vec())
}
