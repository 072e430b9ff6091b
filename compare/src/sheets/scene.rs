//! Random windows, some hidden, some on layer 1.
use crate::area::Area;
use crate::random::Random;
use crate::sheet::{of_window, Band};

/// The most pixels of a window that the program can lend.
pub const C: u32 = 65_536;

#[derive(Clone, Debug, PartialEq)]
pub struct Window {
    pub x: u32,
    pub y: u32,
    pub w: u32,
    pub h: u32,
    pub is_shown: bool,
    pub layer: u32,
}

impl Window {
    fn new(x: u32, y: u32, w: u32, h: u32) -> Window {
        Window { x, y, w, h, is_shown: true, layer: 0 }
    }

    fn area(&self) -> Area {
        Area::new(self.x, self.y, self.w, self.h)
    }
}

/// The places that windows are given, by their number and how many there are.
type Place = fn(&mut Random, u32, u32) -> Window;

pub fn random(random: &mut Random) -> Vec<Window> {
    let count = random.weighted(&[(4, 4), (3, 8), (3, 16)]);
    let count = random.from_to(1, count);
    let place = random.weighted::<Place>(&[
        (30, small),
        (20, snapped),
        (20, crossing),
        (10, stairs),
        (10, nested),
        (2, wide),
        (4, far),
    ]);
    let mut windows: Vec<Window> = (0..count).map(|k| place(random, k, count)).collect();
    if random.chance(400) {
        windows.iter_mut().for_each(|window| window.is_shown = random.chance(850));
    }
    if random.chance(250) {
        windows.iter_mut().for_each(|window| window.layer = u32::from(random.chance(300)));
    }
    windows
}

fn small(random: &mut Random, _: u32, _: u32) -> Window {
    let (x, y) = (random.from_to(0, 16), random.from_to(0, 16));
    Window::new(x, y, random.from_to(0, 12), random.from_to(0, 12))
}

/// Edges that often touch.
fn snapped(random: &mut Random, k: u32, _: u32) -> Window {
    let mut number = |most: u32| 3 * random.from_to(u32::from(most > 5), most);
    match k {
        0 => Window::new(3, 3, 18, 15),
        _ => Window::new(number(5), number(5), number(6), number(6)),
    }
}

/// A plan under bars, every second one upright.
fn crossing(random: &mut Random, k: u32, _: u32) -> Window {
    let at = random.from_to(0, 60);
    match k {
        0 => Window::new(10, 10, 64, 64),
        _ if k % 2 == 0 => Window::new(random.from_to(0, 20), at + 10, random.from_to(40, 80), random.from_to(1, 4)),
        _ => Window::new(at + 10, random.from_to(0, 20), random.from_to(1, 4), random.from_to(40, 80)),
    }
}

/// Each window begins and ends a row later than the one before, in columns of its own: a plan has the most bands then.
fn stairs(random: &mut Random, k: u32, count: u32) -> Window {
    match k {
        0 => Window::new(0, 0, 2 * count + 2, 2 * count + 2),
        _ => Window::new(2 * k - random.from_to(0, 1), k, 1, count + random.from_to(0, 1)),
    }
}

/// Each window is shorter than the one before, in columns of its own: a plan has the most intervals in its middle row.
fn nested(random: &mut Random, k: u32, count: u32) -> Window {
    match k {
        0 => Window::new(5, 5, 3 * count + 3, 2 * count + 1),
        _ => Window::new(5 + 3 * k, 5 + k, random.from_to(1, 2), 2 * (count - k) + 1),
    }
}

/// As wide or as high as a window may be.
fn wide(random: &mut Random, _: u32, _: u32) -> Window {
    let (x, y) = (random.from_to(0, 3), random.from_to(0, 3));
    let (long, short) = (random.pick(&[32_767, 32_766, 20_000, 5, 1]), random.from_to(1, 2));
    match random.chance(500) {
        true => Window::new(x * random.pick(&[1, 5_000]), y, long, short),
        false => Window::new(x, y * random.pick(&[1, 5_000]), short, long),
    }
}

/// Near the last place where a window may be.
fn far(random: &mut Random, _: u32, _: u32) -> Window {
    let (x, y) = (32_767 - random.from_to(0, 20), 32_767 - random.from_to(0, 20));
    Window::new(x, y, random.from_to(0, 25), random.from_to(0, 25))
}

/// The shown windows in the order of document 02, N5: "layer 0 before layer 1"; each is shown above the last of its own.
fn order(windows: &[Window]) -> Vec<usize> {
    let of_layer =
        |layer: u32| (0..windows.len()).filter(move |&id| windows[id].is_shown && windows[id].layer == layer);
    of_layer(0).chain(of_layer(1)).collect()
}

/// A shown window, and those above it.
pub fn window_and_above(windows: &[Window], id: usize) -> Option<(Area, Vec<Area>)> {
    let order = order(windows);
    let place = order.iter().position(|&shown| shown == id)?;
    Some((windows[id].area(), order[place + 1..].iter().map(|&above| windows[above].area()).collect()))
}

/// The bands of what is seen of a window, pixel by pixel.
pub fn bands(windows: &[Window], id: usize) -> Vec<Band> {
    window_and_above(windows, id).map_or(Vec::new(), |(window, above)| of_window(&window, &above))
}

/// The lines that make the windows, in a session of its own.
pub fn lines(windows: &[Window]) -> Vec<String> {
    let mut lines = vec![format!("start {C}")];
    for (id, Window { x, y, w, h, is_shown, layer }) in windows.iter().enumerate() {
        lines.extend(["create".to_string(), format!("resize {id} {w} {h}"), format!("move {id} {x} {y}")]);
        lines.extend((*layer > 0).then(|| format!("layer {id} {layer}")));
        lines.extend(is_shown.then(|| format!("show {id}")));
    }
    lines
}

pub fn columns(windows: &mut Vec<Window>) -> Vec<&mut u32> {
    windows.iter_mut().map(|window| &mut window.x).collect()
}

pub fn rows(windows: &mut Vec<Window>) -> Vec<&mut u32> {
    windows.iter_mut().map(|window| &mut window.y).collect()
}

pub fn sizes(windows: &mut Vec<Window>) -> Vec<&mut u32> {
    windows.iter_mut().flat_map(|window| [&mut window.w, &mut window.h]).collect()
}
