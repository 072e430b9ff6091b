//! Windows on a screen, and the calls that bring them there.
//!
//! The original loses parts of a window where a higher one meets some entries of its visible list and misses others. In the scenes
//! without `free` in their name no window does, so both sides draw the same.
use crate::call::{Area, Call};
use crate::earlier;
use crate::mix::Drag;

/// The screen of a station.
pub const WIDTH: u32 = 800;
pub const HEIGHT: u32 = 480;

#[derive(Clone)]
pub struct Scene {
    pub width: u32,
    pub height: u32,
    /// The pixels of a window.
    pub c: u32,
    pub setup: Vec<Call>,
    /// Whether the original draws the same.
    pub common: bool,
}

/// Windows at these places, the first one lowest, painted in two colours each, drawn, and their events read.
fn scene(width: u32, height: u32, places: &[Area]) -> Scene {
    placed(width, height, places, resized)
}

/// The same, brought to their places by these calls, of which one queues an event.
fn placed(width: u32, height: u32, places: &[Area], come: impl Fn(u32, Area) -> [Call; 2]) -> Scene {
    let mut setup = Vec::new();
    for (id, &place) in (0u32..).zip(places) {
        let (colour, Area(_, _, w, h)) = (0x0020_3040 + 0x000f_0b07 * u32::from(id), place);
        setup.push(Call::Create);
        setup.extend(come(id, place));
        setup.extend([Call::Pop(id), Call::Fill(id, Area(0, 0, w, h), colour)]);
        setup.extend([Call::Fill(id, Area(w / 3, h / 4, w / 2, h / 2), !colour), Call::Show(id)]);
    }
    setup.push(Call::Redraw(true));
    let c = places.iter().map(|a| a.2 * a.3).max().unwrap_or(1);
    Scene { width, height, c, setup, common: true }
}

fn resized(id: u32, Area(x, y, w, h): Area) -> [Call; 2] {
    [Call::Resize(id, w, h), Call::Move(id, x, y)]
}

/// The place is a display.
fn maximised(id: u32, Area(x, y, ..): Area) -> [Call; 2] {
    [Call::Move(id, x + 100, y + 50), Call::Maximise(id)]
}

/// No window.
pub fn empty() -> Scene {
    Scene { width: 1, height: 1, c: 1, setup: Vec::new(), common: true }
}

/// One window that is not shown.
pub fn alone(width: u32, height: u32) -> Scene {
    let setup = vec![Call::Create, Call::Resize(0, width, height)];
    Scene { width, height, c: width * height, setup, common: true }
}

/// How far a window of a cascade lies from the next lower one.
pub const STEP: (u32, u32) = (25, 15);

/// n windows, each reaching from its own corner to the right and bottom edge of the screen: every window is seen.
pub fn cascade(n: u32) -> Scene {
    let place = |k| Area(k * STEP.0, k * STEP.1, WIDTH - k * STEP.0, HEIGHT - k * STEP.1);
    scene(WIDTH, HEIGHT, &(0..n).map(place).collect::<Vec<_>>())
}

/// The panel that is dragged across a station's screen.
pub const DRAGGED: Drag = Drag { id: 6, start: (3, 45), step: (6, 2) };
const PANEL: (u32, u32) = (200, 150);

/// A plan that fills the screen, five panels along its edges, and over them the one that is dragged.
pub fn station() -> Scene {
    let edges = [
        Area(0, 0, 800, 480),
        Area(0, 0, 800, 48),
        Area(0, 432, 800, 48),
        Area(0, 48, 100, 384),
        Area(700, 48, 100, 384),
        Area(100, 48, 600, 40),
        Area(DRAGGED.start.0, DRAGGED.start.1, PANEL.0, PANEL.1),
    ];
    scene(WIDTH, HEIGHT, &edges)
}

/// A plan that fills the screen, and six panels anywhere over it, the highest one dragged.
pub fn free_station() -> Scene {
    let mut places = vec![Area(0, 0, WIDTH, HEIGHT)];
    for (x, y) in [(60, 50), (180, 120), (420, 90), (520, 200), (250, 270), DRAGGED.start] {
        places.push(Area(x, y, PANEL.0, PANEL.1));
    }
    Scene { common: false, ..scene(WIDTH, HEIGHT, &places) }
}

/// A plan, and over it n - 1 bars from edge to edge that cross each other, every second one upright.
pub fn free_crossing(n: u32) -> Scene {
    let mut places = vec![Area(0, 0, WIDTH, HEIGHT)];
    for k in 0..n - 1 {
        let at = 20 + k / 2 * 50;
        places.push(if k % 2 == 0 { Area(0, at, WIDTH, 20) } else { Area(at, 0, 20, HEIGHT) });
    }
    Scene { common: false, ..scene(WIDTH, HEIGHT, &places) }
}

/// A plan, and over it eight bars and seven upright ones that cross them, each beginning lower than the last: its sheet has 144 intervals in 646 bytes.
pub fn free_bars() -> Scene {
    let plan = [Area(0, 0, WIDTH, HEIGHT)];
    let bars = (0..8).map(|k| Area(360, 20 + 50 * k, 240, 20));
    let upright = (0..7).map(|k| Area(20 + 110 * k, 5 + 10 * k, 20, 475 - 10 * k));
    let places: Vec<Area> = plan.into_iter().chain(bars).chain(upright).collect();
    Scene { common: false, ..scene(WIDTH, HEIGHT, &places) }
}

/// Plans side by side, as wide as a station's screen or as the screen, whichever is less.
pub fn plans(width: u32) -> Scene {
    let one = width.min(WIDTH);
    let place = |k| Area(k * one, 0, one, HEIGHT);
    scene(width, HEIGHT, &(0..width / one).map(place).collect::<Vec<_>>())
}

/// The panel of the last of eight displays; it stays on that display.
pub const DRAGGED_OF_EIGHT: Drag = Drag { id: 15, start: (7 * WIDTH + 3, 45), step: (4, 2) };

/// The panels of eight displays.
const LARGE: (u32, u32) = (300, 200);

/// Eight displays side by side as one screen, on each a plan that is maximised there, and a panel, as in examples/c/displays.c.
pub fn eight() -> Scene {
    spread(true, LARGE)
}

/// The same, and no plan is maximised.
pub fn eight_not_maximised() -> Scene {
    spread(false, LARGE)
}

/// The same as the first, and the panel that is dragged is as large as a station's.
pub fn eight_small_panel() -> Scene {
    spread(true, PANEL)
}

/// With an archive that has no displays the plans come there as the panels do.
fn spread(are_maximised: bool, dragged: (u32, u32)) -> Scene {
    let (x, y) = DRAGGED_OF_EIGHT.start;
    let displays = || (0..8).map(|k| Area(k * WIDTH, 0, WIDTH, HEIGHT));
    let panels = (0..7).map(|k| Area(k * WIDTH + 100, 100, LARGE.0, LARGE.1));
    let places: Vec<Area> = displays().chain(panels).chain([Area(x, y, dragged.0, dragged.1)]).collect();
    if !earlier::has_displays() {
        return scene(8 * WIDTH, HEIGHT, &places);
    }
    let come = |id, place| if are_maximised && id < 8 { maximised(id, place) } else { resized(id, place) };
    let mut scene = placed(8 * WIDTH, HEIGHT, &places, come);
    scene.setup.splice(0..0, displays().map(Call::Display));
    scene
}

/// The same screen with as few plans as it takes, since a window has at most 1,048,576 pixels: three, and 13 panels over them.
pub fn free_three() -> Scene {
    let plans = (0..3).map(|k| Area(k * 2134, 0, 2134, HEIGHT));
    let panels = (0..13).map(|k| Area(k * 480 + 60, 40 + k % 3 * 100, 300, 200));
    Scene { common: false, ..scene(8 * WIDTH, HEIGHT, &plans.chain(panels).collect::<Vec<_>>()) }
}
