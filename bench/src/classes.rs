//! The classes of the tables, and those of the two plots.
use crate::call::{Area, Call};
use crate::class::{Beside, Class, Limit};
use crate::dimming;
use crate::displays;
use crate::drags;
use crate::looks;
use crate::mix::Drag;
use crate::pixman;
use crate::plain::Copied;
use crate::points;
use crate::rows;
use crate::scene::{
    cascade, eight, free_crossing, free_station, free_three, plans, station, Scene, DRAGGED, DRAGGED_OF_EIGHT, HEIGHT,
    STEP, WIDTH,
};
use crate::seconds;
use crate::shares;
use crate::sheets;
use crate::stales;

pub const LISTS: &str =
    "the original makes its visible lists here, we make them when a redraw or a visible list needs them";
const LAYERS: &str = "the original has no layers: it hides the window and shows it again, and makes its visible lists";
const RAISES: &str = "the original has no raise: it hides the window and shows it again, and makes its visible lists";
const KEPT: &str = "the original kept it at the last show, hide, move or resize";
pub const CLEARED: &str = "document 01 has us clear the rest of the window's C pixels; the limit is `memset` of C";
const OTHER: &str = "the original draws something else (docs/DIFFERENCES.md)";

/// What a station does, on one display and on eight.
pub const MIX: &str = "a second of the station's mix";
pub const MIX_OF_EIGHT: &str = "a second of the mix on eight displays";

pub const LAYER: &str = "change of layer, 16 windows";
pub const RAISE: &str = "raise, 16 windows";
pub const RAISED: &str = "raise and redraw";

/// Of a walk on eight displays: how the names of its classes begin, and how they go on.
pub const ALL: &str = "all portions";
pub const LONGEST: &str = "longest portion";
pub const EIGHT: &str = "6,400 by 480, windows: 16";
pub const THREE: &str = "6,400 by 480, plans: 3, panels: 13";

pub fn table() -> Vec<Class> {
    let mut all = small();
    all.extend(order());
    all.extend(pixels());
    all.extend(redraws());
    all.extend(mixes());
    all.extend(drags::classes());
    if pixman::INSTALLED {
        all.extend(beside_pixman());
    }
    all.extend(rows::classes());
    all.extend(portions());
    all.extend(seconds::classes());
    all.extend(dimming::classes());
    all.extend(shares::classes());
    all.extend(stales::classes());
    all.extend(points::classes());
    all.extend(looks::classes());
    all.extend(sheets::classes());
    all.extend(displays::classes());
    all
}

/// 16 places in each of which a cascade of 16 shows one of its windows.
fn corners() -> Vec<(u32, u32)> {
    (0..16).map(|k| (k * STEP.0 + 2, k * STEP.1 + 2)).collect()
}

fn times(n: usize, calls: &[Call]) -> Vec<Call> {
    calls.iter().cloned().cycle().take(n * calls.len()).collect()
}

fn small() -> Vec<Class> {
    let presses: Vec<Call> = corners().iter().map(|&(x, y)| Call::Press(x, y)).collect();
    let pops: Vec<Call> = (0..16).map(Call::Pop).collect();
    let (presses, pops) = (times(16, &presses), times(16, &pops));
    let press = Class::new("press, 16 windows", cascade(16), presses.clone()).between(pops.clone());
    // The first pops find the queues full.
    let mut pop = Class::new("pop, 16 events wait", cascade(16), pops).between(presses.clone());
    pop.scene.setup.extend(presses);
    let mark = Class::new("mark", cascade(16), vec![Call::Marks(1024)]);
    vec![press, pop, mark]
}

fn order() -> Vec<Class> {
    let made = vec![Call::Create, Call::Drop(15)];
    let shown = vec![Call::Hide(15), Call::Show(15)];
    // The lowest goes to the top of layer 1, and then of layer 0, where no window of layer 1 is left.
    let layered = (0..16).flat_map(|id| [Call::Layer(id, 1), Call::Layer(id, 0)]).collect();
    let mut all = vec![
        Class::new("create or drop, 15 windows", cascade(15), made),
        Class::new("hide or show, 16 windows", cascade(16), shown).note(LISTS),
        Class::new(LAYER, cascade(16), layered).note(LAYERS),
        // The lowest each time, until all stand as they did.
        Class::new(RAISE, cascade(16), (0..16).map(Call::Raise).collect()).note(RAISES),
    ];
    for (above, id) in [(0, 15), (3, 12), (15, 0)] {
        let name = format!("move, {above} windows above and {id} below");
        all.push(Class::new(name, cascade(16), moves(id)).note(LISTS));
    }
    all.push(listed("visible list of the lowest of 16".into(), cascade(16)).note(KEPT));
    let listed = moves(0).into_iter().flat_map(|call| [call, Call::Visible(0)]).collect();
    all.push(Class::new("move of the lowest of 16, and its visible list", cascade(16), listed).parts(2));
    all
}

/// To and fro.
fn moves(id: u32) -> Vec<Call> {
    let (x, y) = (u32::from(id) * STEP.0, u32::from(id) * STEP.1);
    vec![Call::Move(id, x + 1, y + 1), Call::Move(id, x, y)]
}

/// Eight areas of the lowest window of a cascade of four, far enough from each other to stay eight entries.
fn eight_areas(w: u32, h: u32) -> Vec<Area> {
    (0..8).map(|k| Area(7 + k % 4 * 190, 9 + k / 4 * 230, w, h)).collect()
}

fn pixels() -> Vec<Class> {
    let mut all = Vec::new();
    for (w, h) in [(16, 16), (100, 50)] {
        let fills = eight_areas(w, h).into_iter().map(|a| Call::Fill(0, a, 0x0012_3456)).collect();
        all.push(written(format!("fill {w} by {h}"), fills, eight_areas(w, h)));
        let blits = eight_areas(w, h).into_iter().map(|a| Call::Blit(0, a, (0..w * h).collect())).collect();
        all.push(written(format!("blit {w} by {h}"), blits, eight_areas(w, h)));
    }
    let whole = Area(0, 0, WIDTH, HEIGHT);
    all.push(written("fill 800 by 480".into(), vec![Call::Fill(0, whole, 0x0012_3456)], vec![whole]));
    let data = (0..WIDTH * HEIGHT).collect();
    all.push(written("blit 800 by 480".into(), vec![Call::Blit(0, whole, data)], vec![whole]));
    all.push(resized("resize, 800 by 480, C 384,000", cascade(1), WIDTH, HEIGHT));
    let mut little = cascade(1);
    little.setup.extend([Call::Resize(0, WIDTH, 50), Call::Resize(0, 100, 50), Call::Pop(0), Call::Pop(0)]);
    all.push(resized("resize, 100 by 50, C 384,000", little, 100, 50));
    all
}

/// Each area once; the damage is then drawn.
fn written(name: String, calls: Vec<Call>, areas: Vec<Area>) -> Class {
    let times = 1.0 / areas.len() as f64;
    let rows = Limit::Rows(Copied::areas(areas).times(times));
    Class::new(name, cascade(4), calls).between(vec![Call::Mark(0), Call::Redraw(false)]).limit(rows)
}

/// A window at half its width, at one row, at its whole width, and as it was.
fn resized(name: &str, scene: Scene, w: u32, h: u32) -> Class {
    let sizes = [(w / 2, h), (w / 2, 1), (w, 1), (w, h)];
    let timed = sizes.iter().map(|&(w, h)| Call::Resize(0, w, h)).collect();
    let limit = Limit::Cleared(scene.c);
    Class::new(name, scene, timed).between(vec![Call::Pop(0); 4]).limit(limit).note(CLEARED)
}

fn redraws() -> Vec<Class> {
    let mut all = vec![button(), marked()];
    for n in [1, 4, 16] {
        all.push(full(format!("full redraw 800 by 480, windows: {n}"), cascade(n)));
    }
    all.push(full("full redraw 6,400 by 480, windows: 16".into(), eight()));
    all.push(full("full redraw 800 by 480, windows: 16".into(), cascade(16)).cold());
    all.push(full("full redraw 6,400 by 480, windows: 16".into(), eight()).cold());
    let moved = moves(15).into_iter().flat_map(|call| [call, Call::Redraw(false)]).collect();
    let moved = Class::new("move and full redraw 800 by 480, windows: 16", cascade(16), moved).parts(2);
    all.push(moved.limit(Limit::Redraws));
    let raised = (0..16).flat_map(|id| [Call::Raise(id), Call::Redraw(false)]).collect();
    all.push(Class::new(format!("{RAISED} 800 by 480, windows: 16"), cascade(16), raised).parts(16));
    all.extend([4, 16].map(|n| lists(format!("full redraw 1 by 1, windows: {n}"), cascade(n))));
    for n in [4, 8, 16] {
        let name = format!("full redraw 800 by 480, crossing windows: {n}");
        all.push(full(name, free_crossing(n)).note(OTHER));
        all.push(lists(format!("full redraw 1 by 1, crossing windows: {n}"), free_crossing(n)).note(OTHER));
    }
    all
}

fn full(name: String, scene: Scene) -> Class {
    Class::new(name, scene, vec![Call::Redraw(true)]).limit(Limit::Redraws)
}

/// All but the pixels.
fn lists(name: String, scene: Scene) -> Class {
    Class::new(name, Scene { width: 1, height: 1, ..scene }, vec![Call::Redraw(true)])
}

/// A button of the highest window is painted and drawn.
fn button() -> Class {
    let paint = vec![Call::Fill(3, Area(50, 40, 100, 50), 7), Call::Mark(3)];
    let mut class = Class::new("redraw of a button, 100 by 50", cascade(4), vec![Call::Redraw(false)]);
    class.scene.setup.extend(paint.clone());
    class.between(paint).limit(Limit::Rows(Copied::areas(vec![Area(125, 85, 100, 50)])))
}

/// A strip of each of 16 windows is painted and drawn.
fn marked() -> Class {
    let strip = |id| [Call::Fill(id, Area(0, 0, 100, STEP.1), 7), Call::Mark(id)];
    let paint: Vec<Call> = (0..16).flat_map(strip).collect();
    let mut class = Class::new("redraw of 16 marked windows, 100 by 15 each", cascade(16), vec![Call::Redraw(false)]);
    class.scene.setup.extend(paint.clone());
    let strips = (0..16).map(|k| Area(k * STEP.0, k * STEP.1, 100, STEP.1)).collect();
    class.between(paint).limit(Limit::Rows(Copied::areas(strips)))
}

fn portions() -> Vec<Class> {
    vec![
        walk(EIGHT, eight()),
        longest(EIGHT, eight()),
        longest(EIGHT, eight()).cold(),
        walk(THREE, free_three()),
        longest(THREE, free_three()),
    ]
}

/// A walk over 16 windows, from its begin to its end.
fn walk(name: &str, scene: Scene) -> Class {
    let calls = [Call::Begin(true)].into_iter().chain(times(16, &[Call::Portion])).collect();
    Class::new(format!("{ALL} {name}"), scene, calls).parts(1).beside(Beside::Undivided)
}

/// The first portion: of the lowest window, which is the largest.
fn longest(name: &str, mut scene: Scene) -> Class {
    scene.setup.push(Call::Begin(true));
    let rest = times(15, &[Call::Portion]).into_iter().chain([Call::Begin(true)]).collect();
    Class::new(format!("{LONGEST} {name}"), scene, vec![Call::Portion]).between(rest).beside(Beside::Undivided)
}

fn mixes() -> Vec<Class> {
    let mix = |name, scene, drag: Drag| Class::new(name, scene, drag.second(Call::Move)).parts(1).limit(Limit::Redraws);
    vec![
        mix(MIX, station(), DRAGGED),
        mix("the same, panels anywhere", free_station(), DRAGGED).note(OTHER),
        mix(MIX_OF_EIGHT, eight(), DRAGGED_OF_EIGHT),
        mix(MIX, station(), DRAGGED).cold(),
        mix(MIX_OF_EIGHT, eight(), DRAGGED_OF_EIGHT).cold(),
    ]
}

fn beside_pixman() -> Vec<Class> {
    let mut all = lists_of_lowest(Beside::Pixman, "");
    all.extend(lists_of_lowest(Beside::PixmanAtOnce, ", those above as one region"));
    let cascades = [1, 4, 16].map(|n| full(format!("full redraw 800 by 480, windows: {n}"), cascade(n)));
    let crossing = |n| full(format!("full redraw 800 by 480, crossing windows: {n}"), free_crossing(n));
    let displays = full("full redraw 6,400 by 480, windows: 16".into(), eight());
    let redraws = cascades.into_iter().chain([4, 8, 16].map(crossing)).chain([displays]);
    all.extend(redraws.map(|class| class.beside(Beside::Pixman)));
    all
}

fn lists_of_lowest(beside: Beside, way: &str) -> Vec<Class> {
    let crossing = |n| listed(format!("visible list of the lowest, crossing windows: {n}{way}"), free_crossing(n));
    let cascade = listed(format!("visible list of the lowest of 16{way}"), cascade(16));
    [cascade].into_iter().chain([4, 8, 16].map(crossing)).map(|class| class.beside(beside)).collect()
}

/// The visible list of the lowest window.
fn listed(name: String, scene: Scene) -> Class {
    Class::new(name, scene, vec![Call::Visible(0)])
}

/// A full redraw against the number of windows.
pub fn by_windows() -> Vec<(f64, Class)> {
    (1..=16).map(|n| (f64::from(n), full(format!("{n}"), cascade(n)))).collect()
}

/// A full redraw against the number of pixels.
pub fn by_pixels() -> Vec<(f64, Class)> {
    let widths = [100, 200, 400, 800, 1600, 2400, 3200, 4000, 4800, 5600, 6400];
    let class = |w| (f64::from(w * HEIGHT), full(format!("{w}"), plans(w)));
    widths.into_iter().map(class).collect()
}
