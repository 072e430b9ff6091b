//! Pixman's side: a region for what is visible of a window or damaged on the screen, and clipped compositing of a
//! window's pixels. It knows the calls of a scene's setup, drags and writes, redraws, visible lists, shares and sheets,
//! whose rectangles its regions have too.
use crate::call::{Area, Call, Popped, Reply, Side, State};
use crate::shares;
use ::pixman::{Box32, Picture, Region};
use roqshyn::{Error, Share};

pub use ::pixman::INSTALLED;

const NOWHERE: Area = Area(0, 0, 0, 0);

struct Window {
    at: Area,
    picture: Picture,
}

impl Window {
    /// Its pixels, where a region of the screen has them.
    fn draw(&self, screen: &Picture, clip: &Region) {
        self.picture.draw(screen, self.at.0, self.at.1, clip);
    }
}

pub struct Pixman {
    /// In the order of their ids, in which they are shown.
    windows: Vec<Window>,
    displays: Vec<Area>,
    screen: Picture,
    /// Of the screen: what was written or uncovered since the last redraw.
    damage: Region,
    /// Whether a visible list makes one region of the windows above, and subtracts that.
    at_once: bool,
    /// The window whose sheet was the last, and its region.
    sheet: Option<(usize, Region)>,
}

fn region(a: Area) -> Region {
    Region::of(a.0, a.1, a.2, a.3)
}

fn corners(a: Area) -> Box32 {
    Box32 { x1: a.0 as i32, y1: a.1 as i32, x2: (a.0 + a.2) as i32, y2: (a.1 + a.3) as i32 }
}

impl Pixman {
    pub fn new(width: u32, height: u32, at_once: bool) -> Pixman {
        let screen = Picture::new(width, height);
        Pixman { windows: Vec::new(), displays: Vec::new(), screen, damage: Region::empty(), at_once, sheet: None }
    }

    /// A window without those above it.
    fn seen(&self, id: usize) -> Region {
        let mut seen = region(self.windows[id].at);
        if self.at_once {
            let above: [Box32; 16] =
                std::array::from_fn(|k| corners(self.windows.get(id + 1 + k).map_or(NOWHERE, |w| w.at)));
            seen.subtract(&Region::of_all(&above[..self.windows.len() - id - 1]));
            return seen;
        }
        for above in &self.windows[id + 1..] {
            seen.subtract(&region(above.at));
        }
        seen
    }

    /// From the highest window down, which leaves one region to subtract from each.
    fn redraw(&mut self) {
        let mut above = Region::empty();
        for window in self.windows.iter().rev() {
            let whole = region(window.at);
            let mut seen = region(window.at);
            seen.subtract(&above);
            window.draw(&self.screen, &seen);
            above.unite(&whole);
        }
        self.damage = Region::empty();
    }

    /// From the highest window down, each in what is left of the damage, until none is.
    fn redraw_damage(&mut self) {
        let mut left = std::mem::replace(&mut self.damage, Region::empty());
        for window in self.windows.iter().rev() {
            let whole = region(window.at);
            let mut seen = region(window.at);
            seen.intersect(&left);
            if seen.is_empty() {
                continue;
            }
            window.draw(&self.screen, &seen);
            left.subtract(&whole);
            if left.is_empty() {
                return;
            }
        }
    }

    /// The old and the new place are damaged.
    fn drag(&mut self, id: usize, x: u32, y: u32) {
        let old = self.windows[id].at;
        let new = Area(x, y, old.2, old.3);
        self.windows[id].at = new;
        self.damage.unite(&region(old));
        self.damage.unite(&region(new));
    }

    /// The area is damaged where the window lies now.
    fn fill(&mut self, id: usize, area: Area, colour: u32) {
        let window = &mut self.windows[id];
        window.picture.fill(area.0, area.1, area.2, area.3, colour);
        self.damage.unite(&region(Area(window.at.0 + area.0, window.at.1 + area.1, area.2, area.3)));
    }

    fn share(&self, id: usize) -> Result<Share, Error> {
        let Area(_, _, w, h) = self.windows[id].at;
        let area = |b: &Box32| ((b.x2 - b.x1) * (b.y2 - b.y1)) as u32;
        shares::share(self.seen(id).rectangles().iter().map(area).sum(), w * h)
    }

    /// The rectangles of a region, relative to a window.
    fn relative(&self, id: usize, region: &Region) -> Vec<Area> {
        let Area(x, y, ..) = self.windows[id].at;
        let area = |b: &Box32| Area(b.x1 as u32 - x, b.y1 as u32 - y, (b.x2 - b.x1) as u32, (b.y2 - b.y1) as u32);
        region.rectangles().iter().map(area).collect()
    }
}

impl Side for Pixman {
    fn call(&mut self, call: &Call) -> Reply {
        match *call {
            Call::Create => {
                self.windows.push(Window { at: NOWHERE, picture: Picture::new(1, 1) });
                return Reply::Id(self.windows.len() as u32 - 1);
            }
            Call::Resize(id, w, h) => {
                self.windows[id as usize] = Window { at: Area(0, 0, w, h), picture: Picture::new(w, h) };
            }
            Call::Display(region) => self.displays.push(region),
            Call::Maximise(id) => {
                let at = self.windows[id as usize].at;
                let has = |d: &&Area| (d.0..d.0 + d.2).contains(&at.0) && (d.1..d.1 + d.3).contains(&at.1);
                let display = *self.displays.iter().find(has).expect("a display");
                let picture = Picture::new(display.2, display.3);
                self.windows[id as usize] = Window { at: display, picture };
            }
            Call::Pop(_) => return Reply::Event(Some(Popped::Resize)),
            Call::Fill(id, area, colour) => self.fill(id as usize, area, colour),
            Call::Drag(id, x, y) => self.drag(id as usize, x, y),
            Call::Move(id, x, y) => {
                let at = &mut self.windows[id as usize].at;
                *at = Area(x, y, at.2, at.3);
            }
            Call::Show(_) | Call::Mark(_) => {}
            Call::Redraw(true) => self.redraw(),
            Call::Redraw(false) => self.redraw_damage(),
            Call::Visible(id) => return Reply::Count(self.seen(id as usize).rectangles().len()),
            Call::Share(id) => return Reply::Share(self.share(id as usize)),
            Call::Sheet(id) => self.sheet = Some((id as usize, self.seen(id as usize))),
            Call::ReadSheet => {
                let (id, _) = self.sheet.as_ref().expect("a sheet");
                return Reply::Count(self.seen(*id).rectangles().len());
            }
            _ => unreachable!("{call:?}"),
        }
        Reply::Answer(0)
    }

    fn is_screen(&self, like: &dyn Fn(&[u32]) -> bool) -> bool {
        like(self.screen.pixels())
    }

    fn state(&mut self) -> State {
        let mut pixels: Vec<Vec<u32>> = self.windows.iter().map(|window| window.picture.pixels().to_vec()).collect();
        let mut visible: Vec<Vec<Area>> = (0..self.windows.len()).map(|id| self.relative(id, &self.seen(id))).collect();
        pixels.resize(16, Vec::new());
        visible.resize(16, Vec::new());
        let (focus, screen) = (self.windows.len() as u32 - 1, self.screen.pixels().to_vec());
        let sheet = self.sheet.as_ref().map_or(Vec::new(), |(id, region)| self.relative(*id, region));
        State { focus, visible, pixels, screen, points: Vec::new(), sheet }
    }
}
