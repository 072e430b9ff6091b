//! A small shadow of the session. It is asked whether an accepted call falls under an entry of "Not common", and for what the original
//! leaves to its caller: whether a full redraw is owed, whether a walk is on, whether dimming is, and which window took the last MouseDown.
use crate::area::Area;
use crate::call::Call;
use crate::damage::{Damage, Direction, Joined};
use crate::entry::Entry;
use crate::places::Places;
use crate::waits::Waits;
use original::input::Event;

/// What the shadow saw, for the table.
#[derive(Clone, Copy, Default)]
pub struct Seen {
    pub contained: u64,
    pub right: u64,
    pub down: u64,
    pub appended: u64,
    pub changed: u64,
    pub meeting: u64,
    pub released: Released,
    /// By the kinds of `dims`.
    pub dims: [u64; 10],
}

/// Releases, by the window that took the last MouseDown: there was none; it had no pixels; it was the topmost at the point; or it was not, which
/// is outside the common ground.
#[derive(Clone, Copy, Default)]
pub struct Released {
    pub none: u64,
    pub no_pixels: u64,
    pub on: u64,
    pub off: u64,
}

/// A redraw that was begun and is neither over nor dropped: so many windows of the order are done.
#[derive(Clone, Copy)]
pub struct Walk {
    pub done: usize,
    pub full: bool,
}

#[derive(Clone, Default)]
pub struct Shadow {
    pub places: Places,
    pub damage: [Damage; 16],
    pub marked: [bool; 16],
    pub waits: Waits,
    /// "A full redraw is owed"
    pub owed: bool,
    pub walk: Option<Walk>,
    dimmed: bool,
    /// "The window that took the last MouseDown"
    pub held: Option<usize>,
    pub seen: Seen,
}

impl Shadow {
    /// A fresh session.
    pub fn fresh(seen: Seen) -> Shadow {
        Shadow { owed: true, seen, ..Shadow::default() }
    }

    /// The entry that this accepted call falls under.
    pub fn entry(&self, call: &Call) -> Option<Entry> {
        match call {
            Call::Fill(id, area, _) => {
                let window = self.places.at[*id as usize];
                let within = Area::new(0, 0, window.w(), window.h());
                let cut = Area::of(area).common(&within)?;
                self.damage_entry(*id, &cut)
            }
            Call::Blit(id, area, stride, _) => match Area::of(area) {
                area if area.is_empty() => Some(Entry::BlitEmpty),
                area if *stride > area.w() => Some(Entry::BlitStride),
                area => self.damage_entry(*id, &area),
            },
            Call::Resize(id, w, h) => self.resize_entry(*id, *w, *h).or_else(|| self.list_entry(call)),
            Call::Pieces(a, b) => (!Area::of(a).meets(&Area::of(b))).then_some(Entry::PiecesApart),
            Call::Scanline(scan, pixels) | Call::FillScanline(scan, _, pixels) | Call::SetScanline(scan, _, pixels) => {
                let size = scan.w as usize * scan.h as usize;
                (size != pixels.len()).then_some(Entry::BarePixels)
            }
            Call::Portion(..) => Some(Entry::Portion),
            Call::Dim(on) => (*on && !self.dimmed).then_some(Entry::DimmingOn),
            Call::Layer(id, 1) if self.places.changes_layer(*id, 1) => Some(Entry::LayerOne),
            Call::Raise(_) => Some(Entry::Raised),
            Call::Drag(..) => Some(Entry::Dragged),
            Call::DisplayAt(..) | Call::Maximise(_) | Call::UpdateDims => self.dims_entry(call),
            _ => self.list_entry(call),
        }
    }

    /// Document 01's entries hold for the sizes that windows take too.
    fn dims_entry(&self, call: &Call) -> Option<Entry> {
        let resized = |(id, to): &(usize, Area)| self.resize_entry(*id as u32, to.w(), to.h());
        let entry = self.places.dims_entry(call);
        entry.or_else(|| self.places.sizes_taken(call).iter().find_map(resized)).or_else(|| self.list_entry(call))
    }

    /// The entry that this release falls under, "refused or not".
    pub fn release_entry(&self, x: u32, y: u32) -> Option<Entry> {
        let held = self.held.filter(|&id| !self.places.at[id].is_empty())?;
        (self.places.topmost(x, y) != Some(held)).then_some(Entry::ReleaseOff)
    }

    /// Counts a release that the list came to.
    pub fn count_release(&mut self, x: u32, y: u32) {
        let is_off = self.release_entry(x, y).is_some();
        let released = &mut self.seen.released;
        match self.held {
            None => released.none += 1,
            Some(id) if self.places.at[id].is_empty() => released.no_pixels += 1,
            Some(_) if is_off => released.off += 1,
            Some(_) => released.on += 1,
        }
    }

    /// The window that takes an event which is accepted, in the common ground: there a release goes to the topmost one.
    pub fn taker(&self, event: &Event, focus: usize) -> Option<usize> {
        use Event::{KeyDown, KeyFire, KeyUp, MouseClick, MouseDown, MouseMove, MouseUp, Resize, Text};
        match *event {
            Resize => None,
            KeyDown(_) | KeyUp(_) | KeyFire(_) | Text(_) => Some(focus),
            MouseMove(x, y, ..) | MouseDown(x, y, _) | MouseClick(x, y, ..) | MouseUp(x, y, _) => {
                self.places.topmost(x, y)
            }
        }
    }

    /// Follows an event that was accepted: that window took it, or none.
    pub fn took(&mut self, event: &Event, taker: Option<usize>) {
        if let Some(id) = taker {
            self.waits.took(event, id);
        }
        match *event {
            Event::MouseDown(x, y, _) => self.held = self.places.topmost(x, y),
            Event::MouseUp(..) => self.held = None,
            _ => {}
        }
    }

    pub fn is_dimmed(&self) -> bool {
        self.dimmed
    }

    pub fn is_walking(&self) -> bool {
        self.walk.is_some()
    }

    /// How many windows of the order are done, while a walk is on.
    pub fn windows_done(&self) -> Option<usize> {
        self.walk.map(|walk| walk.done)
    }

    /// How many dirty entries the window has.
    pub fn entries(&self, id: u32) -> usize {
        self.damage[id as usize].count()
    }

    /// Follows an accepted call, which gave the id if it is a create.
    pub fn follow(&mut self, call: &Call, id: usize) {
        self.places.count_dims(call, &mut self.seen.dims);
        for (id, to) in self.places.sizes_taken(call) {
            self.damage[id].set(Area::new(0, 0, to.w(), to.h()));
            self.waits.queue(id);
        }
        if let Some(places) = self.places.after(call) {
            let owes = places.owes(&self.places, call);
            let repaired = places.repaired(&self.places, call);
            let uncovered = self.places.uncovered(call);
            self.places = places;
            // "or that window is hidden"
            self.held = self.held.filter(|id| self.places.order.contains(id));
            if owes {
                self.owe();
            }
            if let Some(id) = repaired {
                self.repair(id);
            }
            uncovered.into_iter().for_each(|(id, area)| self.repair_in(id, area));
            self.seen.changed += 1;
            self.seen.meeting += u64::from(self.places.any_meet());
        }
        match call {
            Call::Create => self.create(id),
            Call::Display(region) => self.places.displays.add(Area::of(region)),
            Call::Mark(id) => self.marked[*id as usize] = true,
            Call::Resize(id, w, h) => {
                self.damage[*id as usize].set(Area::new(0, 0, *w, *h));
                self.waits.queue(*id as usize);
            }
            Call::Fill(id, area, _) => self.fill(*id as usize, Area::of(area)),
            Call::Blit(id, area, ..) => self.hurt(*id as usize, Area::of(area)),
            Call::Redraw(forced, ..) => self.redraw(*forced),
            Call::Begin(forced) => self.begin(*forced),
            Call::Portion(..) => self.portion(),
            Call::Dim(on) => self.dim(*on),
            _ => {}
        }
    }

    fn create(&mut self, id: usize) {
        self.places.create(id);
        self.damage[id] = Damage::default();
        self.marked[id] = false;
        self.waits.create(id);
    }

    fn fill(&mut self, id: usize, area: Area) {
        let window = self.places.at[id];
        if let Some(cut) = area.common(&Area::new(0, 0, window.w(), window.h())) {
            self.hurt(id, cut);
        }
    }

    fn hurt(&mut self, id: usize, area: Area) {
        match self.damage[id].add(area) {
            Joined::Contained => self.seen.contained += 1,
            Joined::Merged(_, Direction::Right) => self.seen.right += 1,
            Joined::Merged(_, Direction::Down) => self.seen.down += 1,
            Joined::Merged(..) => {}
            Joined::Appended => self.seen.appended += 1,
        }
    }

    /// "an undivided redraw … drops the walk"
    fn redraw(&mut self, forced: bool) {
        for id in self.places.order.clone() {
            self.treat(id, forced || self.owed);
        }
        self.owed = false;
        self.walk = None;
    }

    fn treat(&mut self, id: usize, full: bool) {
        if full || self.marked[id] {
            self.marked[id] = false;
            self.damage[id] = Damage::default();
        }
    }

    /// "full if told so or owed"
    fn begin(&mut self, forced: bool) {
        self.go_on(Walk { done: 0, full: forced || self.owed });
    }

    /// "each portion treats the next window of the render order, lowest first"
    fn portion(&mut self) {
        let Some(Walk { done, full }) = self.walk else { return };
        self.treat(self.places.order[done], full);
        self.go_on(Walk { done: done + 1, full });
    }

    /// "Switching owes a full redraw"; "setting what is already set changes nothing"
    fn dim(&mut self, on: bool) {
        if on != self.dimmed {
            self.dimmed = on;
            self.owe();
        }
    }

    /// "A call that owes a full redraw sends the walk back to the bottom, in full."
    fn owe(&mut self) {
        self.owed = true;
        if self.is_walking() {
            self.go_on(Walk { done: 0, full: true });
        }
    }

    /// "if a full redraw is owed or a walk is on, a full redraw is owed, as after a move. Else the window is marked",
    /// and "its damage becomes (0,0,w,h)"
    fn repair(&mut self, id: usize) {
        if self.owed || self.is_walking() {
            return self.owe();
        }
        let window = self.places.at[id];
        self.marked[id] = true;
        self.damage[id].set(Area::new(0, 0, window.w(), window.h()));
    }

    /// The same, but "the area is added to its damage, by document 01's rule".
    fn repair_in(&mut self, id: usize, area: Area) {
        if self.owed || self.is_walking() {
            return self.owe();
        }
        self.marked[id] = true;
        self.hurt(id, area);
    }

    /// "A walk with no window left to draw is over, and only then is the debt cleared."
    fn go_on(&mut self, walk: Walk) {
        let is_over = walk.done == self.places.order.len();
        self.owed &= !is_over;
        self.walk = (!is_over).then_some(walk);
    }

    fn damage_entry(&self, id: u32, area: &Area) -> Option<Entry> {
        let damage = &self.damage[id as usize];
        match damage.join(area) {
            Joined::Merged(_, Direction::Left) => Some(Entry::MergeLeft),
            Joined::Merged(_, Direction::Up) => Some(Entry::MergeUp),
            Joined::Appended if damage.is_full() => Some(Entry::SeventeenthEntry),
            _ => None,
        }
    }

    fn resize_entry(&self, id: u32, w: u32, h: u32) -> Option<Entry> {
        let old = &self.places.at[id as usize];
        if w > old.w() && old.h() >= 2 {
            return Some(Entry::WidenRows);
        }
        (w < old.w() && h > old.h()).then_some(Entry::NarrowTaller)
    }

    fn list_entry(&self, call: &Call) -> Option<Entry> {
        let places = self.places.after(call)?;
        places.any_list_mixed().then_some(Entry::SomeEntriesMet)
    }
}
