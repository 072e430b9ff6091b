//! The original's side: its window group, with a lent screen as its only display, or the displays that it is asked for.
//! The file is compiled twice: with the original as it is, and without its locks.
use super::original::input::Event;
use super::original::metadevs::video::get_display_for_pos;
use super::original::metadevs::video::lent::{lend_screen, put_displays, Pixels};
use super::original::sync::mutex::Mutex;
use super::original::windows::group::{Group, Routed};
use super::original::{Pos, Rect};
use crate::call::{Area, Call, Popped, Reply, Side, State};
use std::hint::black_box;
use std::sync::Arc;

pub struct Theirs {
    group: Group,
    screen: Pixels,
    size: (u32, u32),
    displays: Vec<Rect>,
    /// Whether these are where the original keeps its displays, and not the screen.
    is_spread: bool,
    /// A full redraw is owed: the original leaves this note to its caller.
    owed: bool,
    points: Vec<Option<(u32, u32)>>,
}

impl Theirs {
    /// There is one display at a time, so one of these at a time.
    pub fn new(width: u32, height: u32) -> Theirs {
        let screen = Arc::new(Mutex::new(vec![0; (width * height) as usize]));
        lend_screen(&screen, width, height);
        let (size, displays) = ((width, height), Vec::new());
        Theirs { group: Group::new(), screen, size, displays, is_spread: false, owed: true, points: Vec::new() }
    }

    /// A redraw goes to the screen; other calls look for displays.
    fn spread(&mut self, is_spread: bool) {
        if self.is_spread == is_spread {
            return;
        }
        self.is_spread = is_spread;
        match is_spread {
            true => put_displays(&self.displays),
            false => lend_screen(&self.screen, self.size.0, self.size.1),
        }
    }

    fn display_at(&mut self, x: u32, y: u32) -> Reply {
        self.spread(true);
        match get_display_for_pos(Pos::new(x, y)) {
            Ok(region) => Reply::Display(true, area(&region)),
            Err(region) => Reply::Display(false, area(&region)),
        }
    }

    fn route(&mut self, event: Event) -> u32 {
        match self.group.route(event) {
            Routed::Taken => 0,
            Routed::NoWindow => 11,
            Routed::NoRoom => 12,
        }
    }

    fn pixels(&self, id: u32) -> Vec<u32> {
        if self.group.is_used(id) {
            return self.group.pixels(id);
        }
        Vec::new()
    }
}

fn rect(a: Area) -> Rect {
    Rect::new(a.0, a.1, a.2, a.3)
}

fn area(r: &Rect) -> Area {
    Area(r.x(), r.y(), r.w(), r.h())
}

fn popped(event: Event) -> Popped {
    match event {
        Event::Resize => Popped::Resize,
        Event::MouseDown(x, y, _) => Popped::Press(x, y),
        Event::MouseUp(x, y, _) => Popped::Release(x, y),
        Event::MouseMove(x, y, dx, dy) => Popped::Point(x, y, dx, dy),
        _ => Popped::Other,
    }
}

impl Side for Theirs {
    fn call(&mut self, call: &Call) -> Reply {
        match call {
            Call::Maximise(_) | Call::UpdateDims => self.spread(true),
            Call::Redraw(_) => self.spread(false),
            _ => {}
        }
        let g = &mut self.group;
        match *call {
            Call::Create => return Reply::Id(g.create() as u32),
            Call::Pop(id) => return Reply::Event(g.pop(id).map(popped)),
            Call::Visible(id) => return Reply::Count(g.visible(id).len()),
            Call::DisplayAt(x, y) => return self.display_at(x, y),
            Call::Press(x, y) => return Reply::Answer(self.route(Event::MouseDown(x, y, 1))),
            Call::Release(x, y) => return Reply::Answer(self.route(Event::MouseUp(x, y, 1))),
            Call::Point(x, y) => return Reply::Answer(self.route(Event::MouseMove(x, y, 0, 0))),
            Call::Show(id) => g.show(id),
            Call::Hide(id) => g.hide(id),
            Call::Drop(id) => g.drop(id),
            Call::Mark(id) => g.mark(id),
            Call::Marks(times) => (0..times).for_each(|k| g.mark(black_box(k % 16))),
            // It has no drag.
            Call::Move(id, x, y) | Call::Drag(id, x, y) => g.move_window(id, x, y),
            // It has no layers and no raise: hidden and shown, the window is on top too.
            Call::Layer(id, _) | Call::Raise(id) => {
                g.hide(id);
                g.show(id);
            }
            Call::Resize(id, w, h) => g.resize(id, w, h),
            Call::Display(region) => self.displays.push(rect(region)),
            Call::Maximise(id) => g.maximise(id),
            Call::UpdateDims => g.update_dims(),
            Call::Fill(id, a, colour) => g.fill(id, rect(a), colour),
            Call::Blit(id, a, ref data) => g.blit(id, rect(a), data, a.2 as usize),
            Call::Redraw(forced) => g.redraw(forced || self.owed),
            Call::Hits(ref points) => {
                self.points.clear();
                self.points.extend(points.iter().map(|point| g.at(point.x, point.y)));
            }
            Call::Begin(_) | Call::Portion | Call::Dim(_) | Call::Stale => {
                unreachable!("the original has no such call")
            }
            Call::Share(_) | Call::Look(..) | Call::Sheet(_) | Call::ReadSheet | Call::Busiest(_) => {
                unreachable!("the original has no such call")
            }
        }
        match call {
            Call::Redraw(_) => self.owed = false,
            // A drop is none of these: the lists drop hidden windows only.
            Call::Show(_) | Call::Hide(_) | Call::Raise(_) | Call::Layer(..) => self.owed = true,
            Call::Move(..) | Call::Drag(..) | Call::Resize(..) => self.owed = true,
            Call::Maximise(_) | Call::UpdateDims => self.owed = true,
            _ => {}
        }
        Reply::Answer(0)
    }

    fn is_screen(&self, like: &dyn Fn(&[u32]) -> bool) -> bool {
        like(&self.screen.lock())
    }

    fn state(&mut self) -> State {
        State {
            focus: u32::from(self.group.focus()),
            visible: (0..16).map(|id| self.group.visible(id).iter().map(area).collect()).collect(),
            pixels: (0..16).map(|id| self.pixels(id)).collect(),
            screen: self.screen.lock().clone(),
            points: self.points.clone(),
            sheet: Vec::new(),
        }
    }
}
