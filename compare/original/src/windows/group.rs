//! The calls of document 01 on the original's `WindowGroup`, each by the like-named function.
use super::{Window, WindowGroup, S_WINDOW_GROUPS};
use input::Event;
use kernel::lib::mem::aref::Aref;
use kernel::lib::mem::Arc;
use kernel::lib::ring_buffer::dropped;
use kernel::lib::sparse_vec::SparseVec;
use kernel::sync::mutex::Mutex;
use kernel::user_async::woken;
use std::mem::{replace, swap};
use {Colour, Dims, Pos, Rect};

/// What became of an event.
#[derive(PartialEq)]
pub enum Routed {
    Taken,
    NoWindow,
    NoRoom,
}

pub struct Group(WindowGroup);

impl Group {
    pub fn new() -> Group {
        Group(WindowGroup::new(String::new()))
    }
    pub fn is_used(&self, id: u32) -> bool {
        self.0.windows.get(id as usize).is_some()
    }
    pub fn count(&self) -> usize {
        self.0.windows.count()
    }
    pub fn focus(&self) -> u16 {
        self.0.focussed_window
    }
    /// The visible list that the original keeps; none for a hidden window.
    pub fn visible(&self, id: u32) -> &[Rect] {
        match self.0.get_render_idx(id as u16) {
            Some(place) => &self.0.render_order[place].1,
            None => &[],
        }
    }
    /// The shown windows and where they are, lowest first.
    pub fn shown(&self) -> Vec<(u32, Rect)> {
        self.0.render_order.iter().map(|&(id, _)| (u32::from(id), self.rect(id))).collect()
    }
    /// A copy as far as a press goes: the same windows at the same places in the same order, and no event waits.
    pub fn copied(&self) -> Group {
        let mut copy = WindowGroup::new(String::new());
        for id in 0..16 {
            let window = Window::new(String::new());
            let mut at = Pos::new(0, 0);
            if let Some(&(pos, ref own)) = self.0.windows.get(id) {
                at = pos;
                window.resize(own.dims());
                window.input.pop_event();
            }
            copy.windows.insert((at, Aref::new(window)));
        }
        copy.render_order = self.0.render_order.iter().map(|&(id, _)| (id, Vec::new())).collect();
        Group(copy)
    }
    pub fn pixels(&self, id: u32) -> Vec<u32> {
        let buffer = self.window(id).get_buffer();
        let size = buffer.dims();
        let rows = 0..size.h as usize;
        rows.flat_map(|row| buffer.scanline_rgn(row, 0, size.w as usize).to_vec()).collect()
    }
    pub fn size(&self, id: u32) -> (u32, u32) {
        let size = self.window(id).dims();
        (size.w, size.h)
    }

    /// As in the original's `create_window`.
    pub fn create(&mut self) -> usize {
        let window = Aref::new(Window::new(String::new()));
        self.0.windows.insert((Pos::new(0, 0), window))
    }
    pub fn show(&mut self, id: u32) {
        self.0.show_window(id as u16)
    }
    pub fn hide(&mut self, id: u32) {
        self.0.hide_window(id as u16)
    }
    pub fn drop(&mut self, id: u32) {
        self.0.drop_window(id as u16)
    }
    pub fn move_window(&mut self, id: u32, x: u32, y: u32) {
        self.0.move_window(id as u16, Pos::new(x, y))
    }
    pub fn mark(&mut self, id: u32) {
        self.window(id).mark_dirty()
    }
    /// "resize is `Window::resize` then `recalc_vis`"
    pub fn resize(&mut self, id: u32, w: u32, h: u32) {
        self.window(id).resize(Dims::new(w, h));
        self.0.recalc_vis(id as u16)
    }
    /// As in the original's `WindowHandle::maximise`.
    pub fn maximise(&mut self, id: u32) {
        self.window(id).flags.lock().maximised = true;
        self.0.maximise_window(id as u16)
    }
    pub fn update_dims(&mut self) {
        let _kept = Kept::new(&mut self.0);
        super::update_dims()
    }
    pub fn fill(&mut self, id: u32, area: Rect, colour: u32) {
        self.window(id).fill_rect(area, Colour(colour))
    }
    pub fn blit(&mut self, id: u32, area: Rect, data: &[u32], stride: usize) {
        self.window(id).blit_rect(area, data, stride)
    }
    pub fn redraw(&mut self, full: bool) {
        self.0.redraw(full)
    }
    pub fn pop(&mut self, id: u32) -> Option<Event> {
        self.window(id).input.pop_event()
    }
    /// The point relative to the window that `get_win_at_pos` finds.
    pub fn at(&self, x: u32, y: u32) -> Option<(u32, u32)> {
        self.0.get_win_at_pos(x, y).map(|&(pos, _)| (x - pos.x, y - pos.y))
    }
    /// The original says nothing of what became of the event: a window that takes it wakes its queue, and a full one drops it.
    pub fn route(&mut self, event: Event) -> Routed {
        let before = (woken(), dropped());
        self.0.handle_input(event);
        if woken() == before.0 {
            return Routed::NoWindow;
        }
        if dropped() != before.1 {
            return Routed::NoRoom;
        }
        Routed::Taken
    }

    fn rect(&self, id: u16) -> Rect {
        let (pos, window) = &self.0.windows[usize::from(id)];
        Rect::new_pd(*pos, window.dims())
    }
    fn window(&self, id: u32) -> &Window {
        &self.0.windows[id as usize].1
    }
}

/// A group among all that the original keeps, over which its `update_dims` goes. It comes back at the end, also at that of a panic.
struct Kept<'a> {
    group: &'a mut WindowGroup,
    kept: Arc<Mutex<WindowGroup>>,
    place: usize,
}

impl<'a> Kept<'a> {
    fn new(group: &'a mut WindowGroup) -> Kept<'a> {
        let kept = Arc::new(Mutex::new(replace(group, WindowGroup::new(String::new()))));
        S_WINDOW_GROUPS.init(SparseVec::new);
        let place = S_WINDOW_GROUPS.lock().insert(kept.clone());
        Kept { group: group, kept: kept, place: place }
    }
}

impl<'a> Drop for Kept<'a> {
    fn drop(&mut self) {
        S_WINDOW_GROUPS.lock().remove(self.place);
        swap(self.group, &mut self.kept.lock());
    }
}
