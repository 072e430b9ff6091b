//! Our side: a station's session with the store and the screen that it is lent.
use crate::call::{Area, Call, Popped, Reply, Side, State};
use crate::class::Class;
use crate::dimming;
use crate::plain::{Piece, Plain};
use crate::shares;
use roqshyn::{
    busiest, read_sheet, Error, Event, Hit, Id, Located, Look, Meant, Pos, Rect, Session, Share, Zoom, MOST_POINTS,
    MOST_RECTS, MOST_SHEET,
};
use std::arch::x86_64::{_mm_clflush, _mm_mfence};
use std::hint::black_box;

pub struct Ours {
    session: Session,
    c: usize,
    store: Vec<u32>,
    screen: Vec<u32>,
    list: Vec<Rect>,
    /// The answers to the last points, of which there were so many.
    answers: [Hit; MOST_POINTS],
    points: usize,
    /// The bytes of the last sheet, of which there were so many.
    bytes: [u8; MOST_SHEET],
    sheet: usize,
    width: u32,
    height: u32,
}

impl Ours {
    pub fn new(c: u32, width: u32, height: u32) -> Ours {
        Ours {
            session: Session::start(c).expect("start"),
            c: c as usize,
            store: vec![0; 16 * c as usize],
            screen: vec![0; (width * height) as usize],
            list: vec![Rect::default(); MOST_RECTS],
            answers: [Hit::default(); MOST_POINTS],
            points: 0,
            bytes: [0; MOST_SHEET],
            sheet: 0,
            width,
            height,
        }
    }

    fn pixels(&self, id: u32) -> Vec<u32> {
        let start = id as usize * self.c;
        match self.session.rect_of(Id::from(id)) {
            Ok(Rect { dims, .. }) => self.store[start..start + (dims.w * dims.h) as usize].to_vec(),
            Err(_) => Vec::new(),
        }
    }

    /// Takes all pixels of store and screen out of the caches.
    pub fn flush(&self) {
        const LINE: usize = 16;
        for line in self.store.chunks(LINE).chain(self.screen.chunks(LINE)) {
            // SAFETY: the address of a pixel that there is.
            unsafe { _mm_clflush(line.as_ptr().cast()) };
        }
        // SAFETY: it waits until all are out.
        unsafe { _mm_mfence() };
    }

    /// The visible rectangles of all windows.
    pub fn all_pieces(&mut self) -> Vec<Piece> {
        (0..16).flat_map(|id| self.pieces(id)).collect()
    }

    /// Draws them through a table.
    pub fn draw_through(&mut self, table: &[u8; 256], pieces: &[Piece]) {
        for piece in pieces {
            dimming::draw(&mut self.screen, self.width as usize, &self.store, piece, table);
        }
    }

    /// What the redraws among the calls draw, drawn by `memcpy`.
    pub fn plain(&mut self, class: &Class) -> Plain {
        let mut pieces = Vec::new();
        for call in &class.timed {
            self.call(call);
            if let Call::Redraw(_) = call {
                pieces.extend(self.all_pieces());
            }
        }
        let plain = Plain::drawn(pieces, class.parts, self.store.clone(), &self.screen, self.width);
        for call in &class.between {
            self.call(call);
        }
        plain
    }

    /// The visible rectangles of a window, as far as they lie on the screen.
    fn pieces(&mut self, id: u32) -> Vec<Piece> {
        let Rect { pos: Pos { x, y }, dims } = self.session.rect_of(Id::from(id)).unwrap_or_default();
        let from = id as usize * self.c;
        let visible = self.visible(id);
        let piece = |Area(left, top, width, height)| {
            let (x, y) = (x + left, y + top);
            let to = Area(x, y, width.min(self.width.saturating_sub(x)), height.min(self.height.saturating_sub(y)));
            Piece { from: from + (top * dims.w + left) as usize, pitch: dims.w as usize, to }
        };
        visible.into_iter().map(piece).collect()
    }

    fn visible(&mut self, id: u32) -> Vec<Area> {
        let seen = self.session.visible(Id::from(id), &mut self.list).unwrap_or_default();
        seen.iter().map(area).collect()
    }

    fn read(&mut self) -> Result<&[Rect], Error> {
        read_sheet(&self.bytes[..self.sheet], &mut self.list)
    }

    /// Hands on what a look at window 0 is lent: the window's pixels, its width and height, the target and its width.
    pub fn look_by(&mut self, look: impl FnOnce(&[u32], usize, usize, &mut [u32], usize)) {
        let size = self.session.rect_of(Id::from(0)).unwrap_or_default().dims;
        look(&self.store[..self.c], size.w as usize, size.h as usize, &mut self.screen, self.width as usize);
    }

    /// The share of a window by the areas of its visible list.
    pub fn listed_share(&mut self, id: u32) -> Result<Share, Error> {
        let dims = self.session.rect_of(Id::from(id)).unwrap_or_default().dims;
        let seen = self.session.visible(Id::from(id), &mut self.list).unwrap_or_default();
        shares::share(seen.iter().map(|r| r.dims.w * r.dims.h).sum(), dims.w * dims.h)
    }
}

fn popped(event: Event) -> Popped {
    match event {
        Event::Resize => Popped::Resize,
        Event::MouseDown { at, .. } => Popped::Press(at.x, at.y),
        Event::MouseUp { at, .. } => Popped::Release(at.x, at.y),
        Event::MouseMove { at, dx, dy } => Popped::Point(at.x, at.y, dx, dy),
        _ => Popped::Other,
    }
}

fn rect(a: Area) -> Rect {
    Rect::new(a.0, a.1, a.2, a.3)
}

fn area(r: &Rect) -> Area {
    Area(r.pos.x, r.pos.y, r.dims.w, r.dims.h)
}

fn answer<T>(done: Result<T, Error>) -> u32 {
    done.map_or_else(Error::number, |_| 0)
}

impl Side for Ours {
    fn call(&mut self, call: &Call) -> Reply {
        let s = &mut self.session;
        Reply::Answer(match *call {
            Call::Create => return Reply::Id(s.create().expect("create").into()),
            Call::Pop(id) => return Reply::Event(s.pop(Id::from(id)).ok().map(popped)),
            Call::Visible(id) => return Reply::Count(s.visible(Id::from(id), &mut self.list).map_or(0, <[_]>::len)),
            Call::Share(id) => return Reply::Share(s.share(Id::from(id))),
            Call::Hits(ref points) => {
                self.points = points.len();
                answer(s.hits(points, &mut self.answers))
            }
            Call::Look(x, y, factor) => {
                let look = Look { x, y, zoom: factor.map_or(Zoom::Fit, Zoom::Factor) };
                answer(s.look(Id::from(0), look, self.width, self.height, &self.store, &mut self.screen))
            }
            Call::Sheet(id) => {
                let sheet = s.sheet(Id::from(id), &mut self.bytes);
                self.sheet = sheet.map_or(0, <[_]>::len);
                answer(sheet)
            }
            Call::ReadSheet => return Reply::Count(self.read().map_or(0, <[_]>::len)),
            Call::Busiest(ref times) => return Reply::Second(busiest(times)),
            Call::Stale => answer(s.stale(Meant::ForcedRedraw, Rect::new(0, 0, self.width, self.height))),
            Call::Show(id) => answer(s.show(Id::from(id))),
            Call::Raise(id) => answer(s.raise(Id::from(id))),
            Call::Hide(id) => answer(s.hide(Id::from(id))),
            Call::Drop(id) => answer(s.drop(Id::from(id))),
            Call::Mark(id) => answer(s.mark(Id::from(id))),
            Call::Marks(times) => (0..times).fold(0, |said, k| said | answer(s.mark(Id::from(black_box(k % 16))))),
            Call::Move(id, x, y) => answer(s.move_window(Id::from(id), x, y)),
            Call::Drag(id, x, y) => answer(s.drag(Id::from(id), x, y)),
            Call::Layer(id, layer) => answer(s.set_layer(Id::from(id), layer)),
            Call::Resize(id, w, h) => answer(s.resize(Id::from(id), w, h, &mut self.store)),
            Call::Display(area) => answer(s.add_display(rect(area))),
            Call::DisplayAt(x, y) => {
                return match s.display_at(Pos::new(x, y)).expect("display_at") {
                    Located::On(r) => Reply::Display(true, area(&r)),
                    Located::Closest(r) => Reply::Display(false, area(&r)),
                }
            }
            Call::Maximise(id) => answer(s.maximise(Id::from(id), &mut self.store)),
            Call::UpdateDims => answer(s.update_dims(&mut self.store)),
            Call::Fill(id, area, colour) => answer(s.fill(Id::from(id), rect(area), colour, &mut self.store)),
            Call::Blit(id, area, ref data) => {
                answer(s.blit(Id::from(id), rect(area), area.2 as usize, data, &mut self.store))
            }
            Call::Press(x, y) => answer(s.route(Event::MouseDown { at: Pos::new(x, y), button: 1 })),
            Call::Release(x, y) => answer(s.route(Event::MouseUp { at: Pos::new(x, y), button: 1 })),
            Call::Point(x, y) => answer(s.route(Event::mouse_move(Pos::new(x, y)))),
            Call::Redraw(forced) => answer(s.redraw(forced, self.width, self.height, &self.store, &mut self.screen)),
            Call::Begin(forced) => answer(s.begin(forced)),
            Call::Portion => answer(s.portion(self.width, self.height, &self.store, &mut self.screen)),
            Call::Dim(on) => answer(s.dim(on)),
        })
    }

    fn is_screen(&self, like: &dyn Fn(&[u32]) -> bool) -> bool {
        like(&self.screen)
    }

    fn state(&mut self) -> State {
        State {
            focus: u32::from(self.session.focus()),
            visible: (0..16).map(|id| self.visible(id)).collect(),
            pixels: (0..16).map(|id| self.pixels(id)).collect(),
            screen: self.screen.clone(),
            points: self.answers[..self.points].iter().map(|hit| hit.id().map(|_| (hit.at.x, hit.at.y))).collect(),
            sheet: self.read().unwrap_or_default().iter().map(area).collect(),
        }
    }
}
