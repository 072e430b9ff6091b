//! Plays call scripts on the original.
use crate::area::Area;
use crate::bare;
use crate::busiest;
use crate::call::{read, Call, Line};
use crate::entry::Entry;
use crate::events;
use crate::hits;
use crate::look;
use crate::panics;
use crate::picture;
use crate::questions::{answer, cannot, Lent, SCREEN};
use crate::shadow::{Seen, Shadow};
use crate::share;
use crate::sheet;
use crate::stale;
use crate::standing;
use crate::surfaces;
use crate::text::Text;
use crate::who;
use original::input::Event;
use original::metadevs::video::lent::{lend_screen, Pixels};
use original::sync::mutex::Mutex;
use original::windows::group::Group;
use original::Rect;
use std::sync::Arc;

/// How far a player goes.
#[derive(Clone, Copy, PartialEq)]
pub enum Mode {
    /// A call under an entry of "Not common" is not made.
    Common,
    /// Such a call is made too.
    All,
    /// So is a call that question 3 to 7, 13 to 16 or 21 refuses.
    Unasked,
}

pub enum Played {
    Passed,
    Written,
    Outside(Entry),
}

/// "the number of pixels whose value differs afterwards"
pub fn altered(before: &[u32], after: &[u32]) -> u32 {
    before.iter().zip(after).filter(|(a, b)| a != b).count() as u32
}

pub struct Player {
    mode: Mode,
    group: Group,
    screen: Pixels,
    displays: Vec<Rect>,
    lines: u64,
    lent: Lent,
    pub shadow: Shadow,
}

impl Player {
    /// "Before the first `start` the session is that of a refused one."
    pub fn new(mode: Mode) -> Player {
        Player {
            mode,
            group: Group::new(),
            screen: Arc::new(Mutex::new(vec![0; SCREEN as usize])),
            displays: Vec::new(),
            lines: 0,
            lent: Lent { c: 1, store: 16, screen: None, list: None, target: None, sheet: None },
            shadow: Shadow::fresh(Seen::default()),
        }
    }

    /// Plays one line, without its newline, and writes its answer. A call that is outside the common ground leaves all as it was.
    pub fn line(&mut self, line: &[u8], out: &mut Text) -> Played {
        self.lines += 1;
        match read(line) {
            Line::Passed => return Played::Passed,
            Line::Malformed => out.line(&format!("? {}", self.lines)),
            Line::Call(call) if cannot(&call, &self.lent) => out.line("!"),
            Line::Call(call) => {
                let answer = answer(&call, &self.group, &self.lent, &self.shadow);
                if let Call::Route(Event::MouseUp(x, y, _)) | Call::Who(Event::MouseUp(x, y, _)) = call {
                    self.shadow.count_release(x, y);
                }
                if let Some(entry) = self.entry(&call, answer) {
                    self.lines -= 1;
                    return Played::Outside(entry);
                }
                self.call(&call, answer, out);
            }
        }
        Played::Written
    }

    fn entry(&self, call: &Call, answer: u8) -> Option<Entry> {
        match *call {
            _ if self.mode != Mode::Common => None,
            Call::Route(Event::MouseUp(x, y, _)) | Call::Who(Event::MouseUp(x, y, _)) => {
                self.shadow.release_entry(x, y)
            }
            _ if answer != 0 => None,
            _ => self.shadow.entry(call),
        }
    }

    fn call(&mut self, call: &Call, answer: u8, out: &mut Text) {
        let unasked = self.mode == Mode::Unasked && matches!(answer, 3..=7 | 13..=16 | 21);
        let before = out.0.len();
        if answer == 0 || unasked {
            let made = panics::caught(|| self.make(call, out)).unwrap_or_else(|panic| {
                out.0.truncate(before);
                out.0.extend_from_slice(panic.as_bytes());
                0
            });
            if answer == 0 {
                self.shadow.follow(call, made);
            }
            out.end();
        } else {
            self.refuse(call);
            out.answer(answer);
            out.end();
        }
        match call {
            Call::Redraw(..) | Call::Portion(..) => self.lent.screen = None,
            Call::Visible(_) | Call::Hits(_) | Call::ReadSheet(_) => self.lent.list = None,
            Call::Look(_) => self.lent.target = None,
            Call::Sheet(_) => self.lent.sheet = None,
            _ => {}
        }
    }

    /// "On a no the session handed over is a fresh one with C = 1."
    fn refuse(&mut self, call: &Call) {
        if let Call::Start(_) = call {
            self.start(1);
        }
    }

    fn start(&mut self, c: u32) {
        self.group = Group::new();
        self.displays.clear();
        self.lent.c = c;
        self.lent.store = 16 * c;
        self.shadow = Shadow::fresh(self.shadow.seen);
    }

    /// Makes the call on the original and writes what it gives; the id is that of a create.
    fn make(&mut self, call: &Call, out: &mut Text) -> usize {
        match *call {
            Call::Route(event) => out.answer(self.route(event)),
            Call::Who(event) => {
                let taker = who::takes(&self.group, event);
                let answer = self.route(event);
                out.answer(answer);
                if answer == 0 {
                    out.numbers(&taker);
                }
            }
            Call::Pop(id) => {
                events::pop(&mut self.group, id, out);
                self.shadow.waits.pop(id as usize);
            }
            Call::Create => {
                let id = self.group.create();
                out.answer(0);
                out.number(id as u32);
                return id;
            }
            Call::Fill(id, ..) | Call::Blit(id, ..) => {
                let before = self.group.pixels(id);
                self.change(call);
                out.answer(0);
                out.number(altered(&before, &self.group.pixels(id)));
            }
            _ => {
                self.change(call);
                out.answer(0);
                self.tell(call, out);
            }
        }
        0
    }

    fn route(&mut self, event: Event) -> u8 {
        let taker = self.shadow.taker(&event, usize::from(self.group.focus()));
        let answer = events::route(&mut self.group, event);
        if answer == 0 {
            self.shadow.took(&event, taker);
        }
        answer
    }

    fn change(&mut self, call: &Call) {
        let group = &mut self.group;
        match *call {
            Call::Start(c) => self.start(c),
            Call::Show(id) => group.show(id),
            Call::Hide(id) => group.hide(id),
            Call::Drop(id) => group.drop(id),
            Call::Mark(id) => group.mark(id),
            Call::Move(id, x, y) => group.move_window(id, x, y),
            Call::Resize(id, w, h) => group.resize(id, w, h),
            Call::Display(region) => self.displays.push(region),
            Call::Maximise(id) => surfaces::maximise(group, &self.displays, id),
            Call::UpdateDims => surfaces::update_dims(group, &self.displays),
            Call::Fill(id, area, colour) => group.fill(id, area, colour),
            Call::Blit(id, area, stride, ref data) => group.blit(id, area, data, stride as usize),
            Call::Redraw(forced, w, h) => {
                lend_screen(&self.screen, w, h);
                group.redraw(forced || self.shadow.owed)
            }
            Call::Lend(pixels) => self.lent.store = pixels,
            Call::LendScreen(pixels) => self.lent.screen = Some(pixels),
            Call::LendList(numbers) => self.lent.list = Some(numbers),
            Call::LendTarget(pixels) => self.lent.target = Some(pixels),
            Call::LendSheet(bytes) => self.lent.sheet = Some(bytes),
            _ => {}
        }
    }

    fn tell(&mut self, call: &Call, out: &mut Text) {
        match *call {
            Call::Visible(id) => {
                let list = self.group.visible(id);
                out.number(list.len() as u32);
                list.iter().for_each(|rect| out.rect(rect));
            }
            Call::Focus => out.number(u32::from(self.group.focus())),
            Call::Screen(w, h) => out.numbers(&self.screen.lock()[..(w * h) as usize]),
            Call::Pixels(id) => out.numbers(&self.pixels(id)),
            Call::Picture(w, h, ref name) => {
                if picture::write(&self.screen.lock(), w, h, name).is_err() {
                    out.instead("!");
                }
            }
            Call::DisplayAt(x, y) => surfaces::display_at(&self.displays, x, y, out),
            Call::Portion(..) | Call::Raise(_) | Call::Drag(..) => out.instead("no such call"),
            // To switch off what is off is nothing, and so common ground.
            Call::Dim(on) if on || self.shadow.is_dimmed() => out.instead("no such call"),
            Call::Dim(_) => {}
            // So is to give a window the layer that it has.
            Call::Layer(id, layer) if self.shadow.places.changes_layer(id, layer) => out.instead("no such call"),
            Call::Layer(..) => {}
            // The original has no such calls either: the rule answers.
            Call::Busiest(ref times) => {
                let second = busiest::second(times);
                out.numbers(&[second.count, second.place]);
            }
            Call::Stale(which, ref area) => stale::tell(&self.shadow, which, &Area::of(area), out),
            Call::Waiting => out.number(self.shadow.waits.bits(&self.shadow.places.used)),
            Call::Window(id) => out.numbers(&standing::window(&self.shadow, id as usize)),
            Call::Session => {
                out.number(self.lent.c);
                out.numbers(&standing::session(&self.shadow, u32::from(self.group.focus())));
            }
            Call::Share(id) => out.numbers(&share::percent_and_remainder(&self.group, id)),
            Call::Look(ref look) => out.numbers(&look::target(&self.group, look)),
            Call::Hits(ref points) => out.numbers(&hits::answers(&self.group, points)),
            Call::Sheet(id) => self.tell_sheet(id, out),
            Call::ReadSheet(ref bytes) => tell_rects(bytes, out),
            _ => bare::make(call, out),
        }
    }

    fn tell_sheet(&self, id: u32, out: &mut Text) {
        let bytes = sheet::bytes(&sheet::of_group(&self.group, id));
        out.number(bytes.len() as u32);
        bytes.iter().for_each(|&byte| out.number(byte.into()));
    }

    /// "the w × h pixels of window ID in the store, if at least 16 × C pixels are lent; of an unused id none"
    fn pixels(&self, id: u32) -> Vec<u32> {
        if id < 16 && self.group.is_used(id) && self.lent.store >= 16 * self.lent.c {
            return self.group.pixels(id);
        }
        Vec::new()
    }
}

fn tell_rects(bytes: &[u8], out: &mut Text) {
    let rects = sheet::rects(&sheet::read(bytes).unwrap_or_default());
    out.number(rects.len() as u32 / 4);
    out.numbers(&rects);
}
