//! Random lists of calls on up to sixteen windows, with drags. All draw on one screen at one size.
use crate::call::{read, Call, Line};
use crate::random::Random;
use crate::shadow::{Seen, Shadow};

pub struct Maker<'a> {
    pub random: &'a mut Random,
    /// Also room for a window that covers the screen.
    pub c: u32,
    pub screen: (u32, u32),
    /// In so many of a thousand cases a window is not marked before it is drawn.
    pub forgets: u32,
    pub colours: u32,
    /// Written, and not marked yet.
    pub unmarked: Vec<u32>,
    pub shadow: Shadow,
    lines: Vec<String>,
}

pub type Action<'a> = fn(&mut Maker<'a>);

pub fn random(random: &mut Random) -> Vec<String> {
    let screen = (random.from_to(4, 20), random.from_to(4, 14));
    let c = (screen.0 * screen.1).max(random.from_to(40, 120));
    let forgets = random.pick(&[0, 0, 0, 100]);
    let shadow = Shadow::fresh(Seen::default());
    let mut maker = Maker { random, c, screen, forgets, colours: 0, unmarked: Vec::new(), shadow, lines: Vec::new() };
    maker.list();
    maker.lines
}

impl<'a> Maker<'a> {
    /// A window that covers the screen is drawn first, so that nothing is left of the list before. Often it stays, and
    /// is the lowest one.
    fn list(&mut self) {
        self.say(&format!("start {}", self.c));
        if self.random.chance(300) {
            self.displays();
        }
        self.lowest();
        self.redraw();
        if self.random.chance(500) {
            self.say("drop 0");
        }
        for _ in 0..self.random.weighted(&[(6, 3), (3, 6), (1, 14)]) {
            self.add_window();
        }
        self.redraw();
        for _ in 0..self.random.from_to(3, 15) {
            for _ in 0..self.random.from_to(1, 4) {
                self.action()(self);
            }
            self.draw();
        }
        self.look();
    }

    /// Those that owe a full redraw come seldom, since a drag is a move then.
    pub fn action(&mut self) -> Action<'a> {
        self.random.weighted::<Action<'a>>(&[
            (40, Maker::drag),
            (6, Maker::drag_by_finger),
            (2, Maker::drag_hidden),
            (2, Maker::drag_refused),
            (14, Maker::write),
            (2, Maker::fill_many),
            (3, Maker::mark),
            (4, Maker::raise),
            (3, Maker::event),
            (1, Maker::move_window),
            (1, Maker::resize),
            (2, Maker::show),
            (1, Maker::hide),
            (1, Maker::layer),
            (1, Maker::drop),
            (1, Maker::add_window),
            (1, Maker::dim),
            (1, Maker::dims),
        ])
    }

    /// No call is refused but a portion with no walk on, and what `say_refused` says.
    pub fn say(&mut self, line: &str) {
        let Line::Call(call) = read(line.as_bytes()) else { panic!("{line}: malformed") };
        let id = self.shadow.places.used.iter().position(|used| !used).unwrap_or(0);
        if !matches!(call, Call::Portion(..)) || self.shadow.is_walking() {
            self.shadow.follow(&call, id);
        }
        self.lines.push(line.to_string());
    }

    pub fn say_refused(&mut self, line: &str) {
        self.lines.push(line.to_string());
    }

    /// A window in use, or one that is shown.
    pub fn used(&mut self) -> Option<u32> {
        let used = self.shadow.places.in_use();
        (!used.is_empty()).then(|| self.random.pick(&used) as u32)
    }

    pub fn shown(&mut self) -> Option<u32> {
        let order = &self.shadow.places.order;
        (!order.is_empty()).then(|| self.random.pick(order) as u32)
    }

    /// What else tells how the windows are.
    fn look(&mut self) {
        self.say("focus");
        for id in self.shadow.places.in_use() {
            for word in ["visible", "pop", "pop", "pop"] {
                self.say(&format!("{word} {id}"));
            }
        }
    }
}
