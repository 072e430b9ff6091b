//! The calls of panels.calls, made from Rust. Writes what the program `replay` writes for that script.
use roqshyn::{Error, Event, Located, Meant, Pos, Rect, Session, MOST_RECTS, WINDOWS};

const C: u32 = 72;
const WIDTH: u32 = 12;
const HEIGHT: u32 = 6;
const PLAN: u32 = 0;
const PANEL: u32 = 1;

struct Panels {
    session: Session,
    store: Vec<u32>,
    screen: Vec<u32>,
}

/// The line of a call: 0 and what it hands back, or the number of the question.
fn say(answer: Result<String, Error>) {
    match answer {
        Ok(handed) => println!("0{handed}"),
        Err(question) => println!("{}", question.number()),
    }
}

/// Of a call that hands nothing back.
fn done(answer: Result<(), Error>) {
    say(answer.map(|()| String::new()));
}

fn numbers(of: &[u32]) -> String {
    of.iter().map(|n| format!(" {n}")).collect()
}

fn rect(r: &Rect) -> String {
    numbers(&[r.pos.x, r.pos.y, r.dims.w, r.dims.h])
}

fn named(event: Event) -> String {
    match event {
        Event::Resize => " Resize".to_string(),
        Event::MouseDown { at, button } => format!(" MouseDown {} {} {button}", at.x, at.y),
        Event::MouseUp { at, button } => format!(" MouseUp {} {} {button}", at.x, at.y),
        Event::MouseMove { at, dx, dy } => format!(" MouseMove {} {} {dx} {dy}", at.x, at.y),
        other => format!(" {other:?}"),
    }
}

impl Panels {
    fn create(&mut self) {
        say(self.session.create().map(|id| numbers(&[id.into()])));
    }
    fn resize(&mut self, id: u32, w: u32, h: u32) {
        done(self.session.resize(id.into(), w, h, &mut self.store));
    }
    fn fill(&mut self, id: u32, area: Rect, colour: u32) {
        say(self.session.fill(id.into(), area, colour, &mut self.store).map(|altered| format!(" {altered}")));
    }
    fn blit(&mut self, id: u32, area: Rect, data: &[u32]) {
        let stride = area.dims.w as usize;
        say(self.session.blit(id.into(), area, stride, data, &mut self.store).map(|altered| format!(" {altered}")));
    }
    fn visible(&mut self, id: u32) {
        let mut list = [Rect::default(); MOST_RECTS];
        let seen = self.session.visible(id.into(), &mut list);
        say(seen.map(|seen| format!(" {}{}", seen.len(), seen.iter().map(rect).collect::<String>())));
    }
    fn press(&mut self, x: u32, y: u32) {
        done(self.session.route(Event::MouseDown { at: Pos::new(x, y), button: 1 }));
    }
    fn release(&mut self, x: u32, y: u32) {
        done(self.session.route(Event::MouseUp { at: Pos::new(x, y), button: 1 }));
    }
    fn finger(&mut self, x: u32, y: u32) {
        done(self.session.route(Event::mouse_move(Pos::new(x, y))));
    }
    fn pop(&mut self, id: u32) {
        say(self.session.pop(id.into()).map(named));
    }
    /// Draws, and shows the screen.
    fn redraw(&mut self) {
        done(self.session.redraw(false, WIDTH, HEIGHT, &self.store, &mut self.screen));
        println!("0{}", numbers(&self.screen));
    }

    /// A walk of one portion, one more, and the screen.
    fn walk(&mut self) {
        done(self.session.begin(false));
        for _ in 0..2 {
            done(self.session.portion(WIDTH, HEIGHT, &self.store, &mut self.screen));
        }
        println!("0{}", numbers(&self.screen));
    }

    /// Dimming on, and the screen.
    fn dim(&mut self) {
        done(self.session.dim(true));
        self.redraw();
    }

    fn draw_panels(&mut self) {
        self.create();
        self.create();
        self.resize(PLAN, 12, 6);
        self.resize(PANEL, 6, 3);
        self.fill(PLAN, Rect::new(0, 0, 12, 6), 1);
        self.blit(PLAN, Rect::new(0, 3, 12, 1), &[2; 12]);
        self.fill(PANEL, Rect::new(0, 0, 6, 3), 3);
        self.fill(PANEL, Rect::new(1, 1, 2, 1), 4);
        done(self.session.move_window(PANEL.into(), 4, 2));
        done(self.session.show(PLAN.into()));
        done(self.session.show(PANEL.into()));
        self.redraw();
        self.visible(PLAN);
    }

    fn press_panels(&mut self) {
        self.press(5, 3);
        self.press(1, 3);
        self.press(12, 0);
        self.finger(7, 4);
        println!("0 {}", u32::from(self.session.focus()));
        (0..4).for_each(|_| self.pop(PANEL));
        (0..3).for_each(|_| self.pop(PLAN));
    }

    /// Where a redraw or a portion will write.
    fn stale(&self, meant: Meant) {
        let stale = self.session.stale(meant, Rect::new(0, 0, WIDTH, HEIGHT));
        say(stale.map(|found| found.map_or(" none".to_string(), |r| rect(&r))));
    }

    /// The button is painted; what the redraw will write, and what there is to write after it.
    fn press_button(&mut self) {
        self.fill(PANEL, Rect::new(1, 1, 2, 1), 5);
        done(self.session.mark(PANEL.into()));
        self.stale(Meant::Redraw);
        self.stale(Meant::Portion);
        done(self.session.redraw(false, WIDTH, HEIGHT, &self.store, &mut self.screen));
        self.stale(Meant::Redraw);
        println!("0{}", numbers(&self.screen));
    }

    fn waiting(&self) {
        println!("0 {}", self.session.waiting().map(|id| 1 << u32::from(id)).sum::<u32>());
    }

    fn window(&self, id: u32) {
        say(self.session.window(id.into()).map(|w| {
            let place = [w.place.is_some().into(), w.place.unwrap_or(0), w.layer];
            let rest = [w.maximised.into(), w.marked.into(), w.queued, w.moved.into()];
            rect(&w.rect) + &numbers(&place) + &numbers(&rest)
        }));
    }

    fn session(&self) {
        let s = self.session.state();
        let [focus, grab] = [s.focus, s.grab].map(|id| id.map_or(16, u32::from));
        let (walk, left) = s.walk.map_or((0, 0), |walk| (1 + u32::from(walk.full), walk.left));
        println!("0{}", numbers(&[s.c, s.shown, focus, grab, s.dimmed.into(), s.owed.into(), walk, left, s.displays]));
    }

    /// A release, and who took it.
    fn released_to(&mut self, x: u32, y: u32) {
        let to = self.session.route_to(Event::MouseUp { at: Pos::new(x, y), button: 1 });
        say(to.map(|taker| taker.map_or(" 16 0 0".into(), |(id, at)| numbers(&[id.into(), at.x, at.y]))));
    }

    /// A press and its release off the panel; what waits; and how things stand.
    fn ask(&mut self) {
        self.press(5, 3);
        self.released_to(1, 3);
        self.waiting();
        self.pop(PANEL);
        self.pop(PANEL);
        self.waiting();
        self.window(PANEL);
        self.window(2);
        self.session();
    }

    /// The plan is raised while the panel is pressed, and then the panel, which gets the release.
    fn raise_both(&mut self) {
        self.press(5, 3);
        done(self.session.raise(PLAN.into()));
        self.redraw();
        self.release(1, 3);
        done(self.session.raise(PANEL.into()));
        self.redraw();
        (0..3).for_each(|_| self.pop(PANEL));
    }

    /// A finger drags the panel to the left and back: the plan is drawn where the panel was. There is no such place as
    /// the second.
    fn drag_panel(&mut self) {
        done(self.session.drag(PANEL.into(), 2, 1));
        self.redraw();
        done(self.session.drag(PANEL.into(), 32_768, 1));
        done(self.session.drag(PANEL.into(), 4, 2));
        self.redraw();
    }

    /// The panel stays above the plan, which is hidden and shown again.
    fn keep_on_top(&mut self) {
        done(self.session.set_layer(PANEL.into(), 2));
        done(self.session.set_layer(PANEL.into(), 1));
        done(self.session.hide(PLAN.into()));
        done(self.session.show(PLAN.into()));
        self.redraw();
    }

    /// The panel fills a display.
    fn maximise(&mut self) {
        done(self.session.add_display(Rect::new(0, 0, WIDTH, 0)));
        done(self.session.add_display(Rect::new(0, 0, WIDTH, HEIGHT)));
        say(self.session.display_at(Pos::new(20, 3)).map(|at| match at {
            Located::On(r) => format!(" on{}", rect(&r)),
            Located::Closest(r) => format!(" closest{}", rect(&r)),
        }));
        done(self.session.maximise(PANEL.into(), &mut self.store));
        done(self.session.update_dims(&mut self.store));
        self.redraw();
        self.pop(PANEL);
    }
}

fn main() -> Result<(), Error> {
    let session = Session::start(C)?;
    println!("0");
    let store = vec![0; WINDOWS * C as usize];
    let screen = vec![0; (WIDTH * HEIGHT) as usize];
    let mut panels = Panels { session, store, screen };
    panels.draw_panels();
    panels.press_panels();
    panels.press_button();
    panels.ask();
    panels.raise_both();
    panels.drag_panel();
    panels.keep_on_top();
    panels.maximise();
    done(panels.session.drop(PANEL.into()));
    panels.redraw();
    panels.pop(PANEL);
    panels.fill(PLAN, Rect::new(0, 3, 12, 1), 6);
    done(panels.session.mark(PLAN.into()));
    panels.walk();
    panels.fill(PLAN, Rect::new(0, 3, 12, 1), 0x00ff_8040);
    (0..2).for_each(|_| panels.dim());
    Ok(())
}
