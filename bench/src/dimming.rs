//! Full redraws with dimming on, beside two others: a loop in Rust over the same rows and the same table, which is told what is visible, and our
//! own library with dimming off. What a picture is like decides how often pixels beside each other are alike, and whether a processor foresees it.
use crate::call::{Area, Call, Reply, Side, State};
use crate::class::{Beside, Class};
use crate::instead::Instead;
use crate::ours::Ours;
use crate::plain::Piece;
use crate::scene::{alone, cascade, Scene, HEIGHT, WIDTH};

/// How the names of the classes begin.
pub const DIMMED: &str = "dimmed redraw";

/// Pictures of one window, by how long the runs of a colour are, from any number; and of how many colours these are, if not of any.
struct Picture {
    name: &'static str,
    run: fn(u32) -> u32,
    colours: Option<u32>,
}

const PICTURES: [Picture; 4] = [
    Picture { name: "runs of a colour up to 40 pixels", run: |number| 1 + number % 40, colours: None },
    Picture { name: "runs of a colour up to 8 pixels", run: |number| 1 + number % 8, colours: None },
    Picture { name: "two colours at random", run: |_| 1, colours: Some(2) },
    Picture { name: "every pixel at random", run: |_| 1, colours: None },
];

impl Picture {
    /// The numbers follow no pattern (xorshift).
    fn pixels(&self) -> Vec<u32> {
        let mut number = 2_654_435_u32;
        let mut next = || {
            number ^= number << 13;
            number ^= number >> 17;
            number ^= number << 5;
            number
        };
        let size = (WIDTH * HEIGHT) as usize;
        let mut pixels = Vec::new();
        while pixels.len() < size {
            let colour = self.colours.map_or(next(), |colours| (next() >> 8) % colours * 0x00c0_b0a0);
            pixels.extend((0..(self.run)(next() >> 8)).map(|_| colour));
        }
        pixels.truncate(size);
        pixels
    }

    /// A window that fills the screen.
    fn scene(&self) -> Scene {
        let mut scene = alone(WIDTH, HEIGHT);
        scene.setup.extend([Call::Blit(0, Area(0, 0, WIDTH, HEIGHT), self.pixels()), Call::Show(0)]);
        scene
    }
}

fn pictures() -> Vec<(String, Scene)> {
    let panels = [1, 16].map(|n| (format!("{DIMMED}, flat panels, windows: {n}"), cascade(n)));
    let others = PICTURES.map(|picture| (format!("{DIMMED}, {}", picture.name), picture.scene()));
    panels.into_iter().chain(others).collect()
}

pub fn names() -> Vec<String> {
    pictures().into_iter().map(|(name, _)| name).collect()
}

pub fn classes() -> Vec<Class> {
    let dimmed = |beside| {
        pictures().into_iter().map(move |(name, mut scene)| {
            scene.setup.extend([Call::Dim(true), Call::Redraw(true)]);
            Class::new(name, scene, vec![Call::Redraw(true)]).beside(beside)
        })
    };
    dimmed(Beside::Table).chain(dimmed(Beside::Bright)).collect()
}

/// Entry i is (i * i + 127) / 255.
fn table() -> [u8; 256] {
    std::array::from_fn(|i| ((i * i + 127) / 255) as u8)
}

fn shade(v: u32, table: &[u8; 256]) -> u32 {
    let entry = |bits: u32| u32::from(table[(v >> bits & 255) as usize]) << bits;
    v & 0xff00_0000 | entry(16) | entry(8) | entry(0)
}

/// The rows of a piece, as one writes it in Rust.
#[inline(never)]
pub fn draw(to: &mut [u32], width: usize, from: &[u32], piece: &Piece, table: &[u8; 256]) {
    let (left, w) = (piece.to.0 as usize, piece.to.2 as usize);
    for row in 0..piece.to.3 as usize {
        let at = (piece.to.1 as usize + row) * width + left;
        let start = piece.from + row * piece.pitch;
        for (to, &from) in to[at..at + w].iter_mut().zip(&from[start..start + w]) {
            *to = shade(from, table);
        }
    }
}

/// Our library, which is told nothing of dimming: a loop draws in its place what was visible when dimming was switched on.
pub fn through(ours: Ours) -> impl Side {
    let (table, mut pieces) = (table(), None);
    Instead::new(ours, move |ours, call| {
        match (call, &pieces) {
            (Call::Dim(on), _) => pieces = on.then(|| ours.all_pieces()),
            (Call::Redraw(_), Some(pieces)) => ours.draw_through(&table, pieces),
            _ => return None,
        }
        Some(Reply::Answer(0))
    })
}

/// Our library, which is told nothing of dimming. Its screen is looked at through the table, so that it shows the same.
pub struct Bright {
    ours: Ours,
    is_dim: bool,
}

impl Bright {
    pub fn new(ours: Ours) -> Bright {
        Bright { ours, is_dim: false }
    }

    fn seen(&self, screen: &[u32]) -> Vec<u32> {
        let table = table();
        screen.iter().map(|&v| if self.is_dim { shade(v, &table) } else { v }).collect()
    }
}

impl Side for Bright {
    fn call(&mut self, call: &Call) -> Reply {
        match *call {
            Call::Dim(on) => self.is_dim = on,
            _ => return self.ours.call(call),
        }
        Reply::Answer(0)
    }

    fn is_screen(&self, like: &dyn Fn(&[u32]) -> bool) -> bool {
        self.ours.is_screen(&|screen| like(&self.seen(screen)))
    }

    fn state(&mut self) -> State {
        let state = self.ours.state();
        State { screen: self.seen(&state.screen), ..state }
    }
}
