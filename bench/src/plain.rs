//! What the C library takes for as many pixels: `memcpy` row by row, and `memset`.
use crate::call::Area;
use crate::scene::{HEIGHT, WIDTH};
use std::hint::black_box;
use std::time::Instant;

/// Areas of a picture that go to the same places of another one.
#[derive(Clone)]
pub struct Copied {
    areas: Vec<Area>,
    /// How often all of them are copied for one part of a class.
    times: f64,
}

impl Copied {
    /// Areas of a station's screen.
    pub fn areas(areas: Vec<Area>) -> Copied {
        Copied { areas, times: 1.0 }
    }
    pub fn times(self, times: f64) -> Copied {
        Copied { times, ..self }
    }
}

/// An area of a picture, and where its pixels come from: rows that lie `pitch` apart.
pub struct Piece {
    pub from: usize,
    pub pitch: usize,
    pub to: Area,
}

pub struct Plain {
    pieces: Vec<Piece>,
    times: f64,
    from: Vec<u32>,
    to: Vec<u32>,
    width: usize,
}

impl Plain {
    pub fn copied(what: &Copied) -> Plain {
        let (width, size) = (WIDTH as usize, WIDTH * HEIGHT);
        let piece = |&to: &Area| Piece { from: to.1 as usize * width + to.0 as usize, pitch: width, to };
        let pieces = what.areas.iter().map(piece).collect();
        Plain { pieces, times: what.times, from: (0..size).collect(), to: vec![1; size as usize], width }
    }

    /// A screen, so many pixels wide, drawn from a store; the last of the pieces fill it. All of them are drawn in so many parts of a class.
    pub fn drawn(pieces: Vec<Piece>, parts: usize, store: Vec<u32>, screen: &[u32], width: u32) -> Plain {
        let (to, width, times) = (vec![1; screen.len()], width as usize, 1.0 / parts as f64);
        let mut plain = Plain { pieces, times, from: store, to, width };
        plain.time(1);
        assert!(plain.to == screen, "the visible lists do not draw the screen");
        plain
    }

    /// No pieces: so many pixels are cleared.
    pub fn cleared(pixels: u32) -> Plain {
        Plain { pieces: Vec::new(), times: 1.0, from: Vec::new(), to: vec![1; pixels as usize], width: 0 }
    }

    /// Nanoseconds of one part, of so many parts.
    pub fn time(&mut self, parts: usize) -> f64 {
        let copies = (parts as f64 * self.times).ceil();
        let start = Instant::now();
        for _ in 0..copies as usize {
            if self.pieces.is_empty() {
                black_box(&mut self.to).fill(0);
            }
            for piece in &self.pieces {
                copy(black_box(&mut self.to), self.width, black_box(&self.from), black_box(piece));
            }
        }
        start.elapsed().as_nanos() as f64 / copies * self.times
    }
}

#[inline(never)]
fn copy(to: &mut [u32], width: usize, from: &[u32], piece: &Piece) {
    let (left, w) = (piece.to.0 as usize, piece.to.2 as usize);
    for row in 0..piece.to.3 as usize {
        let at = (piece.to.1 as usize + row) * width + left;
        let start = piece.from + row * piece.pitch;
        to[at..at + w].copy_from_slice(&from[start..start + w]);
    }
}
