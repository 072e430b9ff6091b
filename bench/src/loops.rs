//! One window as one writes it in Rust: a loop over rows, each pixel compared and written.
use crate::call::{Area, Call, Reply, Side, State};
use std::hint::black_box;

pub struct Loops {
    pixels: Vec<u32>,
    /// Nothing is drawn.
    screen: Vec<u32>,
    width: usize,
}

impl Loops {
    pub fn new(width: u32, height: u32) -> Loops {
        let pixels = vec![0; (width * height) as usize];
        Loops { screen: pixels.clone(), pixels, width: width as usize }
    }
}

/// Where the rows of an area begin.
fn rows(area: Area, width: usize) -> impl Iterator<Item = usize> {
    (area.1 as usize..(area.1 + area.3) as usize).map(move |row| row * width + area.0 as usize)
}

// How many pixels were altered. Not inlined, since our functions are called too.
#[inline(never)]
fn fill(px: &mut [u32], width: usize, area: Area, colour: u32) -> usize {
    let mut altered = 0;
    for at in rows(area, width) {
        let mut count = 0u32;
        for p in &mut px[at..at + area.2 as usize] {
            count += u32::from(*p != colour);
            *p = colour;
        }
        altered += count as usize;
    }
    altered
}

#[inline(never)]
fn blit(px: &mut [u32], width: usize, area: Area, data: &[u32]) -> usize {
    let w = area.2 as usize;
    let mut altered = 0;
    for (at, row) in rows(area, width).zip(data.chunks(w)) {
        let mut count = 0u32;
        for (p, &v) in px[at..at + w].iter_mut().zip(row) {
            count += u32::from(*p != v);
            *p = v;
        }
        altered += count as usize;
    }
    altered
}

impl Side for Loops {
    fn call(&mut self, call: &Call) -> Reply {
        match *call {
            Call::Create => return Reply::Id(0),
            // To the size that it has.
            Call::Resize(..) => {}
            Call::Fill(_, area, colour) => {
                black_box(fill(&mut self.pixels, self.width, area, colour));
            }
            Call::Blit(_, area, ref data) => {
                black_box(blit(&mut self.pixels, self.width, area, data));
            }
            _ => unreachable!("{call:?}"),
        }
        Reply::Answer(0)
    }

    fn is_screen(&self, like: &dyn Fn(&[u32]) -> bool) -> bool {
        like(&self.screen)
    }

    fn state(&mut self) -> State {
        let mut pixels = vec![Vec::new(); 16];
        pixels[0] = self.pixels.clone();
        State {
            focus: 0,
            visible: vec![Vec::new(); 16],
            pixels,
            screen: self.screen.clone(),
            points: Vec::new(),
            sheet: Vec::new(),
        }
    }
}
