//! A lent screen as the original's only display, so that its own `write_buf` writes there; displays that it is asked for; and the slice of a
//! `StrideBuf`.
use super::bootvideo;
use super::{Dims, DisplaySurface, Framebuffer, Pos, Rect, StrideBuf, S_DISPLAY_SURFACES};
use lib::sparse_vec::SparseVec;
use std::any::Any;
use std::sync::Arc;
use sync::mutex::Mutex;

/// Pixels that the player and the display share.
pub type Pixels = Arc<Mutex<Vec<u32>>>;

/// Makes the pixels, w in a row, the only display.
pub fn lend_screen(pixels: &Pixels, w: u32, h: u32) {
    let screen = Screen { pixels: pixels.clone(), size: Dims::new(w, h) };
    put(Some(DisplaySurface { region: Rect::new(0, 0, w, h), fb: Box::new(screen) }));
}

/// Makes the rectangles the displays, in their order; `add_output` can place one alone. They show nothing: for a redraw the lent screen takes
/// their place.
pub fn put_displays(regions: &[Rect]) {
    let blank = || Box::new(bootvideo::Framebuffer::new(bootvideo::VideoMode));
    put(regions.iter().map(|&region| DisplaySurface { region: region, fb: blank() }));
}

fn put<I: IntoIterator<Item = DisplaySurface>>(surfaces: I) {
    let mut displays = SparseVec::new();
    for surface in surfaces {
        displays.insert(surface);
    }
    *S_DISPLAY_SURFACES.lock() = displays;
}

/// The slice of the region (x,y,w,h) of the pixels, by the original's `StrideBuf`.
pub fn region(pixels: &[u32], stride: usize, x: usize, y: usize, w: usize, h: usize) -> &[u32] {
    StrideBuf::new(pixels, stride).offset(x, y).clip(w, h).buf
}

struct Screen {
    pixels: Pixels,
    size: Dims,
}

impl Framebuffer for Screen {
    fn as_any(&self) -> &dyn Any {
        self
    }
    fn activate(&mut self) {}
    fn get_size(&self) -> Dims {
        self.size
    }
    fn set_size(&mut self, _size: Dims) -> bool {
        false
    }
    fn blit_inner(&mut self, _to: Rect, _from: Rect) {}
    fn blit_ext(&mut self, _to: Rect, _from: Rect, _of: &dyn Framebuffer) -> bool {
        false
    }
    fn blit_buf(&mut self, to: Rect, from: StrideBuf<'_, u32>) {
        let mut pixels = self.pixels.lock();
        let mut place = to.top() as usize * self.size.w as usize + to.left() as usize;
        for row in from.chunks(to.w() as usize) {
            pixels[place..place + row.len()].copy_from_slice(row);
            place += self.size.w as usize;
        }
    }
    fn fill(&mut self, _area: Rect, _colour: u32) {}
    fn move_cursor(&mut self, _to: Option<Pos>) {}
}
