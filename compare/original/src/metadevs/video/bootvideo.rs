//! Stand-in: there is no video mode of a boot loader; a display made from one shows nothing.
use super::{Dims, Pos, Rect, StrideBuf};
use std::any::Any;

#[derive(Clone, Copy, Debug)]
pub struct VideoMode;

pub struct Framebuffer;

impl Framebuffer {
    pub fn new(_mode: VideoMode) -> Framebuffer {
        Framebuffer
    }
}

impl super::Framebuffer for Framebuffer {
    fn as_any(&self) -> &dyn Any {
        self
    }
    fn activate(&mut self) {}
    fn get_size(&self) -> Dims {
        Dims::new(0, 0)
    }
    fn set_size(&mut self, _size: Dims) -> bool {
        false
    }
    fn blit_inner(&mut self, _to: Rect, _from: Rect) {}
    fn blit_ext(&mut self, _to: Rect, _from: Rect, _of: &dyn super::Framebuffer) -> bool {
        false
    }
    fn blit_buf(&mut self, _to: Rect, _pixels: StrideBuf<u32>) {}
    fn fill(&mut self, _area: Rect, _colour: u32) {}
    fn move_cursor(&mut self, _to: Option<Pos>) {}
}
