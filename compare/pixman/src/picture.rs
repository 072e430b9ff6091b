//! Pixels that pixman can read and write.
use crate::functions::*;
use crate::region::Region;
use std::ptr::null_mut;

const OP_SRC: i32 = 1;
const A8R8G8B8: u32 = 0x2002_8888;

pub struct Picture {
    pixels: Vec<u32>,
    width: u32,
    height: u32,
    image: *mut Image,
}

// SAFETY of the calls below: the pixels live as long as the image, and are as many as it was told.
impl Picture {
    pub fn new(width: u32, height: u32) -> Picture {
        let mut pixels = vec![0; (width * height) as usize];
        let (w, h) = (width as i32, height as i32);
        let image = unsafe { pixman_image_create_bits(A8R8G8B8, w, h, pixels.as_mut_ptr(), 4 * w) };
        Picture { pixels, width, height, image }
    }
    pub fn pixels(&self) -> &[u32] {
        &self.pixels
    }
    #[inline]
    pub fn fill(&mut self, x: u32, y: u32, w: u32, h: u32, colour: u32) {
        for row in y..y + h {
            let start = (row * self.width + x) as usize;
            self.pixels[start..start + w as usize].fill(colour);
        }
    }
    /// Puts it on another with its corner at x and y, where a region of that one has its pixels.
    #[inline]
    pub fn draw(&self, to: &Picture, x: u32, y: u32, clip: &Region) {
        let (x, y, w, h) = (x as i32, y as i32, self.width as i32, self.height as i32);
        unsafe {
            pixman_image_set_clip_region32(to.image, clip);
            pixman_image_composite32(OP_SRC, self.image, null_mut(), to.image, 0, 0, 0, 0, x, y, w, h);
        }
    }
}

impl Drop for Picture {
    fn drop(&mut self) {
        unsafe { pixman_image_unref(self.image) };
    }
}
