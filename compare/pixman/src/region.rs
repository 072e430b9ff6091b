//! A region of pixels, which pixman keeps as rectangles in bands.
use crate::functions::*;
use std::ffi::c_void;
use std::ptr::null_mut;

#[repr(C)]
pub struct Box32 {
    pub x1: i32,
    pub y1: i32,
    pub x2: i32,
    pub y2: i32,
}

#[repr(C)]
pub struct Region {
    extents: Box32,
    data: *mut c_void,
}

// SAFETY of the calls below: a region was begun by one of the first three functions and is ended once, by `drop`.
impl Region {
    #[inline]
    fn new(begin: impl FnOnce(*mut Region)) -> Region {
        let mut region = Region { extents: Box32 { x1: 0, y1: 0, x2: 0, y2: 0 }, data: null_mut() };
        begin(&mut region);
        region
    }
    #[inline]
    pub fn empty() -> Region {
        Region::new(|region| unsafe { pixman_region32_init(region) })
    }
    #[inline]
    pub fn of(x: u32, y: u32, w: u32, h: u32) -> Region {
        Region::new(|region| unsafe { pixman_region32_init_rect(region, x as i32, y as i32, w, h) })
    }
    #[inline]
    pub fn of_all(boxes: &[Box32]) -> Region {
        Region::new(|region| unsafe {
            pixman_region32_init_rects(region, boxes.as_ptr(), boxes.len() as i32);
        })
    }
    #[inline]
    pub fn subtract(&mut self, what: &Region) {
        let this: *mut Region = self;
        unsafe { pixman_region32_subtract(this, this, what) };
    }
    #[inline]
    pub fn intersect(&mut self, with: &Region) {
        let this: *mut Region = self;
        unsafe { pixman_region32_intersect(this, this, with) };
    }
    #[inline]
    pub fn unite(&mut self, with: &Region) {
        let this: *mut Region = self;
        unsafe { pixman_region32_union(this, this, with) };
    }
    #[inline]
    pub fn translate(&mut self, x: i32, y: i32) {
        unsafe { pixman_region32_translate(self, x, y) };
    }
    #[inline]
    pub fn is_empty(&self) -> bool {
        unsafe { pixman_region32_not_empty(self) == 0 }
    }
    #[inline]
    pub fn rectangles(&self) -> &[Box32] {
        let mut count = 0;
        unsafe {
            let first = pixman_region32_rectangles(self, &mut count);
            std::slice::from_raw_parts(first, count as usize)
        }
    }
}

impl Drop for Region {
    #[inline]
    fn drop(&mut self) {
        unsafe { pixman_region32_fini(self) };
    }
}
