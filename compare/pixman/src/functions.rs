//! The functions of pixman that are called here. Where it is not installed, others of the same types stand in for them.
use crate::region::{Box32, Region};
use std::ffi::c_void;

/// A `pixman_image_t`.
pub type Image = c_void;

macro_rules! functions {
    ($(fn $name:ident($($arg:ident: $type:ty),* $(,)?) $(-> $result:ty)?;)*) => {
        #[cfg(pixman)]
        extern "C" {
            $(pub fn $name($($arg: $type),*) $(-> $result)?;)*
        }
        $(
            #[cfg(not(pixman))]
            pub unsafe fn $name($(_: $type),*) $(-> $result)? {
                unreachable!("pixman is not installed")
            }
        )*
    };
}

functions! {
    fn pixman_region32_init(region: *mut Region);
    fn pixman_region32_init_rect(region: *mut Region, x: i32, y: i32, w: u32, h: u32);
    fn pixman_region32_init_rects(region: *mut Region, boxes: *const Box32, count: i32) -> i32;
    fn pixman_region32_fini(region: *mut Region);
    fn pixman_region32_subtract(to: *mut Region, from: *const Region, what: *const Region) -> i32;
    fn pixman_region32_intersect(to: *mut Region, a: *const Region, b: *const Region) -> i32;
    fn pixman_region32_union(to: *mut Region, a: *const Region, b: *const Region) -> i32;
    fn pixman_region32_translate(region: *mut Region, x: i32, y: i32);
    fn pixman_region32_not_empty(region: *const Region) -> i32;
    fn pixman_region32_rectangles(region: *const Region, count: *mut i32) -> *const Box32;
    fn pixman_image_create_bits(format: u32, w: i32, h: i32, bits: *mut u32, stride: i32) -> *mut Image;
    fn pixman_image_unref(image: *mut Image) -> i32;
    fn pixman_image_set_clip_region32(image: *mut Image, region: *const Region) -> i32;
    fn pixman_image_composite32(
        op: i32,
        from: *mut Image,
        mask: *mut Image,
        to: *mut Image,
        from_x: i32,
        from_y: i32,
        mask_x: i32,
        mask_y: i32,
        to_x: i32,
        to_y: i32,
        w: i32,
        h: i32,
    );
}
