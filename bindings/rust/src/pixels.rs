//! The calls on pixels alone: lines of a picture of width by height, and regions of one with a stride. What is handed back is a part of what was
//! lent.
//!
//! SAFETY of every call: a pointer and a length are those of one slice, which is lent for the call, and no two slices overlap; every other argument
//! may be any number.
use crate::raw;
use crate::Error;
use core::ops::Range;

fn part(part: raw::Part) -> Result<Range<usize>, Error> {
    Error::checked(part.answer).map(|()| part.start..part.start + part.count)
}

fn line_of(pixels: &[u32], width: u32, height: u32, line: u32, ofs: u32, len: u32) -> Result<Range<usize>, Error> {
    part(unsafe { raw::roq_scanline(pixels.as_ptr(), pixels.len(), width, height, line, ofs, len) })
}

fn region_of(pixels: &[u32], stride: usize, x: u32, y: u32, w: u32, h: u32) -> Result<Range<usize>, Error> {
    part(unsafe { raw::roq_region(pixels.as_ptr(), pixels.len(), stride, x, y, w, h) })
}

/// `len` pixels of a line from `ofs` on, cut to the width.
pub fn scanline(pixels: &[u32], width: u32, height: u32, line: u32, ofs: u32, len: u32) -> Result<&[u32], Error> {
    line_of(pixels, width, height, line, ofs, len).map(|part| &pixels[part])
}

/// The same, to be written.
pub fn scanline_mut(
    pixels: &mut [u32],
    width: u32,
    height: u32,
    line: u32,
    ofs: u32,
    len: u32,
) -> Result<&mut [u32], Error> {
    line_of(pixels, width, height, line, ofs, len).map(|part| &mut pixels[part])
}

/// The rows of (x,y,w,h) in a picture whose rows begin `stride` apart, with what lies between them.
pub fn region(pixels: &[u32], stride: usize, x: u32, y: u32, w: u32, h: u32) -> Result<&[u32], Error> {
    region_of(pixels, stride, x, y, w, h).map(|part| &pixels[part])
}

/// The same, to be written.
pub fn region_mut(pixels: &mut [u32], stride: usize, x: u32, y: u32, w: u32, h: u32) -> Result<&mut [u32], Error> {
    region_of(pixels, stride, x, y, w, h).map(|part| &mut pixels[part])
}

fn altered(altered: raw::Altered) -> Result<usize, Error> {
    Error::checked(altered.answer).map(|()| altered.altered)
}

/// Fills such a part of a line, and counts the pixels that have another value then; nothing where it lies beside the picture.
pub fn fill_scanline(
    pixels: &mut [u32],
    width: u32,
    height: u32,
    line: u32,
    ofs: u32,
    len: u32,
    value: u32,
) -> Result<usize, Error> {
    let (px, count) = (pixels.as_mut_ptr(), pixels.len());
    altered(unsafe { raw::roq_fill_scanline(px, count, width, height, line, ofs, len, value) })
}

/// Writes data to such a part of a line, as far as both go, and counts likewise.
pub fn set_scanline(
    pixels: &mut [u32],
    width: u32,
    height: u32,
    line: u32,
    ofs: u32,
    len: u32,
    data: &[u32],
) -> Result<usize, Error> {
    let (px, count) = (pixels.as_mut_ptr(), pixels.len());
    let (from, data_len) = (data.as_ptr(), data.len());
    altered(unsafe { raw::roq_set_scanline(px, count, width, height, line, ofs, len, from, data_len) })
}
