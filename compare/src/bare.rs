//! Bare geometry and bare pixels on the original.
use crate::call::{Call, Scan};
use crate::player::altered;
use crate::text::Text;
use original::metadevs::video::lent;
use original::windows::WinBuf;
use original::{Colour, Dims, Pos};

/// Makes the call, and writes what comes after the answer.
pub fn make(call: &Call, out: &mut Text) {
    match call {
        Call::Intersect(a, b) => match a.intersect(b) {
            Some(common) => out.rect(&common),
            None => out.word("none"),
        },
        Call::Pieces(a, b) => {
            let pieces: Vec<_> = a.not_intersect(b).collect();
            out.number(pieces.len() as u32);
            pieces.iter().for_each(|piece| out.rect(piece));
        }
        Call::Union(a, b) => out.rect(&a.union(b)),
        Call::Contains(a, x, y) => out.number(u32::from(a.contains(&Pos::new(*x, *y)))),
        Call::ContainsRect(a, b) => out.number(u32::from(a.contains_rect(b))),
        Call::Within(a, w, h) => out.number(u32::from(a.within(*w, *h))),
        Call::Region(area, stride, pixels) => {
            let (at, size) = (area.pos, area.dims);
            let stride = *stride as usize;
            out.numbers(lent::region(pixels, stride, at.x as usize, at.y as usize, size.w as usize, size.h as usize));
        }
        _ => scanline(call, out),
    }
}

fn scanline(call: &Call, out: &mut Text) {
    let (Call::Scanline(scan, pixels) | Call::FillScanline(scan, _, pixels) | Call::SetScanline(scan, _, pixels)) =
        call
    else {
        return;
    };
    let Some(buffer) = buffer(scan, pixels) else {
        return out.instead("no buffer has these pixels");
    };
    let (line, ofs, len) = (scan.line as usize, scan.ofs as usize, scan.len as usize);
    match call {
        Call::FillScanline(_, value, _) => buffer.fill_scanline(line, ofs, len, Colour(*value)),
        Call::SetScanline(_, data, _) => buffer.set_scanline(line, ofs, len, data),
        _ => return out.numbers(buffer.scanline_rgn(line, ofs, len)),
    }
    let rows = 0..scan.h as usize;
    let after: Vec<u32> = rows.flat_map(|row| buffer.scanline_rgn(row, 0, scan.w as usize).to_vec()).collect();
    out.number(altered(pixels, &after));
    out.numbers(&after);
}

/// A buffer of the original with these pixels; it has none whose length is not width × height.
fn buffer(scan: &Scan, pixels: &[u32]) -> Option<WinBuf> {
    let (w, h) = (scan.w as usize, scan.h as usize);
    if w * h != pixels.len() {
        return None;
    }
    let mut buffer = WinBuf::default();
    buffer.resize(Dims::new(scan.w, scan.h));
    for row in 0..h {
        buffer.scanline_rgn_mut(row, 0, w).copy_from_slice(&pixels[row * w..(row + 1) * w]);
    }
    Some(buffer)
}
