//! Pixels as a binary PPM.
use std::fs;
use std::io;

pub fn write(pixels: &[u32], w: u32, h: u32, name: &str) -> io::Result<()> {
    let mut bytes = format!("P6\n{w} {h}\n255\n").into_bytes();
    for pixel in &pixels[..(w * h) as usize] {
        bytes.extend_from_slice(&pixel.to_be_bytes()[1..]);
    }
    fs::write(name, bytes)
}
