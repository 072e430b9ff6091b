//! A station with eight displays: windows of 800 by 480 are blitted whole and seen on a screen of 6,400 by 480.

const WIDTH: usize = 800;
const HEIGHT: usize = 480;
const SCREEN: &str = "6400 480";

pub fn lines() -> Vec<String> {
    let mut lines = vec![format!("start {}", WIDTH * HEIGHT)];
    for id in 0..3 {
        lines.extend(["create".into(), format!("resize {id} {WIDTH} {HEIGHT}"), format!("move {id} {} {id}", 700 * id)]);
        lines.extend([format!("show {id}"), blit(id, WIDTH * HEIGHT), format!("mark {id}")]);
    }
    lines.extend([format!("redraw 0 {SCREEN}"), format!("screen {SCREEN}"), "pixels 2".into()]);
    lines.extend([blit(0, WIDTH * HEIGHT + 1), "pixels 0".into()]);
    lines
}

/// A window is blitted whole; each has other digits.
fn blit(id: usize, count: usize) -> String {
    let data: String = (0..count).map(|place| format!(" {}", (place / (id + 3)) % 10)).collect();
    format!("blit {id} 0 0 {WIDTH} {HEIGHT} {WIDTH}{data}")
}
