//! Document 02, N4: "a window 32,767 pixels wide is filled, blitted and redrawn to its last column".

const WIDTH: usize = 32767;

/// The most numbers of a blit's data.
const DATA: usize = 4096;

pub fn lines() -> Vec<String> {
    let mut lines = Vec::new();
    let mut line = |text: String| lines.push(text);
    line(format!("start {WIDTH}"));
    line("create".into());
    line(format!("resize 0 {WIDTH} 1"));
    line("show 0".into());
    line(format!("fill 0 0 0 {WIDTH} 1 9"));
    line("pixels 0".into());
    (0..WIDTH).step_by(DATA).for_each(|left| line(blit(left, DATA.min(WIDTH - left))));
    line("mark 0".into());
    line(format!("redraw 0 {WIDTH} 1"));
    line(format!("screen {WIDTH} 1"));
    lines
}

/// Columns `left` on take the last digits of their numbers.
fn blit(left: usize, width: usize) -> String {
    let data: String = (left..left + width).map(|column| format!(" {}", column % 10)).collect();
    format!("blit 0 {left} 0 {width} 1 {width}{data}")
}
