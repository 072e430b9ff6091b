//! Many points by the words of document 02, N12: each is a single press of the original, on a copy of its state in which every queue has a free
//! place. The original has no such call.
use original::input::Event;
use original::windows::group::{Group, Routed};

/// "25 when there are more than 32 points, an x without its y, or an answer list shorter than three numbers a point"
pub fn fit(points: &[u32], room: u32) -> bool {
    let count = points.len();
    count <= 64 && count % 2 == 0 && 3 * (count / 2) <= room as usize
}

/// "three numbers each: window and relative point, or 16, 0, 0 for nobody"
pub fn answers(group: &Group, points: &[u32]) -> Vec<u32> {
    let mut copy = group.copied();
    points.chunks_exact(2).flat_map(|point| pressed(&mut copy, point[0], point[1])).collect()
}

/// Where the press went, which is popped again.
fn pressed(copy: &mut Group, x: u32, y: u32) -> [u32; 3] {
    if copy.route(Event::MouseDown(x, y, 0)) == Routed::NoWindow {
        return [16, 0, 0];
    }
    let popped = |id| match copy.pop(id) {
        Some(Event::MouseDown(x, y, _)) => Some([id, x, y]),
        _ => None,
    };
    (0..16).find_map(popped).expect("a window that took the press")
}
