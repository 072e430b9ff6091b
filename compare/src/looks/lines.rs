//! The lines of a random session, and of looks at its windows.
use super::floats::{corner, factor, no_corner, no_factor, strange};
use crate::random::Random;

/// The pixels of a window: as many as the data of one blit.
const C: u32 = 4096;

pub fn random(random: &mut Random, looks: u64) -> Vec<String> {
    let mut lines = vec![format!("start {C}")];
    let count = random.from_to(1, 5);
    for id in 0..count {
        window(random, id, &mut lines);
    }
    for _ in 0..looks {
        look(random, count, &mut lines);
    }
    lines
}

/// A window with pixels of which few are alike, shown or hidden; some have no pixels, or one row or column.
fn window(random: &mut Random, id: u32, lines: &mut Vec<String>) {
    let side = |random: &mut Random| random.weighted(&[(2, 0), (5, 1), (93, 2)]);
    let size = |random: &mut Random| match side(random) {
        2 => random.from_to(2, 64),
        few => few,
    };
    let (w, h) = (size(random), size(random));
    lines.extend(["create".to_string(), format!("resize {id} {w} {h}")]);
    if w * h > 0 {
        let data: String = (0..w * h).map(|_| format!(" {}", random.from_to(1, 999))).collect();
        lines.push(format!("blit {id} 0 0 {w} {h} {w}{data}"));
    }
    // Where the original draws right: no two windows overlap.
    if random.chance(500) {
        lines.extend([format!("move {id} {} {}", 100 * id, random.from_to(0, 90)), format!("show {id}")]);
    }
}

fn bits(x: f64) -> String {
    format!("{} {}", x.to_bits() >> 32, x.to_bits() & u64::from(u32::MAX))
}

/// One look, with what it is lent. Some are wrong in one way or in several.
fn look(random: &mut Random, count: u32, lines: &mut Vec<String>) {
    let wrong = |random: &mut Random| random.chance(30);
    let id = if wrong(random) { random.pick(&[count, 15, 16, u32::MAX]) } else { random.from_to(0, count - 1) };
    let number = |random: &mut Random| if wrong(random) { no_corner(random) } else { corner(random) };
    let (x, y) = (number(random), number(random));
    let is_fit = random.chance(150);
    let zoom = match is_fit {
        true => String::new(),
        false if random.chance(50) => format!(" {}", bits(no_factor(random))),
        false => format!(" {}", bits(factor(random))),
    };
    let (x, y) = if is_fit && random.chance(500) { (strange(random), strange(random)) } else { (x, y) };
    let (w, h) = target(random);
    let is_lent = random.chance(40);
    if is_lent {
        lines.push(format!("lend-target {}", lent(random, w, h)));
    }
    let is_short = random.chance(15);
    if is_short {
        lines.push(format!("lend {}", random.pick(&[0, C, 16 * C - 1, 16 * C + 1])));
    }
    let word = if is_fit { "look-fit" } else { "look" };
    lines.push(format!("{word} {id} {} {}{zoom} {w} {h}", bits(x), bits(y)));
    if is_short {
        lines.push(format!("lend {}", 16 * C));
    }
}

/// Mostly small; a few as large as the program lends, and some of no pixel or too long a side.
fn target(random: &mut Random) -> (u32, u32) {
    let (least, most) = random.weighted(&[(700, (1, 12)), (270, (8, 40)), (10, (200, 300)), (20, (0, 2))]);
    if random.chance(5) {
        return random.pick(&[
            (32767, 1),
            (1, 32767),
            (32767, 2),
            (32768, 1),
            (1, 32768),
            (65536, 1),
            (65536, 65536),
            (256, 256),
        ]);
    }
    (random.from_to(least, most), random.from_to(least, most))
}

/// The length of a target that is lent: mostly its own, or near it; some are longer than the program lends.
fn lent(random: &mut Random, w: u32, h: u32) -> u32 {
    let size = w.saturating_mul(h);
    random.pick(&[size, size.saturating_sub(1), size.saturating_add(1), w, 0, 65536, 65537])
}
