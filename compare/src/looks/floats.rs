//! Random numbers in f64: those of looks that are accepted, and wrong ones of every kind.
use crate::look::FACTORS;
use crate::random::Random;

/// A multiple of 0.25: mostly near a window, −0.0 now and then, and up to the greatest.
pub fn corner(random: &mut Random) -> f64 {
    if random.chance(100) {
        return random.pick(&[0.0, -0.0]);
    }
    let (least, most) = random.weighted(&[(75, (0, 40)), (19, (0, 200)), (3, (0, 131_068)), (3, (131_060, 131_068))]);
    f64::from(random.from_to(least, most)) / 4.0
}

pub fn factor(random: &mut Random) -> f64 {
    random.pick(&FACTORS)
}

/// A float that is no corner number.
pub fn no_corner(random: &mut Random) -> f64 {
    let near = corner(random);
    let others = [-0.25, -1.0, 0.1, 0.125, 1.0 / 3.0, 32767.25, 32767.5, 32768.0, 65536.0, 1e300, -1e300, f64::MAX];
    match random.from_to(0, 4) {
        0 => random.pick(&others),
        1 => strange(random),
        2 => near.next_up() + 0.0,
        3 => near + 0.125,
        _ => -0.25 - near.abs(),
    }
}

/// A float that is no factor.
pub fn no_factor(random: &mut Random) -> f64 {
    let others = [0.0, -0.0, 0.125, 0.75, 1.5, 3.0, 8.0, 16.0, -1.0, -0.25, -4.0, 1e-300, 1e300];
    match random.from_to(0, 3) {
        0 => strange(random),
        1 => factor(random).next_up(),
        2 => factor(random).next_down(),
        _ => random.pick(&others),
    }
}

/// Any bits at all: NaNs of any sign and payload, infinities, subnormal numbers.
pub fn strange(random: &mut Random) -> f64 {
    let any = u64::from(random.from_to(0, u32::MAX)) << 32 | u64::from(random.from_to(0, u32::MAX));
    let sign = any & 1 << 63;
    f64::from_bits(match random.from_to(0, 5) {
        0 => sign | f64::INFINITY.to_bits(),
        1 => sign | f64::INFINITY.to_bits() | 1,
        2 => any | f64::NAN.to_bits(),
        3 => sign | 1,
        4 => sign | any & 0x000f_ffff_ffff_ffff,
        _ => any,
    })
}
