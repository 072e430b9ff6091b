//! Random numbers from a seed (splitmix64).

pub struct Random(u64);

impl Random {
    pub fn new(seed: u64) -> Random {
        Random(seed)
    }
    fn next(&mut self) -> u64 {
        self.0 = self.0.wrapping_add(0x9E37_79B9_7F4A_7C15);
        let mut z = self.0;
        z = (z ^ (z >> 30)).wrapping_mul(0xBF58_476D_1CE4_E5B9);
        z = (z ^ (z >> 27)).wrapping_mul(0x94D0_49BB_1331_11EB);
        z ^ (z >> 31)
    }
    /// A number from `low` to `high`.
    pub fn from_to(&mut self, low: u32, high: u32) -> u32 {
        low + (self.next() % (u64::from(high - low) + 1)) as u32
    }
    /// True in so many of a thousand cases.
    pub fn chance(&mut self, of_thousand: u32) -> bool {
        self.from_to(0, 999) < of_thousand
    }
    pub fn pick<T: Copy>(&mut self, values: &[T]) -> T {
        values[self.from_to(0, values.len() as u32 - 1) as usize]
    }
    /// One of the values, each as often as its weight says.
    pub fn weighted<T: Copy>(&mut self, values: &[(u32, T)]) -> T {
        let total: u32 = values.iter().map(|(weight, _)| weight).sum();
        let mut place = self.from_to(1, total);
        for &(weight, value) in values {
            if place <= weight {
                return value;
            }
            place -= weight;
        }
        unreachable!("the place is at most the total")
    }
}
