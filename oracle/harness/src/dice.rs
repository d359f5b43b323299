//! A random generator of our own with a fixed seed (splitmix64), so that every run draws the same inputs.

pub struct Dice(pub u64);

impl Dice {
    pub fn throw(&mut self) -> u64 {
        self.0 = self.0.wrapping_add(0x9e37_79b9_7f4a_7c15);
        let mut z = self.0;
        z = (z ^ (z >> 30)).wrapping_mul(0xbf58_476d_1ce4_e5b9);
        z = (z ^ (z >> 27)).wrapping_mul(0x94d0_49bb_1331_11eb);
        z ^ (z >> 31)
    }
    /// From 0 to `n` - 1; the small bias does not matter here.
    pub fn below(&mut self, n: u64) -> u64 {
        self.throw() % n
    }
    /// From `low` to `high`, both included.
    pub fn within(&mut self, low: u64, high: u64) -> u64 {
        low + self.below(high - low + 1)
    }
    pub fn byte(&mut self) -> u8 {
        self.throw() as u8
    }
    pub fn yes(&mut self) -> bool {
        self.throw() & 1 == 1
    }
    pub fn pick<T: Copy>(&mut self, from: &[T]) -> T {
        from[self.below(from.len() as u64) as usize]
    }
    pub fn bytes(&mut self, n: usize) -> Vec<u8> {
        (0..n).map(|_| self.byte()).collect()
    }
    /// A number of any size: its count of bits is drawn first.
    pub fn spread(&mut self) -> u64 {
        let bits = self.below(65);
        if bits == 0 { 0 } else { self.throw() >> (64 - bits) }
    }
}
