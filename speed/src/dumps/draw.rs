//! Numbers that look random and hang on a seed alone (splitmix64).

pub struct Draw(u64);

impl Draw {
    pub fn new(seed: u64) -> Self {
        Draw(seed.wrapping_mul(0x9E37_79B9_7F4A_7C15) ^ 0x1275_1994)
    }

    pub fn bits(&mut self) -> u64 {
        self.0 = self.0.wrapping_add(0x9E37_79B9_7F4A_7C15);
        let z = (self.0 ^ (self.0 >> 30)).wrapping_mul(0xBF58_476D_1CE4_E5B9);
        let z = (z ^ (z >> 27)).wrapping_mul(0x94D0_49BB_1331_11EB);
        z ^ (z >> 31)
    }

    /// A number from 0 to one below `many`.
    pub fn below(&mut self, many: usize) -> usize {
        (self.bits() >> 32) as usize % many.max(1)
    }

    pub fn between(&mut self, low: usize, high: usize) -> usize {
        low + self.below(high - low + 1)
    }

    /// True `part` times of `whole`.
    pub fn chance(&mut self, part: usize, whole: usize) -> bool {
        self.below(whole) < part
    }

    pub fn byte(&mut self) -> u8 {
        self.bits() as u8
    }

    pub fn cell(&mut self) -> u32 {
        let bits = self.bits() as u32;
        match self.below(8) {
            0 => bits % 8,
            1 => (bits % 8).wrapping_neg(),
            2 => 0x8000_0000 ^ (bits % 4),
            3 => 0x1000_0000 + bits % 64,
            4 => 0x2000_0000 + bits % 64,
            _ => bits,
        }
    }

    pub fn one<'a, T>(&mut self, of: &'a [T]) -> &'a T {
        &of[self.below(of.len())]
    }
}
