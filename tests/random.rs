//! A small random generator (splitmix64).

pub struct Random(u64);

impl Random {
    pub fn new(seed: u64) -> Random {
        Random(seed)
    }

    pub fn word(&mut self) -> u64 {
        self.0 = self.0.wrapping_add(0x9e37_79b9_7f4a_7c15);
        let mut z = self.0;
        z = (z ^ (z >> 30)).wrapping_mul(0xbf58_476d_1ce4_e5b9);
        z = (z ^ (z >> 27)).wrapping_mul(0x94d0_49bb_1331_11eb);
        z ^ (z >> 31)
    }

    /// A number from 0 to `bound` - 1.
    pub fn below(&mut self, bound: usize) -> usize {
        (self.word() % bound as u64) as usize
    }

    pub fn words(&mut self, count: usize) -> Vec<u64> {
        (0..count).map(|_| self.word()).collect()
    }

    /// A subset, thin or dense.
    pub fn subset(&mut self, of: u64) -> u64 {
        let (a, b, c) = (self.word(), self.word(), self.word());
        of & match self.below(5) {
            0 => a & b & c,
            1 => a & b,
            2 => a,
            3 => a | b,
            _ => a | b | c,
        }
    }

    /// One property of a set as a set, nothing of the empty one.
    pub fn member(&mut self, of: u64) -> u64 {
        if of == 0 {
            return 0;
        }
        let mut left = of;
        for _ in 0..self.below(of.count_ones() as usize) {
            left &= left - 1;
        }
        left & left.wrapping_neg()
    }
}
