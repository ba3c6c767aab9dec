//! A small random source, the same on every machine (splitmix64).

#[derive(Clone, Debug)]
pub struct Random(u64);

impl Random {
    pub fn new(seed: u64) -> Random {
        Random(seed)
    }

    pub fn bits(&mut self) -> u64 {
        self.0 = self.0.wrapping_add(0x9e37_79b9_7f4a_7c15);
        let mut z = self.0;
        z = (z ^ (z >> 30)).wrapping_mul(0xbf58_476d_1ce4_e5b9);
        z = (z ^ (z >> 27)).wrapping_mul(0x94d0_49bb_1331_11eb);
        z ^ (z >> 31)
    }

    /// A number from 0 to `n` - 1; `n` is not 0.
    pub fn below(&mut self, n: u64) -> u64 {
        self.bits() % n
    }

    pub fn index(&mut self, n: usize) -> usize {
        self.below(n as u64) as usize
    }

    /// A number from `lowest` to `highest`, both included.
    pub fn between(&mut self, lowest: u32, highest: u32) -> u32 {
        lowest + self.below(u64::from(highest - lowest) + 1) as u32
    }

    /// True once in `n` times.
    pub fn one_in(&mut self, n: u64) -> bool {
        self.below(n) == 0
    }

    pub fn pick<T: Copy>(&mut self, list: &[T]) -> T {
        list[self.index(list.len())]
    }

    /// A number up to `highest` whose size in digits is as random as its digits.
    pub fn any_size(&mut self, highest: u32) -> u32 {
        let bits = self.below(33);
        let mask = (1u64 << bits) - 1;
        (self.bits() & mask).min(u64::from(highest)) as u32
    }
}
