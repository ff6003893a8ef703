//! A small generator with a fixed seed (SplitMix64): every run tries the same inputs.

use crate::model::ring::Set;

pub struct Random(u64);

impl Random {
    pub fn new(seed: u64) -> Random {
        Random(seed)
    }

    pub fn number(&mut self) -> u64 {
        self.0 = self.0.wrapping_add(0x9E37_79B9_7F4A_7C15);
        let mut z = self.0;
        z = (z ^ (z >> 30)).wrapping_mul(0xBF58_476D_1CE4_E5B9);
        z = (z ^ (z >> 27)).wrapping_mul(0x94D0_49BB_1331_11EB);
        z ^ (z >> 31)
    }

    /// A number below `limit`, which is not 0. The slight bias does no harm here.
    pub fn below(&mut self, limit: u64) -> u64 {
        self.number() % limit
    }

    /// A number from `low` to `high`, both included.
    pub fn within(&mut self, low: u64, high: u64) -> u64 {
        low + self.below(high - low + 1)
    }

    pub fn bit(&mut self) -> bool {
        self.number() >> 63 == 1
    }

    pub fn byte(&mut self) -> u8 {
        (self.number() >> 56) as u8
    }

    /// Some of the nodes of a set: each by the toss of a coin.
    pub fn some_of(&mut self, set: Set) -> Set {
        Set(set.0 & self.number() as u32)
    }

    /// One node of a set, if it has any.
    pub fn one_of(&mut self, set: Set) -> Option<u32> {
        match u64::from(set.count()) {
            0 => None,
            c => set.nodes().nth(self.below(c) as usize),
        }
    }
}
