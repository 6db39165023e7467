//! Repeatable pseudo-random numbers (splitmix64).

use crate::format::Set;

pub struct Random {
    state: u64,
}

impl Random {
    pub fn new(start: u64) -> Random {
        Random { state: start }
    }

    pub fn next(&mut self) -> u64 {
        self.state = self.state.wrapping_add(0x9e37_79b9_7f4a_7c15);
        let mut mixed = self.state;
        mixed = (mixed ^ (mixed >> 30)).wrapping_mul(0xbf58_476d_1ce4_e5b9);
        mixed = (mixed ^ (mixed >> 27)).wrapping_mul(0x94d0_49bb_1331_11eb);
        mixed ^ (mixed >> 31)
    }

    /// A number below `bound`, which is not 0.
    pub fn below(&mut self, bound: usize) -> usize {
        (self.next() % bound as u64) as usize
    }

    /// A number from `low` to `high`, both possible.
    pub fn between(&mut self, low: usize, high: usize) -> usize {
        low + self.below(high - low + 1)
    }

    pub fn byte(&mut self) -> u8 {
        self.below(256) as u8
    }

    pub fn chance(&mut self, percent: usize) -> bool {
        self.below(100) < percent
    }

    /// One of the items, or nothing if there is none.
    pub fn pick<T: Copy>(&mut self, items: &[T]) -> Option<T> {
        if items.is_empty() {
            return None;
        }
        Some(items[self.below(items.len())])
    }

    pub fn pick_member(&mut self, set: &Set) -> Option<u8> {
        let members: Vec<u8> = set.iter().copied().collect();
        self.pick(&members)
    }

    /// Each member with the given chance.
    pub fn subset(&mut self, set: &Set, percent: usize) -> Set {
        set.iter()
            .copied()
            .filter(|_| self.chance(percent))
            .collect()
    }
}
