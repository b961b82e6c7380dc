//! Numbers to try.

use std::ops::RangeInclusive;

/// Numbers from a limit on. Cut to 8 or 16 bits, some of them would come below it, and 65,856
/// would be a month, and a price of every grid.
pub fn beyond(limit: impl Into<u32>) -> impl Iterator<Item = u32> {
    let limit = limit.into();
    let numbers = [
        limit,
        limit + 1,
        256,
        257,
        65_535,
        65_536,
        65_537,
        65_856,
        u32::MAX,
    ];
    numbers.into_iter().filter(move |&number| number >= limit)
}

/// Splitmix64: it looks random and is the same in every run.
pub struct Random(u64);

impl Random {
    pub fn new(seed: u64) -> Self {
        Self(seed)
    }

    pub fn next(&mut self) -> u64 {
        self.0 = self.0.wrapping_add(0x9e37_79b9_7f4a_7c15);
        let mut mixed = self.0;
        mixed = (mixed ^ (mixed >> 30)).wrapping_mul(0xbf58_476d_1ce4_e5b9);
        mixed = (mixed ^ (mixed >> 27)).wrapping_mul(0x94d0_49bb_1331_11eb);
        mixed ^ (mixed >> 31)
    }

    /// A number below the bound.
    pub fn below(&mut self, bound: u16) -> u16 {
        (self.next() % u64::from(bound)) as u16
    }

    /// A number of the range.
    pub fn within(&mut self, range: RangeInclusive<u32>) -> u32 {
        let count = u64::from(range.end() - range.start()) + 1;
        range.start() + (self.next() % count) as u32
    }

    /// True about once in so many times.
    pub fn one_in(&mut self, times: u16) -> bool {
        self.below(times) == 0
    }

    pub fn pick<T: Copy>(&mut self, from: &[T]) -> T {
        from[(self.next() % from.len() as u64) as usize]
    }

    pub fn byte(&mut self) -> u8 {
        self.next() as u8
    }
}
