//! Stands in for the crate `fastrand`: 01's draws over Marsaglia's 64-bit xorshift, the seed being the state.

use std::ops::{Bound, RangeBounds};

pub struct Rng(u64);

impl Rng {
    pub fn with_seed(seed: u64) -> Self {
        Self(seed)
    }

    pub fn get_seed(&self) -> u64 {
        self.0
    }

    pub fn usize(&mut self, range: impl RangeBounds<usize>) -> usize {
        let (low, high) = ends(range.start_bound().cloned(), range.end_bound().cloned());
        self.draw(low as u64, high as u64) as usize
    }

    pub fn u32(&mut self, range: impl RangeBounds<u32>) -> u32 {
        let (low, high) = ends(range.start_bound().cloned(), range.end_bound().cloned());
        self.draw(u64::from(low), u64::from(high)) as u32
    }

    /// A draw from low to high, both included.
    fn draw(&mut self, low: u64, high: u64) -> u64 {
        self.0 ^= self.0 << 13;
        self.0 ^= self.0 >> 7;
        self.0 ^= self.0 << 17;
        low + self.0 % (high - low + 1)
    }
}

/// The least and the greatest number of a range; the source draws from no other kinds of range.
fn ends<N: std::ops::Sub<Output = N> + From<u8>>(start: Bound<N>, end: Bound<N>) -> (N, N) {
    match (start, end) {
        (Bound::Included(low), Bound::Included(high)) => (low, high),
        (Bound::Included(low), Bound::Excluded(beyond)) => (low, beyond - N::from(1)),
        _ => unreachable!("a range without ends"),
    }
}
