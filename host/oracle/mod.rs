//! Stands in for the source's `tsp/mod.rs`: the types that its three files name, as small as they need.

mod exact;
mod greedy;
// The source's own parts for list building that no call here needs stay in it.
#[allow(dead_code)]
pub(crate) mod local_search;

use std::fmt;
use std::marker::PhantomData;

pub use exact::solve_tsp_exact;
pub use greedy::greedy_nearest_neighbor;
pub(crate) use greedy::nearest_neighbor_tour;

pub type Tour = Vec<usize>;

pub type Result<T> = std::result::Result<T, TspError>;

#[derive(Debug)]
pub enum TspError {
    Invalid(String),
    OutOfMemory(String),
    Interrupted,
}

impl fmt::Display for TspError {
    fn fmt(&self, f: &mut fmt::Formatter<'_>) -> fmt::Result {
        match self {
            TspError::Invalid(msg) | TspError::OutOfMemory(msg) => f.write_str(msg),
            TspError::Interrupted => f.write_str("Interrupted"),
        }
    }
}

fn invalid<T>(msg: impl Into<String>) -> Result<T> {
    Err(TspError::Invalid(msg.into()))
}

/// The times between the stops, row by row.
pub struct DistMatrix {
    n: usize,
    data: Vec<u16>,
}

impl DistMatrix {
    pub fn new(n: usize, data: &[u16]) -> Self {
        assert_eq!(data.len(), n * n);
        Self {
            n,
            data: data.to_vec(),
        }
    }

    #[inline]
    pub fn len(&self) -> usize {
        self.n
    }

    #[inline(always)]
    pub fn get(&self, i: usize, j: usize) -> i64 {
        i64::from(self.data[i * self.n + j])
    }
}

/// What a call may use: units, and room for journal entries. The source's budget borrows a callback,
/// which gives it a lifetime; ours borrows nothing.
pub struct Budget<'a> {
    units: u32,
    room: usize,
    borrows: PhantomData<&'a ()>,
}

impl Budget<'_> {
    pub fn new(units: u32, room: usize) -> Self {
        Self {
            units,
            room,
            borrows: PhantomData,
        }
    }

    /// True when no unit is left after `used` units.
    pub fn is_exceeded(&self, used: u32) -> bool {
        used >= self.units
    }

    /// Interrupts are left out.
    pub fn is_interrupted(&self) -> bool {
        false
    }
}

mod candidates {
    /// The times from one stop to all.
    pub fn row(dists: &super::DistMatrix, stop: usize) -> &[u16] {
        &dists.data[stop * dists.n..(stop + 1) * dists.n]
    }
}
