//! The proved functions, as the crate `probe` exports them.

use crate::lent::{Answer, Lent};

// A slice passes as pointer and length, a reference as a pointer.
extern "C" {
    fn probe_nearest_neighbor_tour(
        matrix: *const u16,
        cells: usize,
        n: usize,
        round: *mut u32,
        stops: usize,
    ) -> u32;
    fn probe_greedy_nearest_neighbor(
        matrix: *const u16,
        cells: usize,
        n: usize,
        round: *mut u32,
        stops: usize,
    ) -> u32;
    fn probe_solve_tsp_exact(
        matrix: *const u16,
        cells: usize,
        n: usize,
        table: *mut u32,
        words: usize,
        round: *mut u32,
        stops: usize,
        time: *mut u32,
    ) -> u32;
    fn probe_load(
        n: usize,
        k: usize,
        ka: usize,
        matrix: *const u16,
        cells: usize,
        near: *const u32,
        nears: usize,
        alpha: *const u32,
        alphas: usize,
        round: *mut u32,
        rounds: usize,
        places: *mut u32,
        placed: usize,
        queue: *mut u32,
        queued: usize,
        flags: *mut u8,
        flagged: usize,
        scratch: *mut u32,
        scratched: usize,
        journal: *mut u32,
        words: usize,
        head: *mut usize,
        count: *mut usize,
        held: *mut usize,
        time: *mut u32,
        start: *const u32,
        starts: usize,
    ) -> u32;
    fn probe_kick(
        n: usize,
        k: usize,
        ka: usize,
        matrix: *const u16,
        cells: usize,
        near: *const u32,
        nears: usize,
        alpha: *const u32,
        alphas: usize,
        round: *mut u32,
        rounds: usize,
        places: *mut u32,
        placed: usize,
        queue: *mut u32,
        queued: usize,
        flags: *mut u8,
        flagged: usize,
        scratch: *mut u32,
        scratched: usize,
        journal: *mut u32,
        words: usize,
        head: *mut usize,
        count: *mut usize,
        held: *mut usize,
        time: *mut u32,
        kind: u32,
        draw: *mut u64,
        change: *mut i32,
    ) -> u32;
    fn probe_descend(
        n: usize,
        k: usize,
        ka: usize,
        matrix: *const u16,
        cells: usize,
        near: *const u32,
        nears: usize,
        alpha: *const u32,
        alphas: usize,
        round: *mut u32,
        rounds: usize,
        places: *mut u32,
        placed: usize,
        queue: *mut u32,
        queued: usize,
        flags: *mut u8,
        flagged: usize,
        scratch: *mut u32,
        scratched: usize,
        journal: *mut u32,
        words: usize,
        head: *mut usize,
        count: *mut usize,
        held: *mut usize,
        time: *mut u32,
        keeps: bool,
        step: u32,
        budget: u32,
        gain: *mut u32,
        units: *mut u32,
        ended: *mut u32,
    ) -> u32;
    fn probe_commit(
        n: usize,
        k: usize,
        ka: usize,
        matrix: *const u16,
        cells: usize,
        near: *const u32,
        nears: usize,
        alpha: *const u32,
        alphas: usize,
        round: *mut u32,
        rounds: usize,
        places: *mut u32,
        placed: usize,
        queue: *mut u32,
        queued: usize,
        flags: *mut u8,
        flagged: usize,
        scratch: *mut u32,
        scratched: usize,
        journal: *mut u32,
        words: usize,
        head: *mut usize,
        count: *mut usize,
        held: *mut usize,
        time: *mut u32,
    ) -> u32;
    fn probe_undo(
        n: usize,
        k: usize,
        ka: usize,
        matrix: *const u16,
        cells: usize,
        near: *const u32,
        nears: usize,
        alpha: *const u32,
        alphas: usize,
        round: *mut u32,
        rounds: usize,
        places: *mut u32,
        placed: usize,
        queue: *mut u32,
        queued: usize,
        flags: *mut u8,
        flagged: usize,
        scratch: *mut u32,
        scratched: usize,
        journal: *mut u32,
        words: usize,
        head: *mut usize,
        count: *mut usize,
        held: *mut usize,
        time: *mut u32,
    ) -> u32;
}

/// The start round by blocks; returns the number.
pub fn blocked(matrix: &[u16], n: usize, round: &mut [u32]) -> u32 {
    let (cells, stops) = (matrix.len(), round.len());
    unsafe { probe_nearest_neighbor_tour(matrix.as_ptr(), cells, n, round.as_mut_ptr(), stops) }
}

/// The start round by plain scans; returns the number.
pub fn plain(matrix: &[u16], n: usize, round: &mut [u32]) -> u32 {
    let (cells, stops) = (matrix.len(), round.len());
    unsafe { probe_greedy_nearest_neighbor(matrix.as_ptr(), cells, n, round.as_mut_ptr(), stops) }
}

/// The exact round; returns number and time.
pub fn exact(matrix: &[u16], n: usize, table: &mut [u32], round: &mut [u32]) -> (u32, u32) {
    let (cells, words, stops) = (matrix.len(), table.len(), round.len());
    // A time that no round takes, so that a word left alone shows.
    let mut time = u32::MAX;
    let number = unsafe {
        probe_solve_tsp_exact(
            matrix.as_ptr(),
            cells,
            n,
            table.as_mut_ptr(),
            words,
            round.as_mut_ptr(),
            stops,
            &mut time,
        )
    };
    (number, time)
}

macro_rules! over {
    ($call:ident, $lent:ident $(, $more:expr)*) => {
        unsafe {
            $call(
                $lent.n,
                $lent.k,
                $lent.ka,
                $lent.matrix.as_ptr(),
                $lent.matrix.len(),
                $lent.near.as_ptr(),
                $lent.near.len(),
                $lent.alpha.as_ptr(),
                $lent.alpha.len(),
                $lent.round.as_mut_ptr(),
                $lent.round.len(),
                $lent.places.as_mut_ptr(),
                $lent.places.len(),
                $lent.queue.as_mut_ptr(),
                $lent.queue.len(),
                $lent.flags.as_mut_ptr(),
                $lent.flags.len(),
                $lent.scratch.as_mut_ptr(),
                $lent.scratch.len(),
                $lent.journal.as_mut_ptr(),
                $lent.journal.len(),
                &mut $lent.state.head,
                &mut $lent.state.count,
                &mut $lent.state.held,
                &mut $lent.state.time,
                $($more,)*
            )
        }
    };
}

/// Loads a start round.
pub fn load(lent: &mut Lent, start: &[u32]) -> Answer {
    answer(over!(probe_load, lent, start.as_ptr(), start.len()))
}

/// Kicks.
pub fn kick(lent: &mut Lent, kind: u32) -> Answer {
    // A change that no kick makes, so that a word left alone shows.
    let mut change = i32::MIN;
    let number = over!(probe_kick, lent, kind, &mut lent.draw, &mut change);
    Answer {
        change: i64::from(change),
        ..answer(number)
    }
}

/// Descends, kept or committed.
pub fn descend(lent: &mut Lent, keeps: bool, step: u32, budget: u32) -> Answer {
    // Results that no descent gives, so that a word left alone shows.
    let (mut gain, mut units, mut ended) = (u32::MAX, u32::MAX, u32::MAX);
    let number = over!(probe_descend, lent, keeps, step, budget, &mut gain, &mut units, &mut ended);
    Answer {
        gain: i64::from(gain),
        units,
        ended: ended.min(255) as u8,
        ..answer(number)
    }
}

/// Commits.
pub fn commit(lent: &mut Lent) -> Answer {
    answer(over!(probe_commit, lent))
}

/// Undoes.
pub fn undo(lent: &mut Lent) -> Answer {
    answer(over!(probe_undo, lent))
}

/// A number, and no result.
fn answer(number: u32) -> Answer {
    Answer {
        number: number as u8,
        ..Answer::default()
    }
}
