//! The exact round, its time and its table against the Rust's round, and the refusals.

use crate::chance::Chance;
use crate::found::{Found, LENT};
use crate::tsp::local_search::calls;
use crate::tsp::{Budget, DistMatrix, solve_tsp_exact};
use crate::{probe, shapes};

/// The source's `INF`: what the table holds for a stop that is not in the set.
pub const UNREACHED: u32 = u32::MAX / 2;

/// The words of the table that n stops use.
pub fn room(n: usize) -> usize {
    (1 << (n - 1)) * (n - 1)
}

pub fn compare(seed: u64, count: usize, range: (usize, usize)) -> Found {
    let (mut chance, mut found) = (Chance::new(seed), Found::default());
    for item in 0..count {
        let (n, matrix) = shapes::with_slow_legs(&mut chance, item, range);
        let beyond = chance.below(100);
        let at = format!("matrix {item}, n {n}");
        rounds(&mut found, &matrix, n, beyond, &at);
        refusals(&mut found, &matrix, n, &at);
    }
    found
}

fn rounds(found: &mut Found, matrix: &[u16], n: usize, beyond: usize, at: &str) {
    let dists = DistMatrix::new(n, matrix);
    let wanted = solve_tsp_exact(&dists, &Budget::new(0, 0)).expect("n is 1 to 25");
    let wanted: Vec<u32> = wanted.iter().map(|&stop| stop as u32).collect();
    let time = calls::time_of(&dists, &wanted) as u32;
    let mut table = vec![LENT; room(n) + beyond];
    let mut round = vec![LENT; n];
    let given = probe::exact(matrix, n, &mut table, &mut round);
    found.rounds += 1;
    found.same((given, &round), ((0, time), &wanted), at);
    found.untouched(&table[room(n)..], &format!("{at}, beyond the table"));
    let odd = (0..room(n)).find(|&i| table[i] != word(matrix, n, &table, i));
    found.same(
        odd,
        None,
        &format!("{at}, the first word of the table that is wrong"),
    );
}

/// The table's word at i, by the rows of smaller sets: the least way from its stop through the others of the set and home.
fn word(matrix: &[u16], n: usize, table: &[u32], i: usize) -> u32 {
    let (m, set, bit) = (n - 1, i / (n - 1), i % (n - 1));
    let leg = |a: usize, b: usize| u32::from(matrix[a * n + b]);
    let others = set & !(1 << bit);
    match (set >> bit & 1, others) {
        (0, _) => UNREACHED,
        (_, 0) => leg(bit + 1, 0),
        _ => (0..m)
            .filter(|j| others >> j & 1 == 1)
            .map(|j| leg(bit + 1, j + 1) + table[others * m + j])
            .min()
            .expect("others has a stop"),
    }
}

/// Every refusal by number: n out of range, lengths that n does not say, a table too short.
fn refusals(found: &mut Found, matrix: &[u16], n: usize, at: &str) {
    let (cells, words) = (matrix.len(), room(n));
    let long: Vec<u16> = matrix.iter().copied().chain([0]).collect();
    let mut trials: Vec<(u32, usize, usize, usize, usize)> = Vec::new();
    for odd in [0, 26, 32, 64, 65, 1 << 32, usize::MAX] {
        trials.extend([
            (1, odd, cells, n, words),
            (1, odd, cells, n - 1, 0),
            (1, odd, 0, 0, words),
        ]);
    }
    for (lent, stops) in [
        (cells - 1, n),
        (cells + 1, n),
        (0, n),
        (cells, n - 1),
        (cells, n + 1),
        (cells, 0),
        (cells + 1, n - 1),
    ] {
        trials.extend([(3, n, lent, stops, words), (3, n, lent, stops, 0)]);
    }
    if n > 1 {
        trials.extend([
            (4, n, cells, n, words - 1),
            (4, n, cells, n, words / 2),
            (4, n, cells, n, 0),
        ]);
    }
    for (wanted, n, lent, stops, words) in trials {
        let (mut table, mut round) = (vec![LENT; words], vec![LENT; stops]);
        let given = probe::exact(&long[..lent], n, &mut table, &mut round);
        found.refusals += 1;
        let what = format!("{at}, told n {n} with {lent} cells, {stops} stops and {words} words");
        found.same(given, (wanted, 0), &what);
        found.untouched(&round, &what);
        found.untouched(&table, &what);
    }
}
