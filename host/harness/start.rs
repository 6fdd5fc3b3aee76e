//! Both start rounds against both of the Rust's, and their refusals.

use crate::chance::Chance;
use crate::found::{Found, LENT};
use crate::tsp::{DistMatrix, greedy_nearest_neighbor, nearest_neighbor_tour};
use crate::{probe, shapes};

type Ours = fn(&[u16], usize, &mut [u32]) -> u32;
const OURS: [(&str, Ours); 2] = [("blocked", probe::blocked), ("plain", probe::plain)];

pub fn compare(seed: u64, count: usize, range: (usize, usize)) -> Found {
    let (mut chance, mut found) = (Chance::new(seed), Found::default());
    for item in 0..count {
        let (n, matrix) = shapes::with_slow_legs(&mut chance, item, range);
        let at = format!("matrix {item}, n {n}");
        rounds(&mut found, &matrix, n, &at);
        refusals(&mut found, &matrix, n, &at);
    }
    found
}

fn rounds(found: &mut Found, matrix: &[u16], n: usize, at: &str) {
    let dists = DistMatrix::new(n, matrix);
    let blocked = nearest_neighbor_tour(&dists);
    let plain = greedy_nearest_neighbor(&dists).expect("n is at least 1");
    let plain: Vec<u32> = plain.iter().map(|&stop| stop as u32).collect();
    for (name, ours) in OURS {
        let mut round = vec![LENT; n];
        let number = ours(matrix, n, &mut round);
        found.rounds += 1;
        found.same(
            (number, &round),
            (0, &blocked),
            &format!("{at}, {name}, the Rust's blocked round"),
        );
        found.same(
            (number, &round),
            (0, &plain),
            &format!("{at}, {name}, the Rust's plain round"),
        );
    }
}

/// Every refusal by number: n out of range, then lengths that n does not say.
fn refusals(found: &mut Found, matrix: &[u16], n: usize, at: &str) {
    let cells = matrix.len();
    let long: Vec<u16> = matrix.iter().copied().chain([0]).collect();
    let mut trials: Vec<(u32, usize, usize, usize)> = Vec::new();
    for odd in [0, 4097, 65536, 1 << 32, usize::MAX] {
        trials.extend([(1, odd, cells, n), (1, odd, cells, n - 1), (1, odd, 0, 0)]);
    }
    for (lent, stops) in [
        (cells - 1, n),
        (cells + 1, n),
        (0, n),
        (cells, n - 1),
        (cells, n + 1),
        (cells, 0),
        (cells + 1, n - 1),
    ] {
        trials.push((3, n, lent, stops));
    }
    for (wanted, n, lent, stops) in trials {
        for (name, ours) in OURS {
            let mut round = vec![LENT; stops];
            let number = ours(&long[..lent], n, &mut round);
            found.refusals += 1;
            let what = format!("{at}, {name}, told n {n} with {lent} cells and {stops} stops");
            found.same(number, wanted, &what);
            found.untouched(&round, &what);
        }
    }
}
