//! 01's answer numbers: what each call refuses, lowest number first.

use crate::lent::Lent;

/// The kinds that a call is told; a call that is told none has `None`.
#[derive(Clone, Copy, Default)]
pub struct Kinds {
    pub step: Option<u32>,
    pub kick: Option<u32>,
}

/// A load: 1 to 6, then 7 for its start round.
pub fn load(lent: &Lent, start: &[u32]) -> u8 {
    match plan(lent, Kinds::default(), start.len()) {
        0 if !permutation(start) => 7,
        number => number,
    }
}

/// A kick: 1 to 7, then 8.
pub fn kick(lent: &Lent, kind: u32) -> u8 {
    let kinds = Kinds {
        step: None,
        kick: Some(kind),
    };
    match single(lent, kinds) {
        0 if lent.room() - lent.state.held < 30 => 8,
        number => number,
    }
}

/// A descent: 1 to 7.
pub fn descend(lent: &Lent, step: u32) -> u8 {
    let kinds = Kinds {
        step: Some(step),
        kick: None,
    };
    single(lent, kinds)
}

/// A commit or an undo: 1 to 7.
pub fn settle(lent: &Lent) -> u8 {
    single(lent, Kinds::default())
}

/// A search: 1 to 6; the second round it is lent has n words too.
pub fn search(lent: &Lent, step: u32, kind: u32) -> u8 {
    let kinds = Kinds {
        step: Some(step),
        kick: Some(kind),
    };
    plan(lent, kinds, lent.best.len())
}

/// A start round: 1 and 3.
pub fn start_round(n: usize, matrix: &[u16]) -> u8 {
    if !(1..=4096).contains(&n) {
        1
    } else if matrix.len() != n * n {
        3
    } else {
        0
    }
}

/// The exact solver: 1, 3 and 4.
pub fn exact(n: usize, matrix: &[u16], table: usize) -> u8 {
    if !(1..=25).contains(&n) {
        1
    } else if matrix.len() != n * n {
        3
    } else if table < (1 << (n - 1)) * (n - 1) {
        4
    } else {
        0
    }
}

/// Numbers 1 to 7 of a single call.
fn single(lent: &Lent, kinds: Kinds) -> u8 {
    match plan(lent, kinds, lent.n) {
        0 if !agrees(lent) => 7,
        number => number,
    }
}

/// Numbers 1 to 6. `further` is the length of a load's start round or a search's second round.
fn plan(lent: &Lent, kinds: Kinds, further: usize) -> u8 {
    if !(2..=4096).contains(&lent.n) {
        1
    } else if !settings(lent.k, lent.ka, kinds) || (kinds.kick.is_some() && lent.draw == 0) {
        2
    } else if !lengths(lent) || further != lent.n {
        3
    } else if lent.room() < 512 {
        4
    } else if !symmetric(lent.n, &lent.matrix) {
        5
    } else if !list(lent.n, lent.k, &lent.near) || !list(lent.n, lent.ka, &lent.alpha) {
        6
    } else {
        0
    }
}

/// k, ka and the kinds told are as 01 says; step kinds 1 and 2 need an alpha list.
pub fn settings(k: usize, ka: usize, kinds: Kinds) -> bool {
    let step = match kinds.step {
        None | Some(0) => true,
        Some(1) | Some(2) => ka >= 1,
        Some(_) => false,
    };
    let kick = match kinds.kick {
        None => true,
        Some(kind) => kind <= 2,
    };
    (1..=20).contains(&k) && ka <= 5 && step && kick
}

/// Each lent length is what n, k and ka say.
fn lengths(lent: &Lent) -> bool {
    let n = lent.n;
    lent.matrix.len() == n * n
        && lent.near.len() == n * lent.k
        && lent.alpha.len() == n * lent.ka
        && lent.round.len() == n
        && lent.places.len() == n
        && lent.queue.len() == n
        && lent.flags.len() == n
        && lent.scratch.len() == n
}

/// Each leg takes the same time both ways; the diagonal is not asked.
fn symmetric(n: usize, matrix: &[u16]) -> bool {
    (0..n).all(|i| (0..i).all(|j| matrix[i * n + j] == matrix[j * n + i]))
}

/// Each entry is a stop, and not the one whose list it is in; `each` entries per stop.
pub fn list(n: usize, each: usize, entries: &[u32]) -> bool {
    entries
        .iter()
        .enumerate()
        .all(|(i, &v)| (v as usize) < n && v as usize != i / each)
}

/// Round, places, queue, flags, journal and carried time agree.
fn agrees(lent: &Lent) -> bool {
    permutation(&lent.round)
        && inverse(&lent.round, &lent.places)
        && queue(lent)
        && journal(lent)
        && u64::from(lent.state.time) == recount(lent)
}

/// Every stop once.
fn permutation(round: &[u32]) -> bool {
    let mut seen = vec![false; round.len()];
    round.iter().all(|&v| {
        let v = v as usize;
        v < seen.len() && !std::mem::replace(&mut seen[v], true)
    })
}

/// Each stop's place is where the round has it.
fn inverse(round: &[u32], places: &[u32]) -> bool {
    round
        .iter()
        .enumerate()
        .all(|(place, &stop)| places[stop as usize] as usize == place)
}

/// Those that wait are stops, each once, and the flags are 1 for exactly these.
fn queue(lent: &Lent) -> bool {
    if lent.state.head >= lent.n || lent.state.count > lent.n {
        return false;
    }
    let mut flags = vec![0; lent.n];
    lent.waiting().all(|v| {
        let v = v as usize;
        v < lent.n && std::mem::replace(&mut flags[v], 1) == 0
    }) && lent.flags == flags
}

/// No more entries are held than there is room for, and each is in range.
fn journal(lent: &Lent) -> bool {
    let n = lent.n as u64;
    lent.state.held <= lent.room()
        && lent.entries().all(|entry| {
            let word = |i: usize| u64::from(entry[i]);
            match entry[0] {
                0 => word(1) < n && word(2) <= n,
                1 => word(1) < n && word(2) + word(3) + word(4) <= n,
                2 => word(1) < n && word(2) < n,
                _ => false,
            }
        })
}

/// The sum of the n legs of the round, return leg included.
fn recount(lent: &Lent) -> u64 {
    let n = lent.n;
    (0..n)
        .map(|place| {
            let (from, to) = (lent.round[place], lent.round[(place + 1) % n]);
            u64::from(lent.matrix[from as usize * n + to as usize])
        })
        .sum()
}
