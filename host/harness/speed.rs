//! User time of the proved functions and of the Rust's, in turn on the same matrices; rounds compared first.

use crate::chance::Chance;
use crate::calls;
use crate::exact::{UNREACHED, room};
use crate::lent::{ENTRY, Lent};
use crate::probe;
use crate::shapes::{self, Shape};
use crate::tsp::local_search::calls as oracle;
use crate::tsp::{
    Budget, DistMatrix, greedy_nearest_neighbor, nearest_neighbor_tour, solve_tsp_exact,
};

/// Each side is timed this often, in turn, and the least time counts.
const TURNS: usize = 25;
/// A turn repeats its call until it takes about so many seconds.
const TURN: f64 = 0.1;

/// True where every round was the Rust's.
pub fn measure() -> bool {
    println!(
        "user time of one call; the least of {TURNS} turns of about {TURN} s on each side, in turn"
    );
    println!(
        "start: matrix made before; each side clears a mask and writes a round in every call (ours has its mask on the"
    );
    println!("stack and writes into a round lent once, the Rust's allocates both)");
    println!(
        "exact: in every call each side allocates its table and fills it with {UNREACHED}, the Rust's inside its function"
    );
    println!(
        "exact, table kept: ours is lent one table again and again, which it needs not cleared; the Rust's as above\n"
    );
    println!(
        "{:34} {:>12} {:>12} {:>6}",
        "", "ours", "the Rust's", "ratio"
    );
    let mut chance = Chance::new(1);
    let mut alike = true;
    for n in [1000, 4096] {
        for (name, shape) in [
            ("even spread", Shape::Even),
            ("clusters", Shape::Clusters),
            ("any", Shape::Any),
        ] {
            let matrix = shapes::matrix(&mut chance, shape, n, true);
            let dists = DistMatrix::new(n, &matrix);
            let mut round = vec![0; n];
            alike &= row(
                &format!("blocked start, n {n}, {name}"),
                || lent(&matrix, n, &mut round, probe::blocked),
                || nearest_neighbor_tour(&dists),
            );
            let mut round = vec![0; n];
            alike &= row(
                &format!("plain start, n {n}, {name}"),
                || lent(&matrix, n, &mut round, probe::plain),
                || stops(greedy_nearest_neighbor(&dists).expect("n is at least 1")),
            );
        }
    }
    for n in [16, 20] {
        let matrix = shapes::matrix(&mut chance, Shape::Any, n, false);
        let dists = DistMatrix::new(n, &matrix);
        let rust = || stops(solve_tsp_exact(&dists, &Budget::new(0, 0)).expect("n is 1 to 25"));
        let mut round = vec![0; n];
        alike &= row(
            &format!("exact, n {n}"),
            || solved(&matrix, n, &mut vec![UNREACHED; room(n)], &mut round),
            rust,
        );
        let mut table = vec![UNREACHED; room(n)];
        let mut round = vec![0; n];
        alike &= row(
            &format!("exact, n {n}, table kept"),
            || solved(&matrix, n, &mut table, &mut round),
            rust,
        );
    }
    alike & descents()
}

/// The descents alone.
pub fn descents() -> bool {
    let (mut chance, mut alike) = (Chance::new(1), true);
    println!(
        "\ndescents: every stop waits, each step kind, committed, enough units; in every call each side copies a round of stops in any order"
    );
    println!(
        "and its queue. Ours is a public call, which checks all that is lent: the time of a commit, which checks the same, is taken off\n"
    );
    for n in [128, 1000] {
        let begin = every_stop_waits(&mut chance, n);
        for (step, name) in ["Lk", "Lk3", "Lk3Only"].into_iter().enumerate() {
            alike &= descent(&format!("descent, n {n}, {name}"), &begin, step as u32);
        }
    }
    alike
}

/// A loaded round of stops in any order, all of which wait.
fn every_stop_waits(chance: &mut Chance, n: usize) -> Lent {
    let mut lent = Lent::default();
    lent.set_stops(n);
    (lent.k, lent.ka) = (8, 5);
    lent.matrix = shapes::matrix(chance, Shape::Even, n, true);
    lent.near = shapes::near(chance, &lent.matrix, n, lent.k);
    lent.alpha = shapes::alpha(chance, &lent.matrix, n, lent.ka);
    lent.journal = vec![0; 512 * ENTRY];
    lent.draw = 1;
    let mut start: Vec<u32> = (0..n as u32).collect();
    chance.shuffle(&mut start);
    assert_eq!(oracle::load(&mut lent, &start).number, 0);
    lent.queue.copy_from_slice(&start);
    lent.flags.fill(1);
    lent.state.count = n;
    lent
}

/// Compares the rounds of a descent, then times the calls and prints a line.
fn descent(name: &str, begin: &Lent, step: u32) -> bool {
    let mut ours = calls::copy(begin);
    let mut again = calls::copy(begin);
    let mut descends = || {
        calls::take_over(&mut ours, begin);
        assert_eq!(probe::descend(&mut ours, false, step, u32::MAX).number, 0);
        ours.round.clone()
    };
    let mut checks = || {
        calls::take_over(&mut again, begin);
        assert_eq!(probe::commit(&mut again).number, 0);
        again.round.clone()
    };
    let mut alike = false;
    oracle::descents_alone(begin, step, |rust| {
        alike = descends() == rust();
        if !alike {
            println!("{name:34} the rounds differ");
            return;
        }
        let mut rust = || rust();
        let calls = (TURN / turn(3, &mut rust).max(1e-9)) as usize + 1;
        let (mut whole, mut checked, mut rusts) = (f64::MAX, f64::MAX, f64::MAX);
        for _ in 0..TURNS {
            whole = whole.min(turn(calls, &mut descends));
            checked = checked.min(turn(calls, &mut checks));
            rusts = rusts.min(turn(calls, &mut rust));
        }
        let least = whole - checked;
        println!(
            "{name:34} {:>9.3} ms {:>9.3} ms {:>6.2}  (checks {:.3} ms)",
            least * 1e3,
            rusts * 1e3,
            least / rusts,
            checked * 1e3
        );
    });
    alike
}

fn lent(
    matrix: &[u16],
    n: usize,
    round: &mut [u32],
    ours: fn(&[u16], usize, &mut [u32]) -> u32,
) -> Vec<u32> {
    assert_eq!(ours(matrix, n, round), 0);
    round.to_vec()
}

fn solved(matrix: &[u16], n: usize, table: &mut [u32], round: &mut [u32]) -> Vec<u32> {
    assert_eq!(probe::exact(matrix, n, table, round).0, 0);
    round.to_vec()
}

fn stops(round: Vec<usize>) -> Vec<u32> {
    round.iter().map(|&stop| stop as u32).collect()
}

/// Compares the rounds, then times both sides and prints a line.
fn row(name: &str, mut ours: impl FnMut() -> Vec<u32>, mut rust: impl FnMut() -> Vec<u32>) -> bool {
    if ours() != rust() {
        println!("{name:34} the rounds differ");
        return false;
    }
    let once = turn(1, &mut rust).max(1e-6);
    let calls = (TURN / (turn((0.02 / once) as usize + 1, &mut rust).max(1e-9))) as usize + 1;
    let (mut least, mut rusts) = (f64::MAX, f64::MAX);
    for _ in 0..TURNS {
        least = least.min(turn(calls, &mut ours));
        rusts = rusts.min(turn(calls, &mut rust));
    }
    println!(
        "{name:34} {:>9.3} ms {:>9.3} ms {:>6.2}",
        least * 1e3,
        rusts * 1e3,
        least / rusts
    );
    true
}

/// The user time of one of so many calls, in seconds.
fn turn(calls: usize, call: &mut impl FnMut() -> Vec<u32>) -> f64 {
    let (begin, mut last) = (user_time(), 0);
    for _ in 0..calls {
        // What a call gave is used, so that no call is left out.
        last ^= call().last().copied().unwrap_or(0);
    }
    let taken = user_time() - begin;
    assert!(last < 4096);
    taken / calls as f64
}

/// User seconds of this process so far: the first two of the words that C's `getrusage` writes.
fn user_time() -> f64 {
    extern "C" {
        fn getrusage(who: i32, usage: *mut [i64; 18]) -> i32;
    }
    let mut usage = [0i64; 18];
    assert_eq!(unsafe { getrusage(0, &mut usage) }, 0);
    usage[0] as f64 + usage[1] as f64 * 1e-6
}
