//! The public calls: builds the source's `Opt` from lent memory, runs the source's code, writes back.

use super::{
    ACCEPT_SLACK_PER_EDGE, Kick, Neighbours, Node, Opt, SharedBest, Step, Undo, cost,
    search_with_slack, slack_of,
};
use crate::checks;
use crate::lent::{Answer, ENTRY, Lent, State};
use crate::tsp::{Budget, DistMatrix, nearest_neighbor_tour};

/// A single move: a flip of t1, t2, t3, an exchange of segments between three legs, the first move that gains from t1.
pub enum Single {
    Flip([usize; 3]),
    OrMove(bool, [(usize, usize); 3]),
    Improve(bool, usize),
}

/// Loads a start round: the queue and the journal are empty, the time is its recount.
pub fn load(lent: &mut Lent, start: &[u32]) -> Answer {
    let number = checks::load(lent, start);
    if number != 0 {
        return Answer::refused(number);
    }
    let (dists, nn) = plan(lent);
    let opt = Opt::new(&dists, &nn, start.to_vec());
    give_back(lent, &opt, 0, 0, cost(&dists, &opt.tour));
    Answer::default()
}

/// The source's kick; the queue keeps its head.
pub fn kick(lent: &mut Lent, kind: u32) -> Answer {
    let number = checks::kick(lent, kind);
    if number != 0 {
        return Answer::refused(number);
    }
    let (dists, nn) = plan(lent);
    let mut opt = opt_of(lent, &dists, &nn);
    let mut rng = fastrand::Rng::with_seed(lent.draw);
    let time = i64::from(lent.state.time);
    let change = opt.kick(kick_of(kind), time, &mut rng);
    lent.draw = rng.get_seed();
    let State { head, held, .. } = lent.state;
    give_back(lent, &opt, head, held, time + change);
    Answer {
        change,
        ..Answer::default()
    }
}

/// The source's descent, kept or committed.
pub fn descend(lent: &mut Lent, kept: bool, step: u32, budget: u32) -> Answer {
    let number = checks::descend(lent, step);
    if number != 0 {
        return Answer::refused(number);
    }
    let (dists, nn) = plan(lent);
    let mut opt = opt_of(lent, &dists, &nn);
    opt.step = step_of(step);
    let (gain, ended) = opt.descend(&Budget::new(budget, lent.room()), kept);
    let State { held, time, .. } = lent.state;
    give_back(lent, &opt, 0, held, i64::from(time) - gain);
    Answer {
        gain,
        units: opt.pops,
        ended,
        ..Answer::default()
    }
}

/// Committed descents from what is lent, without checks, the plan made once: hands a function that runs one and gives its round.
pub fn descents_alone(lent: &Lent, step: u32, run: impl FnOnce(&mut dyn FnMut() -> Vec<u32>)) {
    let (dists, nn) = plan(lent);
    run(&mut || {
        let mut opt = opt_of(lent, &dists, &nn);
        opt.step = step_of(step);
        opt.descend(&Budget::new(u32::MAX, lent.room()), false);
        opt.tour
    });
}

/// Empties the journal and keeps the queue.
pub fn commit(lent: &mut Lent) -> Answer {
    let number = checks::settle(lent);
    if number != 0 {
        return Answer::refused(number);
    }
    lent.state.held = 0;
    Answer::default()
}

/// The source's undo; the time is the recount of the round it leaves.
pub fn undo(lent: &mut Lent) -> Answer {
    let number = checks::settle(lent);
    if number != 0 {
        return Answer::refused(number);
    }
    let (dists, nn) = plan(lent);
    let mut opt = opt_of(lent, &dists, &nn);
    opt.undo();
    give_back(lent, &opt, 0, 0, cost(&dists, &opt.tour));
    Answer::default()
}

/// The source's search from its start round; leaves the best round loaded, and in the second round.
pub fn search(lent: &mut Lent, step: u32, kind: u32, stop: bool, budget: u32) -> Answer {
    let number = checks::search(lent, step, kind);
    if number != 0 {
        return Answer::refused(number);
    }
    let (dists, nn) = plan(lent);
    let start = nearest_neighbor_tour(&dists);
    let shared = SharedBest::new(cost(&dists, &start), start);
    let mut rng = fastrand::Rng::with_seed(lent.draw);
    let (_, kicks, units) = search_with_slack(
        &dists,
        &nn,
        &shared,
        &Budget::new(budget, lent.room()),
        &mut rng,
        ACCEPT_SLACK_PER_EDGE,
        stop,
        step_of(step),
        kick_of(kind),
    );
    lent.draw = rng.get_seed();
    let time = shared.cost();
    lent.best = shared.into_tour();
    let opt = Opt::new(&dists, &nn, lent.best.clone());
    give_back(lent, &opt, 0, 0, time);
    Answer {
        units,
        kicks,
        ended: u8::from(units == budget),
        ..Answer::default()
    }
}

/// One of the source's moves by itself; the queue keeps its head, and the time is the recount of the round it leaves.
pub fn single(lent: &mut Lent, step: Single) -> Answer {
    let number = checks::settle(lent);
    if number != 0 {
        return Answer::refused(number);
    }
    let (dists, nn) = plan(lent);
    let mut opt = opt_of(lent, &dists, &nn);
    let gain = match step {
        Single::Flip([t1, t2, t3]) => {
            opt.flip(t1, t2, t3);
            0
        }
        Single::OrMove(true, edges) => {
            opt.or_move::<true>(edges);
            0
        }
        Single::OrMove(false, edges) => {
            opt.or_move::<false>(edges);
            0
        }
        Single::Improve(true, t1) => opt.improve::<true>(t1),
        Single::Improve(false, t1) => opt.improve::<false>(t1),
    };
    let State { head, held, .. } = lent.state;
    give_back(lent, &opt, head, held, cost(&dists, &opt.tour));
    Answer {
        gain,
        ..Answer::default()
    }
}

/// The search's own margin.
pub fn margin(time: i64, n: usize) -> i64 {
    slack_of(time, n, ACCEPT_SLACK_PER_EDGE)
}

/// The time of a round; a round of one stop takes 0.
pub fn time_of(dists: &DistMatrix, round: &[Node]) -> i64 {
    if round.len() == 1 {
        0
    } else {
        cost(dists, round)
    }
}

/// Matrix and lists in the source's types.
fn plan(lent: &Lent) -> (DistMatrix, Neighbours) {
    let nn = Neighbours {
        k: lent.k,
        data: lent.near.clone(),
        ka: lent.ka,
        alpha: lent.alpha.clone(),
        from_ascent: true,
    };
    (DistMatrix::new(lent.n, &lent.matrix), nn)
}

/// The source's `Opt` that the lent memory stands for.
fn opt_of<'a>(lent: &Lent, dists: &'a DistMatrix, nn: &'a Neighbours) -> Opt<'a> {
    let mut opt = Opt::new(dists, nn, lent.round.clone());
    opt.queue = lent.waiting().collect();
    opt.queued = lent.flags.iter().map(|&flag| flag == 1).collect();
    opt.journal = lent.entries().map(undo_of).collect();
    opt
}

/// Writes the `Opt` back: the queue from `head` on, the entries after the first `old`, which stay.
fn give_back(lent: &mut Lent, opt: &Opt<'_>, head: usize, old: usize, time: i64) {
    lent.round.copy_from_slice(&opt.tour);
    lent.places.copy_from_slice(&opt.position);
    for (i, &stop) in opt.queue.iter().enumerate() {
        lent.queue[(head + i) % lent.n] = stop;
    }
    for (flag, &queued) in lent.flags.iter_mut().zip(&opt.queued) {
        *flag = u8::from(queued);
    }
    for (i, entry) in opt.journal.iter().enumerate().skip(old) {
        lent.journal[i * ENTRY..(i + 1) * ENTRY].copy_from_slice(&words_of(entry));
    }
    lent.state = State {
        head,
        count: opt.queue.len(),
        held: opt.journal.len(),
        time: u32::try_from(time).expect("a time fits 32 bits"),
    };
}

fn undo_of(words: &[u32]) -> Undo {
    match *words {
        [0, start, len, ..] => Undo::Reverse { start, len },
        [1, start, a, b, c] => Undo::Rotate { start, a, b, c },
        [2, i, j, ..] => Undo::Swap(i, j),
        _ => unreachable!("an entry out of range is refused"),
    }
}

fn words_of(entry: &Undo) -> [u32; ENTRY] {
    match *entry {
        Undo::Reverse { start, len } => [0, start, len, 0, 0],
        Undo::Rotate { start, a, b, c } => [1, start, a, b, c],
        Undo::Swap(i, j) => [2, i, j, 0, 0],
    }
}

fn kick_of(kind: u32) -> Kick {
    match kind {
        0 => Kick::SegmentDoubleBridge,
        1 => Kick::SegmentSwap,
        2 => Kick::Global,
        _ => unreachable!("another kick kind is refused"),
    }
}

fn step_of(kind: u32) -> Step {
    match kind {
        0 => Step::Lk,
        1 => Step::Lk3,
        2 => Step::Lk3Only,
        _ => unreachable!("another step kind is refused"),
    }
}
