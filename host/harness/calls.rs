//! The public calls against the oracle's: kicks and descents at any size, and whole call scripts with damage and refusals.

use crate::chance::Chance;
use crate::found::Found;
use crate::lent::{Answer, ENTRY, Lent, State};
use crate::script::{self, Session};
use crate::tsp::local_search::calls;
use crate::{generate, generate_calls, probe, shapes};

/// A call that both sides know.
enum Call {
    Load(Vec<u32>),
    Kick(u32),
    /// Kept or committed, step kind, budget.
    Descend(bool, u32, u32),
    Commit,
    Undo,
}

impl Call {
    /// The call of a script's line; none, where the line is no call or one that `probe` does not export yet.
    fn of(line: &str) -> Option<Call> {
        let words: Vec<&str> = line.split_whitespace().collect();
        match words.as_slice() {
            ["load", stops @ ..] => Some(Call::Load(script::numbers(stops).ok()?)),
            ["kick", kind] => Some(Call::Kick(script::number(kind).ok()?)),
            ["descend", manner, step, budget] => Some(Call::Descend(
                *manner == "kept",
                script::number(step).ok()?,
                script::number(budget).ok()?,
            )),
            ["commit"] => Some(Call::Commit),
            ["undo"] => Some(Call::Undo),
            _ => None,
        }
    }

    fn rusts(&self, lent: &mut Lent) -> Answer {
        match self {
            Call::Load(start) => calls::load(lent, start),
            Call::Kick(kind) => calls::kick(lent, *kind),
            Call::Descend(keeps, step, budget) => calls::descend(lent, *keeps, *step, *budget),
            Call::Commit => calls::commit(lent),
            Call::Undo => calls::undo(lent),
        }
    }

    fn ours(&self, lent: &mut Lent) -> Answer {
        match self {
            Call::Load(start) => probe::load(lent, start),
            Call::Kick(kind) => probe::kick(lent, *kind),
            Call::Descend(keeps, step, budget) => probe::descend(lent, *keeps, *step, *budget),
            Call::Commit => probe::commit(lent),
            Call::Undo => probe::undo(lent),
        }
    }
}

/// Kicks of every kind after a load, with commits and undos among them.
pub fn kicks(seed: u64, count: usize, range: (usize, usize)) -> Found {
    turns(seed, count, range, false)
}

/// The same with a descent after most kicks, of each step kind, kept and committed.
pub fn descents(seed: u64, count: usize, range: (usize, usize)) -> Found {
    turns(seed, count, range, true)
}

fn turns(seed: u64, count: usize, range: (usize, usize), descents: bool) -> Found {
    let (mut chance, mut found) = (Chance::new(seed), Found::default());
    for item in 0..count {
        let n = chance.from(range.0.max(2), range.1);
        let mut rust = Lent::default();
        rust.set_stops(n);
        rust.k = chance.from(1, 5);
        rust.ka = chance.from(0, 5);
        rust.matrix = shapes::matrix(&mut chance, shapes::shape(item), n, true);
        rust.near = shapes::any_list(&mut chance, n, rust.k);
        rust.alpha = shapes::any_list(&mut chance, n, rust.ka);
        rust.journal = vec![0; 512 * ENTRY + chance.below(8)];
        rust.draw = chance.bits().max(1);
        let mut ours = copy(&rust);
        for turn in 0..20 {
            let call = match (turn, chance.below(8)) {
                (0, _) | (_, 0) => {
                    let mut start: Vec<u32> = (0..n as u32).collect();
                    chance.shuffle(&mut start);
                    Call::Load(start)
                }
                (_, 1) => Call::Commit,
                (_, 3..=5) if descents => {
                    let budget = [0, 1, 5, 100, 4_294_967_295][chance.below(5)];
                    Call::Descend(chance.below(2) == 0, chance.below(3) as u32, budget)
                }
                (_, 2) => Call::Undo,
                _ => Call::Kick(chance.below(3) as u32),
            };
            compare(
                &mut found,
                &call,
                &mut rust,
                &mut ours,
                &format!("item {item}, n {n}, call {turn}"),
            );
        }
    }
    found
}

/// The generator's call scripts; a line that `probe` does not know is run by the oracle, and what it leaves is taken over.
pub fn scripts(seed: u64, count: usize, range: (usize, usize)) -> Found {
    let (mut chance, mut found) = (Chance::new(seed), Found::default());
    let ranges = generate::Ranges {
        n: (range.0.max(2), range.1),
        budget: (0, 60),
    };
    for item in 0..count {
        let mut lines = Vec::new();
        let made = generate_calls::script(&mut chance, item, ranges, &mut |line| {
            lines.push(line.to_string());
            Ok(())
        });
        made.expect("a script is made");
        let mut session = Session::new();
        let mut ours = Lent::default();
        for (at, line) in lines.iter().enumerate().filter(|(_, line)| *line != "---") {
            let place = format!(
                "script {item}, line {at}, {}",
                line.chars().take(40).collect::<String>()
            );
            match Call::of(line) {
                Some(call) => compare(&mut found, &call, &mut session.lent, &mut ours, &place),
                None => {
                    session.run(line).expect("a script's line is run");
                    ours = copy(&session.lent);
                }
            }
        }
    }
    found
}

/// Makes a call on both sides and compares all that is promised; then what is lent to us is what is lent to the oracle, word for word.
fn compare(found: &mut Found, call: &Call, rust: &mut Lent, ours: &mut Lent, at: &str) {
    let before = shown(ours, true);
    let (wanted, given) = (call.rusts(rust), call.ours(ours));
    found.same(
        told(given),
        told(wanted),
        &format!("{at}: number and results"),
    );
    if wanted.number == 0 {
        found.rounds += 1;
        found.same(shown(ours, false), shown(rust, false), at);
        take_over(ours, rust);
    } else {
        found.refusals += 1;
        found.same(shown(ours, true), before, &format!("{at}: refused"));
    }
}

fn told(answer: Answer) -> (u8, i64, i64, u32, u8) {
    (
        answer.number,
        answer.change,
        answer.gain,
        answer.units,
        answer.ended,
    )
}

type Shown = (
    State4,
    u64,
    Vec<u32>,
    Vec<u32>,
    Vec<u32>,
    Vec<u8>,
    Vec<u32>,
    Vec<u32>,
);
type State4 = (usize, usize, usize, u32);

/// State, draw state, round, places, queue, flags, scratch and journal: every word, or what a promise determines.
fn shown(lent: &Lent, every: bool) -> Shown {
    let State {
        head,
        count,
        held,
        time,
    } = lent.state;
    let (queue, scratch, journal) = if every {
        (
            lent.queue.clone(),
            lent.scratch.clone(),
            lent.journal.clone(),
        )
    } else {
        (
            lent.waiting().collect(),
            Vec::new(),
            lent.journal[..held * ENTRY].to_vec(),
        )
    };
    let state = (head, count, held, time);
    (
        state,
        lent.draw,
        lent.round.clone(),
        lent.places.clone(),
        queue,
        lent.flags.clone(),
        scratch,
        journal,
    )
}

/// The words that a call writes.
pub fn take_over(ours: &mut Lent, rust: &Lent) {
    ours.round.clone_from(&rust.round);
    ours.places.clone_from(&rust.places);
    ours.queue.clone_from(&rust.queue);
    ours.flags.clone_from(&rust.flags);
    ours.scratch.clone_from(&rust.scratch);
    ours.journal.clone_from(&rust.journal);
    ours.state = rust.state;
    ours.draw = rust.draw;
}

/// All that is lent.
pub fn copy(lent: &Lent) -> Lent {
    let mut copy = Lent {
        n: lent.n,
        k: lent.k,
        ka: lent.ka,
        matrix: lent.matrix.clone(),
        near: lent.near.clone(),
        alpha: lent.alpha.clone(),
        best: lent.best.clone(),
        ..Lent::default()
    };
    take_over(&mut copy, lent);
    copy
}
