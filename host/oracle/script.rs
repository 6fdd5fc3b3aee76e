//! Call scripts: sets up what is lent, makes calls, does damage, and shows everything after each as JSON.

use std::fmt::{Display, Write};
use std::str::FromStr;

use crate::lent::{Answer, ENTRY, Lent, State};
use crate::tsp::local_search::calls::{self, Single};

/// More words than any script needs; a longer slice is taken for a slip of the pen.
const MOST_WORDS: usize = 1 << 26;

/// A script being run.
pub struct Session {
    pub lent: Lent,
    /// Matrix and lists still have to be shown.
    unseen: Unseen,
    /// The last call was a search that was accepted.
    searched: bool,
}

struct Unseen {
    matrix: bool,
    near: bool,
    alpha: bool,
}

impl Session {
    pub fn new() -> Self {
        Self {
            lent: Lent::default(),
            unseen: Unseen {
                matrix: true,
                near: true,
                alpha: true,
            },
            searched: false,
        }
    }

    /// Runs one line; the answer is `None` for a line that only sets up.
    pub fn run(&mut self, line: &str) -> Result<Option<Answer>, String> {
        let mut words = line.split_whitespace();
        let verb = words.next().unwrap_or("");
        let rest: Vec<&str> = words.collect();
        self.searched = false;
        if self.sets_up(verb, &rest)? {
            return Ok(None);
        }
        let answer = match self.call(verb, &rest)? {
            Some(answer) => answer,
            None => {
                self.damage(verb, &rest)?;
                Answer::default()
            }
        };
        self.searched = verb == "search" && answer.number == 0;
        Ok(Some(answer))
    }

    /// Lines that say what is lent; false if the line is none of these.
    fn sets_up(&mut self, verb: &str, rest: &[&str]) -> Result<bool, String> {
        let lent = &mut self.lent;
        match verb {
            "n" => lent.set_stops(size(one(rest)?)?),
            "k" => lent.k = number(one(rest)?)?,
            "ka" => lent.ka = number(one(rest)?)?,
            "draw" => lent.draw = number(one(rest)?)?,
            "room" => {
                let [entries, left] = exactly(rest)?;
                let words = size(entries)?
                    .saturating_mul(ENTRY)
                    .saturating_add(size(left)?);
                lent.journal = vec![0; words];
            }
            "matrix" => {
                lent.matrix = numbers(rest)?;
                self.unseen.matrix = true;
            }
            "near" => {
                lent.near = numbers(rest)?;
                self.unseen.near = true;
            }
            "alpha" => {
                lent.alpha = numbers(rest)?;
                self.unseen.alpha = true;
            }
            _ => return Ok(false),
        }
        Ok(true)
    }

    /// Calls; `None` if the line is none.
    fn call(&mut self, verb: &str, rest: &[&str]) -> Result<Option<Answer>, String> {
        let lent = &mut self.lent;
        Ok(Some(match verb {
            "load" => calls::load(lent, &numbers(rest)?),
            "kick" => calls::kick(lent, number(one(rest)?)?),
            "descend" => {
                let [kept, step, budget] = exactly(rest)?;
                let kept = match kept {
                    "kept" => true,
                    "committed" => false,
                    _ => return Err(format!("a descent is kept or committed, not {kept}")),
                };
                calls::descend(lent, kept, number(step)?, number(budget)?)
            }
            "commit" => {
                let [] = exactly(rest)?;
                calls::commit(lent)
            }
            "undo" => {
                let [] = exactly(rest)?;
                calls::undo(lent)
            }
            "flip" => {
                let [t1, t2, t3] = stops(lent, exactly(rest)?)?;
                calls::single(lent, Single::Flip([t1, t2, t3]))
            }
            "or_move" => {
                let [way, legs @ ..] = exactly::<7>(rest)?;
                let [a, b, c, d, e, f] = stops(lent, legs)?;
                let legs = [(a, b), (c, d), (e, f)];
                calls::single(lent, Single::OrMove(forward(way)?, legs))
            }
            "improve" => {
                let [way, t1] = exactly(rest)?;
                let [t1] = stops(lent, [t1])?;
                calls::single(lent, Single::Improve(forward(way)?, t1))
            }
            "search" => {
                let [step, kind, stop, budget] = exactly(rest)?;
                let stop = match stop {
                    "0" => false,
                    "1" => true,
                    _ => return Err(format!("the stop flag is 0 or 1, not {stop}")),
                };
                calls::search(lent, number(step)?, number(kind)?, stop, number(budget)?)
            }
            _ => return Ok(None),
        }))
    }

    /// Damage to what is lent, and its repair.
    fn damage(&mut self, verb: &str, rest: &[&str]) -> Result<(), String> {
        let lent = &mut self.lent;
        match verb {
            "set" => {
                let [name, index, value] = exactly(rest)?;
                let index = number(index)?;
                match name {
                    "matrix" => set(&mut lent.matrix, index, value)?,
                    "near" => set(&mut lent.near, index, value)?,
                    "alpha" => set(&mut lent.alpha, index, value)?,
                    "round" => set(&mut lent.round, index, value)?,
                    "places" => set(&mut lent.places, index, value)?,
                    "queue" => set(&mut lent.queue, index, value)?,
                    "flags" => set(&mut lent.flags, index, value)?,
                    "journal" => set(&mut lent.journal, index, value)?,
                    _ => return Err(format!("nothing to set is called {name}")),
                }
                self.saw(name);
            }
            "put" => {
                let [name, value] = exactly(rest)?;
                match name {
                    "head" => lent.state.head = number(value)?,
                    "count" => lent.state.count = number(value)?,
                    "held" => lent.state.held = number(value)?,
                    "time" => lent.state.time = number(value)?,
                    "draw" => lent.draw = number(value)?,
                    "n" => lent.n = number(value)?,
                    "k" => lent.k = number(value)?,
                    "ka" => lent.ka = number(value)?,
                    _ => return Err(format!("nothing to put is called {name}")),
                }
            }
            "size" => {
                let [name, length] = exactly(rest)?;
                let length = size(length)?;
                match name {
                    "matrix" => lent.matrix.resize(length, 0),
                    "near" => lent.near.resize(length, 0),
                    "alpha" => lent.alpha.resize(length, 0),
                    "round" => lent.round.resize(length, 0),
                    "places" => lent.places.resize(length, 0),
                    "queue" => lent.queue.resize(length, 0),
                    "flags" => lent.flags.resize(length, 0),
                    "scratch" => lent.scratch.resize(length, 0),
                    "journal" => lent.journal.resize(length, 0),
                    "best" => lent.best.resize(length, 0),
                    _ => return Err(format!("nothing with a size is called {name}")),
                }
                self.saw(name);
            }
            _ => return Err(format!("no line begins with {verb}")),
        }
        Ok(())
    }

    /// Matrix or list was damaged, and is shown again.
    fn saw(&mut self, name: &str) {
        match name {
            "matrix" => self.unseen.matrix = true,
            "near" => self.unseen.near = true,
            "alpha" => self.unseen.alpha = true,
            _ => {}
        }
    }

    /// Everything after a call or damage, as a JSON object on one line.
    pub fn show(&mut self, line: &str, answer: Answer) -> String {
        let lent = &self.lent;
        let State {
            head,
            count,
            held,
            time,
        } = lent.state;
        let Answer {
            number,
            change,
            gain,
            units,
            ended,
            kicks,
        } = answer;
        let call = line.split_whitespace().collect::<Vec<_>>().join(" ");
        let mut text = format!("{{\"call\":\"{call}\"");
        field(&mut text, "number", number);
        field(&mut text, "change", change);
        field(&mut text, "gain", gain);
        field(&mut text, "units", units);
        field(&mut text, "ended", ended);
        field(&mut text, "kicks", kicks);
        if self.searched {
            text.push_str(",\"answer\":{\"round\":");
            array(&mut text, &lent.best);
            text.push('}');
        }
        field(&mut text, "n", lent.n);
        field(&mut text, "k", lent.k);
        field(&mut text, "ka", lent.ka);
        field(&mut text, "head", head);
        field(&mut text, "count", count);
        field(&mut text, "held", held);
        field(&mut text, "time", time);
        field(&mut text, "draw", lent.draw);
        if self.unseen.matrix {
            list(&mut text, "matrix", &lent.matrix);
        }
        if self.unseen.near {
            list(&mut text, "near", &lent.near);
        }
        if self.unseen.alpha {
            list(&mut text, "alpha", &lent.alpha);
        }
        list(&mut text, "round", &lent.round);
        list(&mut text, "places", &lent.places);
        list(&mut text, "queue", &lent.queue);
        list(&mut text, "flags", &lent.flags);
        let shown = held.saturating_mul(ENTRY).min(lent.journal.len());
        list(&mut text, "journal", &lent.journal[..shown]);
        let sizes = [
            ("matrix", lent.matrix.len()),
            ("near", lent.near.len()),
            ("alpha", lent.alpha.len()),
            ("round", lent.round.len()),
            ("places", lent.places.len()),
            ("queue", lent.queue.len()),
            ("flags", lent.flags.len()),
            ("scratch", lent.scratch.len()),
            ("journal", lent.journal.len()),
            ("best", lent.best.len()),
        ];
        let sizes: Vec<String> = sizes
            .iter()
            .map(|(name, length)| format!("\"{name}\":{length}"))
            .collect();
        text.push_str(&format!(",\"sizes\":{{{}}}}}", sizes.join(",")));
        self.unseen = Unseen {
            matrix: false,
            near: false,
            alpha: false,
        };
        text
    }
}

/// A number that fits where it goes.
pub fn number<N: FromStr>(word: &str) -> Result<N, String> {
    word.parse()
        .map_err(|_| format!("{word} is no number, or one that does not fit"))
}

/// Numbers that fit where they go.
pub fn numbers<N: FromStr>(words: &[&str]) -> Result<Vec<N>, String> {
    words.iter().map(|word| number(word)).collect()
}

/// A length in words.
fn size(word: &str) -> Result<usize, String> {
    match number(word)? {
        length if length <= MOST_WORDS => Ok(length),
        length => Err(format!("a length of {length} words is too much")),
    }
}

/// Stops of a round.
fn stops<const COUNT: usize>(lent: &Lent, words: [&str; COUNT]) -> Result<[usize; COUNT], String> {
    let mut found = [0; COUNT];
    for (stop, word) in found.iter_mut().zip(words) {
        *stop = number(word)?;
        if *stop >= lent.n {
            return Err(format!("{word} is no stop"));
        }
    }
    Ok(found)
}

/// The direction of a move.
fn forward(word: &str) -> Result<bool, String> {
    match word {
        "forward" => Ok(true),
        "backward" => Ok(false),
        _ => Err(format!("a move goes forward or backward, not {word}")),
    }
}

fn one<'a>(words: &[&'a str]) -> Result<&'a str, String> {
    let [word] = exactly(words)?;
    Ok(word)
}

fn exactly<'a, const COUNT: usize>(words: &[&'a str]) -> Result<[&'a str; COUNT], String> {
    words
        .to_vec()
        .try_into()
        .map_err(|_| format!("{COUNT} words must follow, not {}", words.len()))
}

fn set<N: FromStr>(slice: &mut [N], index: usize, value: &str) -> Result<(), String> {
    let length = slice.len();
    match slice.get_mut(index) {
        Some(cell) => *cell = number(value)?,
        None => return Err(format!("{index} is outside a slice of {length}")),
    }
    Ok(())
}

fn field(text: &mut String, name: &str, value: impl Display) {
    write!(text, ",\"{name}\":{value}").expect("a string takes all");
}

fn list<N: Display>(text: &mut String, name: &str, values: &[N]) {
    write!(text, ",\"{name}\":").expect("a string takes all");
    array(text, values);
}

fn array<N: Display>(text: &mut String, values: &[N]) {
    text.push('[');
    for (i, value) in values.iter().enumerate() {
        let comma = if i == 0 { "" } else { "," };
        write!(text, "{comma}{value}").expect("a string takes all");
    }
    text.push(']');
}
