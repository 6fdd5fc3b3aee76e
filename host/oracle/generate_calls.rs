//! Generated call scripts: it runs each line as it writes it, so that damage hits and repair fits.

use crate::chance::Chance;
use crate::generate::{Out, Ranges, words};
use crate::lent::ENTRY;
use crate::script::Session;
use crate::shapes;

/// A script: set-up, a load, then calls, planted journals, refusals by damage and their repair.
pub fn script(
    chance: &mut Chance,
    item: usize,
    ranges: Ranges,
    out: &mut Out<'_>,
) -> Result<(), String> {
    if item > 0 {
        out("---")?;
    }
    let n = chance.from(ranges.n.0, ranges.n.1);
    let mut script = Script {
        n,
        k: chance.from(1, 20),
        ka: chance.from(0, 5),
        session: Session::new(),
        chance,
        ranges,
        out,
    };
    script.set_up(item)?;
    script.load()?;
    // Each script shows one refusal alone and one pair; together they go through all of them.
    script.refusal(&[item % 8 + 1])?;
    for _ in 0..script.chance.from(6, 16) {
        match script.chance.below(12) {
            0 => script.plant_entries()?,
            1 => script.fill_journal()?,
            2 => script.turn_queue()?,
            _ => script.call()?,
        }
    }
    script.refusal(&[item % 8 + 1, item / 8 % 8 + 1])?;
    for _ in 0..script.chance.from(2, 6) {
        script.call()?;
    }
    Ok(())
}

struct Script<'a, 'b> {
    n: usize,
    k: usize,
    ka: usize,
    session: Session,
    chance: &'a mut Chance,
    ranges: Ranges,
    out: &'a mut Out<'b>,
}

/// How to repair a damage: always, or only if the call after it was refused, since an accepted one
/// has already written what the line would repair.
enum Repair {
    Always(String),
    IfRefused(String),
}

impl Script<'_, '_> {
    /// Writes a line and runs it; gives the number of the call.
    fn line(&mut self, line: &str) -> Result<u8, String> {
        (self.out)(line)?;
        let answer = self.session.run(line)?;
        Ok(answer.map_or(0, |answer| answer.number))
    }

    fn set_up(&mut self, item: usize) -> Result<(), String> {
        let (n, k, ka) = (self.n, self.k, self.ka);
        let matrix = shapes::matrix(self.chance, shapes::shape(item), n, true);
        let near = shapes::near(self.chance, &matrix, n, k);
        let alpha = shapes::alpha(self.chance, &matrix, n, ka);
        let left = self.chance.one_of(&[0, 0, 1, 4]);
        self.line(&format!("n {n}"))?;
        self.line(&format!("k {k}"))?;
        self.line(&format!("ka {ka}"))?;
        self.line(&format!("room 512 {left}"))?;
        let state = self.chance.bits().max(1);
        self.line(&format!("draw {state}"))?;
        self.line(&format!("matrix{}", words(&matrix)))?;
        self.line(&format!("near{}", words(&near)))?;
        self.line(&format!("alpha{}", words(&alpha)))?;
        Ok(())
    }

    fn load(&mut self) -> Result<u8, String> {
        let mut start: Vec<usize> = (0..self.n).collect();
        self.chance.shuffle(&mut start);
        self.line(&format!("load{}", words(&start)))
    }

    /// A call that is well told.
    fn call(&mut self) -> Result<(), String> {
        match self.chance.below(20) {
            0 => self.load()?,
            1 => {
                let (step, budget) = (self.step(), self.budget());
                let (kind, stop) = (self.chance.below(3), self.chance.below(2));
                self.line(&format!("search {step} {kind} {stop} {budget}"))?
            }
            2..=3 => self.line("commit")?,
            4..=6 => self.line("undo")?,
            7..=11 => self.descend()?,
            _ => self.kick()?,
        };
        Ok(())
    }

    fn kick(&mut self) -> Result<u8, String> {
        let kind = self.chance.below(3);
        self.line(&format!("kick {kind}"))
    }

    fn descend(&mut self) -> Result<u8, String> {
        let step = self.step();
        let kept = self.chance.one_of(&["kept", "kept", "committed"]);
        let budget = if self.chance.one_in(3) {
            u32::MAX as usize
        } else {
            self.budget()
        };
        self.line(&format!("descend {kept} {step} {budget}"))
    }

    fn step(&mut self) -> usize {
        if self.ka == 0 {
            0
        } else {
            self.chance.below(3)
        }
    }

    fn budget(&mut self) -> usize {
        self.chance.from(self.ranges.budget.0, self.ranges.budget.1)
    }

    /// Holds a few more entries, all in range, some with unused words other than 0.
    fn plant_entries(&mut self) -> Result<(), String> {
        let (n, held) = (self.n, self.session.lent.state.held);
        let more = self.chance.from(1, 4).min(512 - held);
        for entry in held..held + more {
            let start = self.chance.below(n);
            let (a, b) = (self.chance.from(0, n), self.chance.below(n));
            let rest = self.chance.one_of(&[0, 0, 4_294_967_295]);
            let entry_words = match self.chance.below(3) {
                0 => [0, start, a, rest, rest],
                1 => [1, start, a, (n - a) / 3, (n - a) / 2],
                _ => [2, start, b, rest, rest],
            };
            for (i, word) in entry_words.iter().enumerate() {
                self.line(&format!("set journal {} {word}", entry * ENTRY + i))?;
            }
        }
        self.line(&format!("put held {}", held + more))?;
        Ok(())
    }

    /// Holds nearly as many entries as there is room for; entries of words 0 reverse nothing.
    fn fill_journal(&mut self) -> Result<(), String> {
        let held = self
            .chance
            .one_of(&[380, 400, 408, 411, 412, 413, 470, 481, 482, 483, 511, 512]);
        self.hold(held)?;
        self.kick()?;
        let step = self.step();
        self.line(&format!("descend kept {step} 4294967295"))?;
        self.kick()?;
        Ok(())
    }

    /// Makes `held` entries held, those that are new of words 0.
    fn hold(&mut self, held: usize) -> Result<(), String> {
        let (length, old) = (
            self.session.lent.journal.len(),
            self.session.lent.state.held,
        );
        self.line(&format!("size journal {}", (old * ENTRY).min(length)))?;
        self.line(&format!("size journal {length}"))?;
        self.line(&format!("put held {}", held.max(old)))?;
        Ok(())
    }

    /// Moves the head of an empty queue, which a kick then keeps.
    fn turn_queue(&mut self) -> Result<(), String> {
        if self.session.lent.state.count == 0 {
            let head = self.chance.below(self.n);
            self.line(&format!("put head {head}"))?;
        }
        self.kick()?;
        Ok(())
    }

    /// Damages that cause these numbers, calls that meet them, and the repair.
    fn refusal(&mut self, numbers: &[usize]) -> Result<(), String> {
        let mut repairs = Vec::new();
        let mut told = None;
        for &number in numbers {
            match number {
                1 => self.damage_stops(&mut repairs)?,
                2 => told = self.damage_settings(&mut repairs)?,
                3 | 7 if self.chance.one_in(5) => told = Some(self.wrong_start(number)),
                3 => self.damage_length(&mut repairs)?,
                4 => self.damage_room(&mut repairs)?,
                5 => self.damage_symmetry(&mut repairs)?,
                6 => self.damage_list(&mut repairs)?,
                7 => self.damage_track(&mut repairs)?,
                _ => self.damage_free(&mut repairs)?,
            }
        }
        let refused = match told {
            Some(line) => self.line(&line)? != 0,
            None if numbers.contains(&8) => self.kick()? != 0,
            None => self.try_call()?,
        } && self.try_call()?;
        for repair in repairs.iter().rev() {
            match repair {
                Repair::Always(line) => self.line(line)?,
                Repair::IfRefused(line) if refused => self.line(line)?,
                Repair::IfRefused(_) => 0,
            };
        }
        Ok(())
    }

    /// Any call; true if it was refused.
    fn try_call(&mut self) -> Result<bool, String> {
        let number = match self.chance.below(9) {
            0 => self.load()?,
            1 => self.line("commit")?,
            2 => self.line("undo")?,
            3 => {
                let step = self.step();
                self.line(&format!("search {step} 0 0 5"))?
            }
            4..=5 => self.descend()?,
            _ => self.kick()?,
        };
        Ok(number != 0)
    }

    fn damage_stops(&mut self, repairs: &mut Vec<Repair>) -> Result<(), String> {
        let wrong = self.chance.one_of(&[0, 1, 4097, 4_294_967_295]);
        self.put("n", wrong, self.n as u64, repairs)
    }

    /// A wrong setting is lent, or else the line of a call that is told a wrong kind is given.
    fn damage_settings(&mut self, repairs: &mut Vec<Repair>) -> Result<Option<String>, String> {
        let (k, ka, draw) = (self.k as u64, self.ka as u64, self.session.lent.draw);
        match self.chance.below(8) {
            0 => self.put("k", 0, k, repairs)?,
            1 => self.put("k", 21, k, repairs)?,
            2 => self.put("ka", 6, ka, repairs)?,
            3 => {
                self.put("draw", 0, draw, repairs)?;
                return Ok(Some(
                    self.chance
                        .one_of(&["kick 0", "search 0 0 0 0"])
                        .to_string(),
                ));
            }
            4 => {
                let length = self.session.lent.alpha.len();
                self.put("ka", 0, ka, repairs)?;
                let lost: Vec<u32> = self.session.lent.alpha.clone();
                self.line("size alpha 0")?;
                for (i, value) in lost.iter().enumerate().rev() {
                    repairs.push(Repair::Always(format!("set alpha {i} {value}")));
                }
                repairs.push(Repair::Always(format!("size alpha {length}")));
                let kind = self.chance.from(1, 2);
                return Ok(Some(format!("descend kept {kind} 9")));
            }
            5 => return Ok(Some("kick 3".to_string())),
            6 => return Ok(Some("descend committed 3 9".to_string())),
            _ => {
                let line = self.chance.one_of(&["search 3 0 1 9", "search 0 3 1 9"]);
                return Ok(Some(line.to_string()));
            }
        }
        Ok(None)
    }

    /// A load whose start round is too short or too long, or else no permutation.
    fn wrong_start(&mut self, number: usize) -> String {
        let n = self.n;
        let start: Vec<usize> = match number {
            3 => (0..self.chance.one_of(&[0, n - 1, n + 1])).collect(),
            _ if self.chance.one_in(2) => (1..=n).collect(),
            _ => (0..n).map(|place| place.max(1)).collect(),
        };
        format!("load{}", words(&start))
    }

    /// One slice is a word too long or too short.
    fn damage_length(&mut self, repairs: &mut Vec<Repair>) -> Result<(), String> {
        let names = [
            "matrix", "near", "alpha", "round", "places", "queue", "flags", "scratch", "best",
        ];
        let name = self.chance.one_of(&names);
        let lent = &self.session.lent;
        let (length, last) = match name {
            "matrix" => (lent.matrix.len(), lent.matrix.last().map(|&v| u32::from(v))),
            "near" => (lent.near.len(), lent.near.last().copied()),
            "alpha" => (lent.alpha.len(), lent.alpha.last().copied()),
            "round" => (lent.round.len(), lent.round.last().copied()),
            "places" => (lent.places.len(), lent.places.last().copied()),
            "queue" => (lent.queue.len(), lent.queue.last().copied()),
            "flags" => (lent.flags.len(), lent.flags.last().map(|&v| u32::from(v))),
            "scratch" => (lent.scratch.len(), None),
            _ => (lent.best.len(), None),
        };
        if length > 0 && self.chance.one_in(2) {
            self.line(&format!("size {name} {}", length - 1))?;
            if let Some(last) = last {
                repairs.push(Repair::Always(format!("set {name} {} {last}", length - 1)));
            }
        } else {
            self.line(&format!("size {name} {}", length + 1))?;
        }
        repairs.push(Repair::Always(format!("size {name} {length}")));
        Ok(())
    }

    /// A journal of 511 entries and four words, the words of held entries kept for repair.
    fn damage_room(&mut self, repairs: &mut Vec<Repair>) -> Result<(), String> {
        let lent = &self.session.lent;
        let length = lent.journal.len();
        let held = (lent.state.held * ENTRY).min(length);
        for i in 512 * ENTRY - 1..held {
            let word = lent.journal[i];
            repairs.push(Repair::IfRefused(format!("set journal {i} {word}")));
        }
        repairs.push(Repair::Always(format!("size journal {length}")));
        self.line(&format!("size journal {}", 512 * ENTRY - 1))?;
        Ok(())
    }

    fn damage_symmetry(&mut self, repairs: &mut Vec<Repair>) -> Result<(), String> {
        let i = self.chance.below(self.n);
        let at = i * self.n + (i + self.chance.from(1, self.n - 1)) % self.n;
        if let Some(&time) = self.session.lent.matrix.get(at) {
            self.line(&format!("set matrix {at} {}", time ^ 1))?;
            repairs.push(Repair::Always(format!("set matrix {at} {time}")));
        }
        Ok(())
    }

    fn damage_list(&mut self, repairs: &mut Vec<Repair>) -> Result<(), String> {
        let near = self.ka == 0 || self.chance.one_in(2);
        let lent = &self.session.lent;
        let (name, list, each) = if near {
            ("near", &lent.near, self.k)
        } else {
            ("alpha", &lent.alpha, self.ka)
        };
        if list.is_empty() {
            return Ok(());
        }
        let at = self.chance.below(list.len());
        let old = list[at];
        let wrong = self.chance.one_of(&[self.n, at / each, u32::MAX as usize]);
        self.line(&format!("set {name} {at} {wrong}"))?;
        repairs.push(Repair::Always(format!("set {name} {at} {old}")));
        Ok(())
    }

    /// Round, places, queue, flags, journal or time disagree.
    fn damage_track(&mut self, repairs: &mut Vec<Repair>) -> Result<(), String> {
        let (n, state) = (self.n as u64, self.session.lent.state);
        let at = self.chance.below(self.n);
        let (held, room) = (state.held, self.session.lent.room());
        let big = u64::from(u32::MAX);
        match self.chance.below(10) {
            0 => self.put(
                "time",
                u64::from(state.time) ^ 1,
                u64::from(state.time),
                repairs,
            ),
            1 => self.put("head", n, state.head as u64, repairs),
            2 => self.put("count", n + 1, state.count as u64, repairs),
            3 => self.put("held", room as u64 + 1, held as u64, repairs),
            4 => {
                let wrong = self.chance.one_of(&[n, big]);
                self.set("round", at, wrong, repairs)
            }
            5 => {
                let stop = self.session.lent.round.get((at + 1) % self.n).copied();
                self.set("round", at, u64::from(stop.unwrap_or(0)), repairs)
            }
            6 => {
                let wrong = self.chance.one_of(&[n, big]);
                self.set("places", at, wrong, repairs)
            }
            7 => self.set("flags", at, 2, repairs),
            8 => {
                let flag = self.session.lent.flags.get(at).copied().unwrap_or(0);
                self.set("flags", at, u64::from(1 - flag.min(1)), repairs)
            }
            _ if held > 0 && held <= room => {
                let entry = self.chance.below(held) * ENTRY;
                match self.chance.below(3) {
                    0 => self.set("journal", entry, 3, repairs),
                    1 => self.set("journal", entry + 1, n, repairs),
                    _ => self.set("journal", entry + 2, big, repairs),
                }
            }
            _ if state.count > 0 => {
                let wrong = self.chance.one_of(&[n, big]);
                self.set("queue", state.head, wrong, repairs)
            }
            _ => self.put("count", 1, state.count as u64, repairs),
        }
    }

    /// Fewer than 30 free entries.
    fn damage_free(&mut self, repairs: &mut Vec<Repair>) -> Result<(), String> {
        let old = self.session.lent.state.held;
        let held = self.chance.one_of(&[483, 500, 511]);
        self.hold(held)?;
        repairs.push(Repair::IfRefused(format!("put held {old}")));
        Ok(())
    }

    /// Puts a wrong value; n, k, ka and the draw state are always repaired.
    fn put(
        &mut self,
        name: &str,
        wrong: u64,
        right: u64,
        repairs: &mut Vec<Repair>,
    ) -> Result<(), String> {
        self.line(&format!("put {name} {wrong}"))?;
        let line = format!("put {name} {right}");
        repairs.push(match name {
            "head" | "count" | "held" | "time" => Repair::IfRefused(line),
            _ => Repair::Always(line),
        });
        Ok(())
    }

    /// Sets a wrong word of what a load writes anew, if it is there.
    fn set(
        &mut self,
        name: &str,
        at: usize,
        wrong: u64,
        repairs: &mut Vec<Repair>,
    ) -> Result<(), String> {
        let lent = &self.session.lent;
        let old = match name {
            "round" => lent.round.get(at).copied(),
            "places" => lent.places.get(at).copied(),
            "queue" => lent.queue.get(at).copied(),
            "flags" => lent.flags.get(at).map(|&flag| u32::from(flag)),
            _ => lent.journal.get(at).copied(),
        };
        if let Some(old) = old {
            self.line(&format!("set {name} {at} {wrong}"))?;
            repairs.push(Repair::IfRefused(format!("set {name} {at} {old}")));
        }
        Ok(())
    }
}
