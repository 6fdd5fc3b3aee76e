//! What a caller lends to a call, and what a call answers.

/// The words of a journal entry.
pub const ENTRY: usize = 5;

/// What goes into a call by value and comes back.
#[derive(Clone, Copy, Default)]
pub struct State {
    pub head: usize,
    pub count: usize,
    pub held: usize,
    pub time: u32,
}

/// Plan, round, queue, journal and draw state. `best` is the second round that a search is lent.
#[derive(Default)]
pub struct Lent {
    pub n: usize,
    pub k: usize,
    pub ka: usize,
    pub matrix: Vec<u16>,
    pub near: Vec<u32>,
    pub alpha: Vec<u32>,
    pub round: Vec<u32>,
    pub places: Vec<u32>,
    pub queue: Vec<u32>,
    pub flags: Vec<u8>,
    pub scratch: Vec<u32>,
    pub journal: Vec<u32>,
    pub best: Vec<u32>,
    pub draw: u64,
    pub state: State,
}

impl Lent {
    /// Sets n and lends round, places, queue, flags, scratch and second round of n words, all 0.
    pub fn set_stops(&mut self, n: usize) {
        self.n = n;
        self.round = vec![0; n];
        self.places = vec![0; n];
        self.queue = vec![0; n];
        self.flags = vec![0; n];
        self.scratch = vec![0; n];
        self.best = vec![0; n];
    }

    /// The whole entries that the journal has room for.
    pub fn room(&self) -> usize {
        self.journal.len() / ENTRY
    }

    /// The stops that wait, in order of arrival.
    pub fn waiting(&self) -> impl Iterator<Item = u32> + '_ {
        let State { head, count, .. } = self.state;
        (0..count).map(move |i| self.queue[(head + i) % self.n])
    }

    /// The journal entries held, oldest first.
    pub fn entries(&self) -> impl Iterator<Item = &[u32]> {
        self.journal.chunks_exact(ENTRY).take(self.state.held)
    }
}

/// Number and results of a call, 0 where a result is not of the call.
#[derive(Clone, Copy, Default)]
pub struct Answer {
    pub number: u8,
    pub change: i64,
    pub gain: i64,
    pub units: u32,
    pub ended: u8,
    pub kicks: u64,
}

impl Answer {
    /// A refusal: its number, and 0 in every other result.
    pub fn refused(number: u8) -> Self {
        Self {
            number,
            ..Self::default()
        }
    }
}
