//! What a run has met: how much it compared, and what differed.

/// What lent words hold before a call; no stop and no time is it.
pub const LENT: u32 = 0xAAAA_AAAA;

const SHOWN: usize = 5;

#[derive(Default)]
pub struct Found {
    pub rounds: usize,
    pub refusals: usize,
    pub differences: usize,
}

impl Found {
    /// Counts a difference where the two are not equal, and shows the first few.
    pub fn same<T: PartialEq + std::fmt::Debug>(&mut self, ours: T, wanted: T, what: &str) {
        if ours == wanted {
            return;
        }
        self.differences += 1;
        if self.differences <= SHOWN {
            let cut = |text: String| text.chars().take(300).collect::<String>();
            println!(
                "differs: {what}\n  ours   {}\n  wanted {}",
                cut(format!("{ours:?}")),
                cut(format!("{wanted:?}"))
            );
        }
    }

    /// The words are as they were lent.
    pub fn untouched(&mut self, words: &[u32], what: &str) {
        let at = words.iter().position(|&word| word != LENT);
        self.same(at, None, &format!("{what}: the first word written"));
    }
}
