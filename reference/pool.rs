//! The proved table behind its C interface, with the calls of calls.rs (coded.rs). Around every call it looks at the lent words:
//! a refusal must leave all of them, and no call may touch a word past what is lent (guarded.rs), write one past the pool's
//! size, or go another way for one (past.rs). What it sees wrong it keeps as a complaint, so that the answers themselves can be
//! compared first.
mod coded;

use crate::calls::Calls;
use crate::guarded::lend;
use crate::limits::{size, MOST_ROUTES};
use crate::past;
use std::cell::RefCell;
use std::fmt::Arguments;

/// What the console lends: the largest pool and 16 words behind it.
pub const LENT: usize = size(MOST_ROUTES) + 16;
/// Stands in every word that a call has not written, and in the fields that a hop does not use.
const UNWRITTEN: u32 = 0xDEAD_BEEF;

#[derive(Clone)]
pub struct Pool {
    words: Vec<u32>,
    complaint: RefCell<Option<String>>,
    // draws the other words that are put past the pool: the same for every call, so that a shorter script meets them too
    seed: u64,
}

/// A call of the C interface: the lent words, their count, and where its values go. All that it asks of its caller is that both
/// pointers are good, and `make` hands over good ones.
trait Call: Fn(*mut u32, usize, *mut u32) -> u32 {}
impl<F: Fn(*mut u32, usize, *mut u32) -> u32> Call for F {}

/// What a call answered, and the words that it left if it changed any. Its values are written on 0 and only then.
struct Outcome<const N: usize> {
    number: u32,
    values: [u32; N],
    changed: Option<Vec<u32>>,
}

impl<const N: usize> Outcome<N> {
    fn answer(&self) -> String {
        match (self.number, N) {
            (0, 1..) => format!("0 {:?}", self.values),
            (number, _) => number.to_string(),
        }
    }

    /// What is another in the answer, or in what became of words that were the same.
    fn difference(&self, other: &Outcome<N>, before: &[u32]) -> Option<String> {
        if (self.number, self.values) != (other.number, other.values) {
            return Some(format!("answers {} in place of {}", other.answer(), self.answer()));
        }
        if self.changed.is_none() && other.changed.is_none() {
            return None;
        }
        let [ours, theirs] = [self, other].map(|outcome| outcome.changed.as_deref().unwrap_or(before));
        let i = (0..before.len()).find(|&i| ours[i] != theirs[i])?;
        Some(format!("leaves {} in word {i} in place of {}", theirs[i], ours[i]))
    }
}

impl Pool {
    /// All words 0, as in the console before the first fresh.
    pub fn new(seed: u64) -> Pool {
        Pool::of(vec![0; LENT], seed)
    }

    pub fn of(words: Vec<u32>, seed: u64) -> Pool {
        Pool { words, complaint: RefCell::new(None), seed }
    }

    /// The first so many of the words, or all and behind them what no call has written.
    pub fn lending(&self, lent: usize) -> Pool {
        let mut pool = self.clone();
        pool.words.resize(lent, UNWRITTEN);
        pool
    }

    pub fn words_lent(&self) -> &[u32] {
        &self.words
    }

    /// How many words the capacity that stands in the pool takes; 0 if it is none.
    pub fn size(&self) -> usize {
        self.words.first().map_or(0, |&capacity| self.words(capacity) as usize)
    }

    pub fn complaint(&self) -> Option<String> {
        self.complaint.borrow().clone()
    }

    fn complain(&self, text: String) {
        self.complaint.borrow_mut().get_or_insert(text);
    }

    /// Makes a call on a copy of the words. It may write the first so many of them, if it answers 0.
    fn make<const N: usize>(&self, words: &[u32], writes: usize, name: Arguments, call: &impl Call) -> Outcome<N> {
        let mut values = [UNWRITTEN; N];
        let lent = lend(words, |pool, count| call(pool, count, values.as_mut_ptr()));
        let number = lent.number;
        if let Some(i) = lent.touched {
            self.complain(format!("{name} answered {number} and touched word {i}, with {} words lent", words.len()));
        }
        let from = if number == 0 { writes } else { 0 };
        let changed = lent.changed.as_deref().unwrap_or_default();
        if let Some(i) = (from..changed.len()).find(|&i| words[i] != changed[i]) {
            let [old, new] = [words[i], changed[i]];
            self.complain(format!("{name} answered {number} and wrote {new} over {old} in word {i}"));
        }
        Outcome { number, values, changed: lent.changed }
    }

    /// Makes a call that may read and write the first so many words: once, and once with other words behind those.
    fn outcome<const N: usize>(&self, reads: usize, writes: usize, name: Arguments, call: impl Call) -> Outcome<N> {
        let outcome = self.make(&self.words, writes, name, &call);
        if reads >= self.words.len() {
            return outcome;
        }
        let others = past::with_others(&self.words, reads, self.seed);
        let with = |words: &[u32]| outcome.difference(&self.make(words, writes, name, &call), &self.words[..reads]);
        if let Some(difference) = with(&others) {
            let pokes = past::pokes(&self.words, &others, |words| with(words).is_some()).join("\n    ");
            self.complain(format!("{name} {difference}, for words past the pool's {reads}:\n    {pokes}"));
        }
        outcome
    }

    /// The words that a call on this pool may look at. Where the first word is no capacity, it is the only one.
    fn own(&self) -> usize {
        self.size().max(1)
    }

    fn change_words(&mut self, name: Arguments, call: impl Call) -> u32 {
        self.change_first(self.own(), name, call)
    }

    fn change_first(&mut self, own: usize, name: Arguments, call: impl Call) -> u32 {
        let Outcome::<0> { number, changed, .. } = self.outcome(own, own, name, call);
        if let Some(words) = changed {
            self.words = words;
        }
        if number == 0 && !self.sound() {
            self.complain(format!("{name} answered 0 and left a pool that is not sound"));
        }
        number
    }

    fn read_words<const N: usize>(&self, name: Arguments, call: impl Call) -> Result<[u32; N], u32> {
        let Outcome { number, values, .. } = self.outcome(self.own(), 0, name, call);
        if number == 0 {
            return Ok(values);
        }
        if values != [UNWRITTEN; N] {
            self.complain(format!("{name} answered {number} and wrote a value"));
        }
        Err(number)
    }
}
