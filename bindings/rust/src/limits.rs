//! The limits of the table, and the words that a pool takes.

use crate::raw;

/// The largest capacity.
pub const LARGEST_CAPACITY: u32 = 512;

/// The most changes that may stand in a trial.
pub const MOST_CHANGES: u32 = 64;

/// The last port; the first is 0.
pub const LAST_PORT: u32 = 15;

/// The last metric of a learned route; the first is 1.
pub const LAST_METRIC: u32 = 15;

/// The words that are enough for any capacity.
pub const MOST_WORDS: usize = size(LARGEST_CAPACITY);

/// What [`words_for`] answers for a good capacity, as a constant, for an array: 8 words, 12 for each route and 16 for each
/// change.
pub const fn size(capacity: u32) -> usize {
    8 + 12 * capacity as usize + 16 * MOST_CHANGES as usize
}

/// How many words a table of this capacity needs; `None` for a capacity that [`Pool::fresh`](crate::Pool::fresh) refuses.
pub fn words_for(capacity: u32) -> Option<usize> {
    // SAFETY: the function takes and gives numbers alone.
    match unsafe { raw::rishavand_words(capacity) } {
        0 => None,
        words => Some(words),
    }
}
