//! Words past a pool's size, inside what is lent: they may be anything, and may change from call to call. No call may answer or
//! do anything else for it.
use crate::limits::{CHANGE, MOST_CHANGES};
use crate::pool::LENT;
use crate::random::Dice;
use crate::shrink::shrink;
use std::sync::OnceLock;

/// The same words, with others past the first `own`.
pub fn with_others(words: &[u32], own: usize, seed: u64) -> Vec<u32> {
    let mut dice = Dice(seed);
    let mut others = words.to_vec();
    let (pool, past) = others.split_at_mut(own);
    past.copy_from_slice(any_words(past.len(), &mut dice));
    let changes = CHANGE * MOST_CHANGES;
    if own > changes && dice.one_in(2) {
        // a pool ends in its changes; the same ones once more could be taken for further changes
        let again = &pool[own - changes..][..changes.min(past.len())];
        past[..again.len()].copy_from_slice(again);
    }
    others
}

/// Words of every sort. They are drawn once, and each seed takes another stretch of them: to draw them for each call would take
/// longer than the call.
fn any_words(count: usize, dice: &mut Dice) -> &'static [u32] {
    static WORDS: OnceLock<Vec<u32>> = OnceLock::new();
    let words = WORDS.get_or_init(|| {
        let mut dice = Dice(1);
        (0..2 * LENT).map(|_| any_word(&mut dice)).collect()
    });
    &words[dice.below(LENT as u32) as usize..][..count]
}

fn any_word(dice: &mut Dice) -> u32 {
    let small = dice.below(40);
    let wild = dice.draw() as u32;
    dice.of(&[0, 1, small, small, wild, u32::MAX])
}

/// As few of the other words as make the difference, as the lines that put them there.
pub fn pokes(words: &[u32], others: &[u32], differs: impl Fn(&[u32]) -> bool) -> Vec<String> {
    let with = |places: &[usize]| {
        let mut mixed = words.to_vec();
        places.iter().for_each(|&i| mixed[i] = others[i]);
        mixed
    };
    let changed = (0..words.len()).filter(|&i| words[i] != others[i]).collect();
    let needed = shrink(changed, |places| differs(&with(places)));
    needed.into_iter().map(|i| format!("poke {i} {}", others[i])).collect()
}
