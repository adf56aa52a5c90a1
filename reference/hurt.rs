//! Damage to a pool, as lines of `poke`. A word drawn at random hits nothing of interest most of the time, so most damage keeps
//! to the rows of docs/POOL.md: a word or a whole row is taken from another row of the same sort, which nearly fits.
use crate::calls::Calls;
use crate::limits::{CHANGE, LAST_METRIC, MOST_ROUTES, ROUTE};
use crate::pool::Pool;
use crate::random::Dice;
use crate::words::{rows, Rows, AFTER, BEFORE, METRIC, ORIGIN};

/// The damaged pool, and the lines that make it.
pub fn damaged(pool: &Pool, dice: &mut Dice) -> (Pool, Vec<String>) {
    let mut hurt = Hurt { pool: pool.clone(), lines: vec![] };
    for _ in 0..dice.of(&[1, 1, 1, 2, 3, 6]) {
        match dice.below(9) {
            0..=2 => hurt.change(dice),
            3..=4 => hurt.copy_word(dice),
            5..=6 => hurt.swap_words(dice),
            7 => hurt.copy_row(dice),
            _ => hurt.origin(dice),
        }
    }
    (hurt.pool, hurt.lines)
}

struct Hurt {
    pool: Pool,
    lines: Vec<String>,
}

impl Hurt {
    fn word(&self, place: usize) -> u32 {
        self.pool.words_lent()[place]
    }

    fn poke(&mut self, place: usize, word: u32) {
        if self.pool.poke(place as u32, word).is_ok() {
            self.lines.push(format!("poke {place} {word}"));
        }
    }

    /// A row in use of each of two places of one sort, as their first words; None before a table is made.
    fn two_rows(&self, dice: &mut Dice) -> Option<(Rows, usize, usize)> {
        if self.pool.size() == 0 {
            return None;
        }
        let sort = dice.of(&rows(self.word(0) as usize));
        let used: Vec<usize> = (0..sort.count).map(|i| sort.at(i)).filter(|&at| self.word(at) != 0).collect();
        if used.is_empty() {
            return None;
        }
        // now and then a row that is not in use, which should not matter or must be seen
        let any = sort.at(dice.below(sort.count as u32) as usize);
        let other = dice.of(&used);
        Some((sort, if dice.one_in(4) { any } else { dice.of(&used) }, other))
    }

    /// One word, by a little or to anything.
    fn change(&mut self, dice: &mut Dice) {
        let field = self.two_rows(dice).map(|(sort, row, _)| row + dice.below(sort.length as u32) as usize);
        let head = dice.below(8) as usize;
        let any = dice.below(self.pool.words_lent().len() as u32) as usize;
        let place = dice.of(&[field.unwrap_or(head), field.unwrap_or(any), field.unwrap_or(any), head, any]);
        let old = self.word(place);
        let bit = 1 << dice.below(32);
        // a port, a length, a bit, a link to a place of the pool or to one just behind it
        let small = dice.below(2 * MOST_ROUTES + 8);
        let wild = dice.draw() as u32;
        let word = dice.of(&[old.wrapping_add(1), old.wrapping_sub(1), old ^ bit, small, small % 5, wild, 0, u32::MAX]);
        self.poke(place, word);
    }

    /// The origin of a route, or of one side of a change: both its words at once, since most often only together they are good.
    fn origin(&mut self, dice: &mut Dice) {
        let Some((sort, row, _)) = self.two_rows(dice) else { return };
        let payload = match sort.length {
            ROUTE => row,
            CHANGE => row + dice.of(&[BEFORE, AFTER]),
            _ => return,
        };
        let wild = dice.draw() as u32;
        self.poke(payload + ORIGIN, dice.of(&[0, 1, 1, 1, 2, wild]));
        self.poke(payload + METRIC, dice.of(&[0, 1, LAST_METRIC, LAST_METRIC + 1, wild]));
    }

    fn copy_word(&mut self, dice: &mut Dice) {
        if let Some((sort, to, from)) = self.two_rows(dice) {
            let field = dice.below(sort.length as u32) as usize;
            self.poke(to + field, self.word(from + field));
        }
    }

    fn swap_words(&mut self, dice: &mut Dice) {
        if let Some((sort, one, other)) = self.two_rows(dice) {
            // the same field of both, or any two: the two links of an inner place, say
            let field = dice.below(sort.length as u32) as usize;
            let second = if dice.one_in(2) { field } else { dice.below(sort.length as u32) as usize };
            let (a, b) = (one + field, other + second);
            let (at_a, at_b) = (self.word(a), self.word(b));
            self.poke(a, at_b);
            self.poke(b, at_a);
        }
    }

    fn copy_row(&mut self, dice: &mut Dice) {
        if let Some((sort, to, from)) = self.two_rows(dice) {
            for i in 0..sort.length {
                if self.word(to + i) != self.word(from + i) {
                    self.poke(to + i, self.word(from + i));
                }
            }
        }
    }
}
