//! A trial: changes that are taken back unless they are kept.

use std::ops::Deref;

use crate::pool::Pool;
use crate::raw;
use crate::types::{Prefix, Refusal, Route};

/// An open trial. It reads as the pool does and sees its own changes at once. Dropped, it takes all of them back.
#[derive(Debug)]
#[must_use = "a trial that is dropped is backed out of"]
pub struct Trial<'p, 'a> {
    pool: &'p mut Pool<'a>,
    kept: bool,
}

impl<'p, 'a> Trial<'p, 'a> {
    /// The guard of a trial that is open in the pool.
    pub(crate) fn of(pool: &'p mut Pool<'a>) -> Trial<'p, 'a> {
        Trial { pool, kept: false }
    }

    /// As [`Pool::add`], and recorded.
    pub fn add(&mut self, route: Route) -> Result<(), Refusal> {
        self.pool.add(route)
    }

    /// As [`Pool::change`], and recorded.
    pub fn change(&mut self, route: Route) -> Result<(), Refusal> {
        self.pool.change(route)
    }

    /// As [`Pool::delete`], and recorded.
    pub fn delete(&mut self, prefix: Prefix) -> Result<(), Refusal> {
        self.pool.delete(prefix)
    }

    /// As [`Pool::delete_learned`], and recorded.
    pub fn delete_learned(&mut self, prefix: Prefix) -> Result<(), Refusal> {
        self.pool.delete_learned(prefix)
    }

    /// Takes back the newest change; the trial stays open. Refused: 12.
    pub fn step_back(&mut self) -> Result<(), Refusal> {
        // SAFETY: `call` hands over the lent words.
        self.pool
            .call(|p, n| unsafe { raw::rishavand_step_back(p, n) })
    }

    /// Keeps the changes and closes the trial.
    pub fn keep(mut self) {
        // SAFETY: as in `step_back`.
        self.pool
            .call(|p, n| unsafe { raw::rishavand_keep(p, n) })
            .expect("a sound pool with a trial open");
        self.kept = true;
    }

    /// Takes back all changes and closes the trial, as dropping it does.
    pub fn back_out(self) {}
}

impl<'a> Deref for Trial<'_, 'a> {
    type Target = Pool<'a>;

    fn deref(&self) -> &Pool<'a> {
        self.pool
    }
}

impl Drop for Trial<'_, '_> {
    fn drop(&mut self) {
        if self.kept {
            return;
        }
        // SAFETY: as in `step_back`.
        let answer = self
            .pool
            .call(|p, n| unsafe { raw::rishavand_back_out(p, n) });
        // It is proved that backing out of an open trial is never refused; in a drop there is nobody to tell.
        debug_assert!(answer.is_ok() || std::thread::panicking());
    }
}
