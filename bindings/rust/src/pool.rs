//! A table in lent words.

use std::net::Ipv4Addr;

use crate::raw::{self, RouteWords};
use crate::trial::Trial;
use crate::types::{Origin, Prefix, Refusal, Route};

/// A sound table in words that are lent whole: nobody else reads or writes them while it lives.
#[derive(Debug)]
pub struct Pool<'a> {
    words: &'a mut [u32],
}

// Every call of the archive is proved for any words and any numbers. What it takes from its caller is that pointers are
// good: each here comes from a slice or an array that Rust lends for the call. Since a pool is sound from the start and
// every call keeps it so, number 9 never comes.
impl<'a> Pool<'a> {
    /// An empty table with no trial open, whatever the words held. Refused: 1, 2.
    pub fn fresh(words: &'a mut [u32], capacity: u32) -> Result<Pool<'a>, Refusal> {
        // SAFETY: `words` is lent for writing.
        let number = unsafe { raw::rishavand_fresh(words.as_mut_ptr(), words.len(), capacity) };
        Refusal::check(number)?;
        Ok(Pool { words })
    }

    /// The table that the words already hold. Refused with 9 if they are no sound pool.
    pub fn open(words: &'a mut [u32]) -> Result<Pool<'a>, Refusal> {
        // SAFETY: `words` is lent for reading.
        match unsafe { raw::rishavand_sound(words.as_ptr(), words.len()) } {
            1 => Ok(Pool { words }),
            _ => Err(Refusal::NotSound),
        }
    }

    /// The words, to keep a copy of.
    pub fn words(&self) -> &[u32] {
        self.words
    }

    /// One route more, by hand or learned as its origin says. Refused: 3, 4, 16, 5, 8, 7.
    pub fn add(&mut self, route: Route) -> Result<(), Refusal> {
        let (kind, port, gateway) = route.hop.words();
        let (address, length) = (route.prefix.word(), route.prefix.length);
        // SAFETY: `call` hands over the lent words.
        self.call(|p, n| match route.origin {
            Origin::Fixed => unsafe {
                raw::rishavand_add(p, n, address, length, kind, port, gateway)
            },
            Origin::Learned { metric } => unsafe {
                raw::rishavand_learned_add(p, n, address, length, kind, port, gateway, metric)
            },
        })
    }

    /// Another hop and origin for the route of a prefix: a fixed one by hand, for any route, which is fixed from then on; a
    /// learned one for a learned route alone. Refused: 3, 4, 16, 6, 15, 8.
    pub fn change(&mut self, route: Route) -> Result<(), Refusal> {
        let (kind, port, gateway) = route.hop.words();
        let (address, length) = (route.prefix.word(), route.prefix.length);
        // SAFETY: as in `add`.
        self.call(|p, n| match route.origin {
            Origin::Fixed => unsafe {
                raw::rishavand_change(p, n, address, length, kind, port, gateway)
            },
            Origin::Learned { metric } => unsafe {
                raw::rishavand_learned_change(p, n, address, length, kind, port, gateway, metric)
            },
        })
    }

    /// One route less, by hand: whatever its origin. Refused: 3, 6, 8.
    pub fn delete(&mut self, prefix: Prefix) -> Result<(), Refusal> {
        // SAFETY: as in `add`.
        self.call(|p, n| unsafe { raw::rishavand_delete(p, n, prefix.word(), prefix.length) })
    }

    /// One learned route less. Refused: 3, 6, 15, 8.
    pub fn delete_learned(&mut self, prefix: Prefix) -> Result<(), Refusal> {
        // SAFETY: as in `add`.
        self.call(|p, n| unsafe {
            raw::rishavand_learned_delete(p, n, prefix.word(), prefix.length)
        })
    }

    /// The route with the longest prefix that matches a destination, if any does.
    pub fn lookup(&self, destination: impl Into<Ipv4Addr>) -> Option<Route> {
        let destination = destination.into().into();
        // SAFETY: `ask` hands over the lent words and an array of its own.
        self.ask(|p, n, out| unsafe { raw::rishavand_lookup(p, n, destination, out) })
            .ok()
    }

    /// The next route of the walk after a prefix, held or not. Refused: 3.
    pub fn next_after(&self, prefix: Prefix) -> Result<Option<Route>, Refusal> {
        // SAFETY: as in `lookup`.
        let answer = self.ask(|p, n, out| unsafe {
            raw::rishavand_next(p, n, prefix.word(), prefix.length, out)
        });
        match answer {
            Ok(route) => Ok(Some(route)),
            Err(Refusal::NoFurther) => Ok(None),
            Err(refusal) => Err(refusal),
        }
    }

    /// All routes in the order of the walk: lower addresses first, for one address the longer prefix first. Each step tests
    /// the whole pool, as each call but a lookup does.
    pub fn routes(&self) -> Routes<'_> {
        // SAFETY: as in `lookup`.
        let first = self.ask(|p, n, out| unsafe { raw::rishavand_first(p, n, out) });
        Routes {
            words: self.words,
            next: first.ok(),
        }
    }

    /// How many routes the table still takes.
    pub fn room(&self) -> u32 {
        let mut room = [0];
        // SAFETY: the words are lent for reading, and `room` is one word of this function.
        let number =
            unsafe { raw::rishavand_room(self.words.as_ptr(), self.words.len(), &mut room) };
        Refusal::check(number).expect("a sound pool");
        room[0]
    }

    /// Opens a trial: what is changed through it is taken back when it is dropped, unless it is kept. Refused: 10.
    pub fn trial(&mut self) -> Result<Trial<'_, 'a>, Refusal> {
        self.open_trial()?;
        Ok(Trial::of(self))
    }

    /// The trial that these words were left with, as by a program that stopped in the middle of one. Refused: 11.
    pub fn resume_trial(&mut self) -> Result<Trial<'_, 'a>, Refusal> {
        match self.open_trial() {
            Err(Refusal::TrialIsOpen) => Ok(Trial::of(self)),
            Err(refusal) => Err(refusal),
            Ok(()) => {
                // There was none: the one just opened holds nothing and is closed again.
                drop(Trial::of(self));
                Err(Refusal::NoTrial)
            }
        }
    }

    fn open_trial(&mut self) -> Result<(), Refusal> {
        // SAFETY: as in `add`.
        self.call(|p, n| unsafe { raw::rishavand_open(p, n) })
    }

    /// A call that may change the words.
    pub(crate) fn call(&mut self, f: impl FnOnce(*mut u32, usize) -> u32) -> Result<(), Refusal> {
        Refusal::check(f(self.words.as_mut_ptr(), self.words.len()))
    }

    fn ask(
        &self,
        f: impl FnOnce(*const u32, usize, *mut RouteWords) -> u32,
    ) -> Result<Route, Refusal> {
        ask(self.words, f)
    }
}

/// A call that shows a route.
fn ask(
    words: &[u32],
    f: impl FnOnce(*const u32, usize, *mut RouteWords) -> u32,
) -> Result<Route, Refusal> {
    let mut route = RouteWords::default();
    Refusal::check(f(words.as_ptr(), words.len(), &mut route))?;
    Ok(Route::from_words(route))
}

/// The walk over a pool's routes.
#[derive(Clone, Debug)]
pub struct Routes<'p> {
    words: &'p [u32],
    next: Option<Route>,
}

impl Iterator for Routes<'_> {
    type Item = Route;

    fn next(&mut self) -> Option<Route> {
        let route = self.next?;
        let (address, length) = (route.prefix.word(), route.prefix.length);
        // SAFETY: `ask` hands over the lent words and an array of its own.
        let after = ask(self.words, |p, n, out| unsafe {
            raw::rishavand_next(p, n, address, length, out)
        });
        self.next = after.ok();
        Some(route)
    }
}
