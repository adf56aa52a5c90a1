//! The calls of calls.rs put to the C interface: routes go out and come back as numbers.
use super::{Call, Outcome, Pool, UNWRITTEN};
use crate::calls::Calls;
use crate::interface as c;
use crate::rules::{By, Hop, Origin, Prefix, Route, NO_LENGTH};
use crate::speak::hand;
use std::fmt::Arguments;
use std::net::Ipv4Addr;

/// Kind, port and gateway; a field that the kind does not use must not be looked at.
fn fields(hop: Hop) -> [u32; 3] {
    match hop {
        Hop::Direct(port) => [0, port, UNWRITTEN],
        Hop::Via(port, gateway) => [1, port, gateway],
        Hop::Reject => [2, UNWRITTEN, UNWRITTEN],
    }
}

/// A route as the words of a command, which says nothing of an origin that is fixed.
fn asked(route: &Route) -> String {
    let Route { prefix, hop, origin } = route;
    match origin {
        Origin::Fixed => format!("{prefix} {hop}"),
        Origin::Learned(_) => format!("{prefix} {hop} {origin}"),
    }
}

/// The hop of a kind, a port and a gateway; a field that the kind does not use is 0.
fn hop_of(kind: u32, port: u32, gateway: u32) -> Option<Hop> {
    match (kind, port, gateway) {
        (0, port, 0) => Some(Hop::Direct(port)),
        (1, port, gateway) => Some(Hop::Via(port, gateway)),
        (2, 0, 0) => Some(Hop::Reject),
        _ => None,
    }
}

/// The origin of its word and a metric, which is 0 where it is fixed.
fn origin_of(origin: u32, metric: u32) -> Option<Origin> {
    match (origin, metric) {
        (0, 0) => Some(Origin::Fixed),
        (1, metric) => Some(Origin::Learned(metric)),
        _ => None,
    }
}

impl Pool {
    /// What every call that takes a hop answers to one of this kind, for the kinds that are no hop.
    pub fn with_kind(&mut self, prefix: Prefix, kind: u32, metric: u32) -> [u32; 4] {
        let Prefix { address, length } = prefix;
        let of = format!("of {prefix} by kind {kind}");
        [
            self.change_words(format_args!("add {of}"), |pool, words, _| unsafe {
                c::rishavand_add(pool, words, address, length, kind, 1, 1)
            }),
            self.change_words(format_args!("change {of}"), |pool, words, _| unsafe {
                c::rishavand_change(pool, words, address, length, kind, 1, 1)
            }),
            self.change_words(format_args!("learned add {of}"), |pool, words, _| unsafe {
                c::rishavand_learned_add(pool, words, address, length, kind, 1, 1, metric)
            }),
            self.change_words(format_args!("learned change {of}"), |pool, words, _| unsafe {
                c::rishavand_learned_change(pool, words, address, length, kind, 1, 1, metric)
            }),
        ]
    }

    fn read_route(&self, name: Arguments, call: impl Call) -> Result<Route, u32> {
        let values = self.read_words(name, call)?;
        let [address, length, kind, port, gateway, origin, metric] = values;
        let prefix = Prefix { address, length };
        let (hop, origin) = (hop_of(kind, port, gateway), origin_of(origin, metric));
        if hop.is_none() || origin.is_none() {
            self.complain(format!("{name} gave a route that is none: {values:?}"));
        }
        Ok(Route { prefix, hop: hop.unwrap_or(Hop::Reject), origin: origin.unwrap_or(Origin::Fixed) })
    }
}

impl Calls for Pool {
    fn fresh(&mut self, capacity: u32) -> u32 {
        // it asks nothing of the words that it finds, so all may be others but those that it is to write
        let own = self.words(capacity) as usize;
        self.change_first(own, format_args!("fresh {capacity}"), |pool, words, _| unsafe {
            c::rishavand_fresh(pool, words, capacity)
        })
    }

    fn add(&mut self, route: Route) -> u32 {
        let Prefix { address, length } = route.prefix;
        let [kind, port, gateway] = fields(route.hop);
        self.change_words(format_args!("add {}", asked(&route)), |pool, words, _| match route.origin {
            Origin::Fixed => unsafe { c::rishavand_add(pool, words, address, length, kind, port, gateway) },
            Origin::Learned(metric) => unsafe {
                c::rishavand_learned_add(pool, words, address, length, kind, port, gateway, metric)
            },
        })
    }

    fn change(&mut self, route: Route) -> u32 {
        let Prefix { address, length } = route.prefix;
        let [kind, port, gateway] = fields(route.hop);
        self.change_words(format_args!("change {}", asked(&route)), |pool, words, _| match route.origin {
            Origin::Fixed => unsafe { c::rishavand_change(pool, words, address, length, kind, port, gateway) },
            Origin::Learned(metric) => unsafe {
                c::rishavand_learned_change(pool, words, address, length, kind, port, gateway, metric)
            },
        })
    }

    fn delete(&mut self, prefix: Prefix, by: By) -> u32 {
        let Prefix { address, length } = prefix;
        self.change_words(format_args!("delete {prefix}{}", hand(by)), |pool, words, _| match by {
            By::Plain => unsafe { c::rishavand_delete(pool, words, address, length) },
            By::Learner => unsafe { c::rishavand_learned_delete(pool, words, address, length) },
        })
    }

    fn lookup(&self, destination: u32) -> Result<Route, u32> {
        self.read_route(format_args!("lookup {}", Ipv4Addr::from(destination)), |pool, words, route| unsafe {
            c::rishavand_lookup(pool, words, destination, route)
        })
    }

    fn first(&self) -> Result<Route, u32> {
        self.read_route(format_args!("first"), |pool, words, route| unsafe { c::rishavand_first(pool, words, route) })
    }

    fn next(&self, after: Prefix) -> Result<Route, u32> {
        let Prefix { address, length } = after;
        self.read_route(format_args!("next {after}"), |pool, words, route| unsafe {
            c::rishavand_next(pool, words, address, length, route)
        })
    }

    fn room(&self) -> Result<u32, u32> {
        let room = |pool: *mut u32, words, room| unsafe { c::rishavand_room(pool, words, room) };
        self.read_words(format_args!("room"), room).map(|[room]| room)
    }

    fn mask_length(&self, mask: u32) -> Result<u32, u32> {
        let name = Ipv4Addr::from(mask);
        let answer = self
            .read_words(format_args!("mask {name}"), |_, _, length| unsafe { c::rishavand_mask_length(mask, length) })
            .map(|[length]| length);
        let passed = unsafe { c::rishavand_masked(mask) };
        if passed != answer.unwrap_or(NO_LENGTH) {
            self.complain(format!("masked answers {passed} for {name}, whose length is {answer:?}"));
        }
        answer
    }

    fn open(&mut self) -> u32 {
        self.change_words(format_args!("open"), |pool, words, _| unsafe { c::rishavand_open(pool, words) })
    }

    fn keep(&mut self) -> u32 {
        self.change_words(format_args!("keep"), |pool, words, _| unsafe { c::rishavand_keep(pool, words) })
    }

    fn back_out(&mut self) -> u32 {
        self.change_words(format_args!("back"), |pool, words, _| unsafe { c::rishavand_back_out(pool, words) })
    }

    fn step_back(&mut self) -> u32 {
        self.change_words(format_args!("step"), |pool, words, _| unsafe { c::rishavand_step_back(pool, words) })
    }

    fn sound(&self) -> bool {
        let sound = |pool: *mut u32, words, _: *mut u32| unsafe { c::rishavand_sound(pool, words) };
        let Outcome::<0> { number: says, .. } = self.outcome(self.own(), 0, format_args!("sound"), sound);
        if says > 1 {
            self.complain(format!("sound answered {says}"));
        }
        says == 1
    }

    fn words(&self, capacity: u32) -> u32 {
        unsafe { c::rishavand_words(capacity) as u32 }
    }

    fn peek(&self, place: u32) -> Result<u32, &'static str> {
        self.words.get(place as usize).copied().ok_or("outside the buffer")
    }

    fn poke(&mut self, place: u32, word: u32) -> Result<(), &'static str> {
        *self.words.get_mut(place as usize).ok_or("outside the buffer")? = word;
        Ok(())
    }
}
