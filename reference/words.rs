//! A second soundness test, from docs/POOL.md and the rules' sentences about a sound pool and not from the proved one: it
//! gathers the whole tree first and then tests each sentence by brute force.
use crate::limits::{size, CHANGE, HEAD, INNER, MOST_CHANGES, MOST_ROUTES, PAYLOAD, ROUTE};
use crate::rules::{mask, Hop, Origin, Prefix, Route};

/// A payload: kind, port, gateway, origin, metric.
pub const PORT: usize = 1;
pub const GATEWAY: usize = 2;
pub const ORIGIN: usize = 3;
pub const METRIC: usize = 4;
/// A route place: its payload, then these.
pub const ADDRESS: usize = PAYLOAD;
pub const LENGTH: usize = PAYLOAD + 1;
pub const NEXT: usize = PAYLOAD + 2;
/// A change: action, address, length, then the payload before it and the one after it.
pub const BEFORE: usize = 3;
pub const AFTER: usize = BEFORE + PAYLOAD;

/// A stretch of equal rows in the words of a pool.
#[derive(Clone, Copy, PartialEq)]
pub struct Rows {
    pub base: usize,
    pub length: usize,
    pub count: usize,
}

/// The route places, the inner places and the changes.
pub const fn rows(capacity: usize) -> [Rows; 3] {
    let routes = Rows { base: HEAD, length: ROUTE, count: capacity };
    let inners = Rows { base: routes.at(capacity), length: INNER, count: capacity };
    let changes = Rows { base: inners.at(capacity), length: CHANGE, count: MOST_CHANGES };
    [routes, inners, changes]
}

impl Rows {
    /// The first word of row i.
    pub const fn at(&self, i: usize) -> usize {
        self.base + self.length * i
    }

    fn row<'a>(&self, words: &'a [u32], i: usize) -> &'a [u32] {
        &words[self.at(i)..][..self.length]
    }
}

/// The routes that the words hold, in walk order, if they are a sound pool.
pub fn routes_if_sound(words: &[u32]) -> Option<Vec<Route>> {
    let capacity = *words.first()?;
    let good = (1..=MOST_ROUTES).contains(&capacity) && words.len() >= size(capacity);
    if !good || words[1] > capacity || words[3] > 1 || words[4] > MOST_CHANGES as u32 || (words[3] == 0 && words[4] > 0) {
        return None;
    }
    let capacity = capacity as usize;
    let mut tree = Tree { words, capacity, routes: vec![], route_places: vec![], inner_places: vec![] };
    if words[2] != 0 {
        tree.gather(words[2])?;
    }
    tree.routes.sort_by_key(|route| route.prefix.rank());
    let fits = tree.routes.len() == words[1] as usize && tree.places_are_used_or_free();
    (fits && can_take_back(words, capacity, tree.routes.clone())).then_some(tree.routes)
}

struct Tree<'a> {
    words: &'a [u32],
    capacity: usize,
    routes: Vec<Route>,
    route_places: Vec<usize>,
    inner_places: Vec<usize>,
}

impl Tree<'_> {
    /// The addresses of the leaves at a link. A place that was there before ends it, so it ends on any words.
    fn gather(&mut self, link: u32) -> Option<Vec<u32>> {
        let place = (link.checked_sub(1)? / 2) as usize;
        if place >= self.capacity {
            return None;
        }
        if link % 2 == 1 {
            return self.leaf(place).map(|address| vec![address]);
        }
        let row = rows(self.capacity)[1].row(self.words, place);
        if self.inner_places.contains(&place) || !(1..=32).contains(&row[0]) {
            return None;
        }
        self.inner_places.push(place);
        let left = self.gather(row[1])?;
        let right = self.gather(row[2])?;
        let bit = row[0] - 1;
        let has = |address: &u32, value: u32| address >> (31 - bit) & 1 == value;
        let sides = left.iter().all(|a| has(a, 0)) && right.iter().all(|a| has(a, 1));
        let all = [left, right].concat();
        let share = all.iter().all(|a| (a ^ all[0]) & mask(bit) == 0);
        (sides && share).then_some(all)
    }

    /// The routes of one address, longest first.
    fn leaf(&mut self, first: usize) -> Option<u32> {
        let mut place = first;
        let mut last: Option<Prefix> = None;
        loop {
            if place >= self.capacity || self.route_places.contains(&place) {
                return None;
            }
            self.route_places.push(place);
            let row = rows(self.capacity)[0].row(self.words, place);
            let route = good_route(good_prefix(row[ADDRESS], row[LENGTH])?, row)?;
            if last.is_some_and(|p| p.address != route.prefix.address || p.length <= route.prefix.length) {
                return None;
            }
            last = Some(route.prefix);
            self.routes.push(route);
            match row[NEXT] {
                0 => return Some(route.prefix.address),
                next if next % 2 == 1 => place = (next / 2) as usize,
                _ => return None,
            }
        }
    }

    /// A place is marked exactly when the tree has it.
    fn places_are_used_or_free(&self) -> bool {
        let [routes, inners, _] = rows(self.capacity);
        (0..self.capacity).all(|i| {
            let route = routes.row(self.words, i)[0] != 0;
            let inner = inners.row(self.words, i)[0] != 0;
            route == self.route_places.contains(&i) && inner == self.inner_places.contains(&i)
        })
    }
}

fn good_prefix(address: u32, length: u32) -> Option<Prefix> {
    Some(Prefix { address, length }).filter(|prefix| prefix.well_formed())
}

/// The route of a prefix and of the payload that begins the words. What a hop or an origin does not use is not looked at.
fn good_route(prefix: Prefix, payload: &[u32]) -> Option<Route> {
    let hop = match payload[0] {
        1 => Hop::Direct(payload[PORT]),
        2 => Hop::Via(payload[PORT], payload[GATEWAY]),
        3 => Hop::Reject,
        _ => return None,
    };
    let origin = match payload[ORIGIN] {
        0 => Origin::Fixed,
        1 => Origin::Learned(payload[METRIC]),
        _ => return None,
    };
    Some(Route { prefix, hop, origin }).filter(|_| hop.good() && origin.good())
}

/// The changes taken back one by one on a list, newest first.
fn can_take_back(words: &[u32], capacity: usize, mut held: Vec<Route>) -> bool {
    let changes = rows(capacity)[2];
    let mut take_back = |k: usize| {
        let row = changes.row(words, k);
        let prefix = good_prefix(row[1], row[2])?;
        let at = held.iter().position(|route| route.prefix == prefix);
        match row[0] {
            1 => {
                good_route(prefix, &row[AFTER..])?;
                held.remove(at?);
            }
            2 if at.is_none() && held.len() < capacity => held.push(good_route(prefix, &row[BEFORE..])?),
            3 => {
                good_route(prefix, &row[AFTER..])?;
                held[at?] = good_route(prefix, &row[BEFORE..])?;
            }
            _ => return None,
        }
        Some(())
    };
    // every record must be good, and each must go back at its turn
    (0..words[4] as usize).rev().all(|k| take_back(k).is_some())
}
