//! What stands in the words of a pool, after docs/POOL.md. The words may be anything: each link is tested before it is
//! followed and no place is drawn twice, so the reading ends, and what is damaged is told where it stands.
use crate::limits::{size, HEAD, INNER, MOST_CHANGES, MOST_ROUTES, PAYLOAD, ROUTE};
use crate::route::{mask, Route};
use std::fmt;

/// How far behind the beginning of a route place its next link stands: behind the payload and the prefix.
const NEXT: usize = PAYLOAD + 2;

#[derive(Clone, Copy, PartialEq)]
pub enum Place {
    Route(usize),
    Inner(usize),
}

impl fmt::Display for Place {
    fn fmt(&self, out: &mut fmt::Formatter) -> fmt::Result {
        match self {
            Place::Route(i) => write!(out, "route place {i}"),
            Place::Inner(j) => write!(out, "inner place {j}"),
        }
    }
}

pub enum Node {
    /// An inner place: the bit that it tests, and what hangs on its left, for 0, and on its right, for 1.
    Inner { place: usize, bit: u32, sides: Box<[Node; 2]>, faults: Vec<String> },
    /// The routes of one address.
    Leaf(Vec<Route>),
    /// A link that leads to nothing that could be drawn, and why.
    Broken(String),
}

pub struct Pool {
    /// What there is to say of the pool as a whole, a line for each.
    pub head: Vec<String>,
    /// What is damaged and stands at no node of the tree.
    pub faults: Vec<String>,
    pub root: Option<Node>,
}

/// The words of the largest pool, so that no capacity that a table may have leads past them.
pub type Words = [u32; size(MOST_ROUTES)];

pub fn read(words: &Words, sound: bool) -> Pool {
    let capacity = words[0];
    if !(1..=MOST_ROUTES).contains(&capacity) {
        let fault = format!("word 0 says capacity {capacity}, and a table has 1 to {MOST_ROUTES}: nothing to draw");
        return Pool { head: vec![sound_text(sound)], faults: vec![fault], root: None };
    }
    let mut reader = Reader { words, capacity: capacity as usize, seen: vec![] };
    let root = (words[2] != 0).then(|| reader.node(words[2], None));
    let mut pool = Pool { head: reader.head(sound), faults: reader.faults(), root };
    if !sound && pool.faults.is_empty() && pool.tree_faults().is_empty() {
        pool.faults.push("the tree is in order: it is the changes of the trial that could not be taken back".to_string());
    }
    pool
}

fn sound_text(sound: bool) -> String {
    format!("sound: {}", if sound { "yes" } else { "no" })
}

impl Pool {
    /// What is damaged in the tree, behind the place where it stands.
    pub fn tree_faults(&self) -> Vec<String> {
        self.root.iter().flat_map(|root| root.faults("the root")).collect()
    }
}

impl Node {
    /// A broken link stands in the place above it.
    fn faults(&self, above: &str) -> Vec<String> {
        let at = |place: &str, faults: &[String]| -> Vec<String> {
            faults.iter().map(|fault| format!("{place}: {fault}")).collect()
        };
        match self {
            Node::Inner { place, sides, faults, .. } => {
                let place = Place::Inner(*place).to_string();
                let below = sides.iter().flat_map(|side| side.faults(&place)).collect();
                [at(&place, faults), below].concat()
            }
            Node::Leaf(routes) => routes.iter().flat_map(|r| at(&Place::Route(r.place).to_string(), &r.faults)).collect(),
            Node::Broken(fault) => vec![format!("{above}: {fault}")],
        }
    }

    /// The addresses of the leaves at and below this node.
    fn addresses(&self) -> Vec<u32> {
        match self {
            Node::Inner { sides, .. } => sides.iter().flat_map(Node::addresses).collect(),
            Node::Leaf(routes) => routes.iter().map(|route| route.address).collect(),
            Node::Broken(_) => vec![],
        }
    }
}

struct Reader<'a> {
    words: &'a Words,
    capacity: usize,
    // the places that the tree has so far
    seen: Vec<Place>,
}

impl Reader<'_> {
    fn row(&self, place: Place) -> &[u32] {
        match place {
            Place::Route(i) => &self.words[HEAD + ROUTE * i..][..ROUTE],
            Place::Inner(j) => &self.words[HEAD + ROUTE * self.capacity + INNER * j..][..INNER],
        }
    }

    /// A place is free while its first word, a route's kind or an inner place's mark, is 0.
    fn is_free(&self, place: Place) -> bool {
        self.row(place)[0] == 0
    }

    /// The place that a link leads to, if it can be drawn there.
    fn follow(&mut self, link: u32) -> Result<Place, String> {
        let index = (link.checked_sub(1).ok_or("link 0: nothing hangs here")? / 2) as usize;
        if index >= self.capacity {
            return Err(format!("link {link} leads out of the pool"));
        }
        let place = if link % 2 == 1 { Place::Route(index) } else { Place::Inner(index) };
        if self.is_free(place) {
            return Err(format!("link {link} leads to {place}, which is free"));
        }
        if self.seen.contains(&place) {
            return Err(format!("link {link} leads to {place} once more"));
        }
        self.seen.push(place);
        Ok(place)
    }

    fn node(&mut self, link: u32, above: Option<u32>) -> Node {
        match self.follow(link) {
            Ok(Place::Route(i)) => self.leaf(i),
            Ok(Place::Inner(j)) => self.inner(j, above),
            Err(fault) => Node::Broken(fault),
        }
    }

    fn inner(&mut self, place: usize, above: Option<u32>) -> Node {
        let row = self.row(Place::Inner(place));
        let (bit, left, right) = (row[0] - 1, row[1], row[2]);
        let sides = Box::new([self.node(left, Some(bit)), self.node(right, Some(bit))]);
        let faults = inner_faults(bit, above, &sides);
        Node::Inner { place, bit, sides, faults }
    }

    fn leaf(&mut self, first: usize) -> Node {
        let mut routes: Vec<Route> = vec![];
        let mut at = Some(first);
        while let Some(place) = at {
            let row = self.row(Place::Route(place));
            let (mut route, next) = (Route::read(place, row), row[NEXT]);
            route.faults.extend(routes.last().and_then(|before| route.fault_behind(before)));
            at = match self.next(next) {
                Ok(next) => next,
                Err(fault) => {
                    route.faults.push(format!("its next {fault}"));
                    None
                }
            };
            routes.push(route);
        }
        Node::Leaf(routes)
    }

    /// The route place that a next link leads to; None at the end of a chain.
    fn next(&mut self, link: u32) -> Result<Option<usize>, String> {
        match (link, link % 2) {
            (0, _) => Ok(None),
            (_, 0) => Err(format!("link {link} leads to no route place")),
            _ => self.follow(link).map(|_| Some((link / 2) as usize)),
        }
    }

    fn free(&self, sort: fn(usize) -> Place) -> String {
        let free = (0..self.capacity).filter(|&i| self.is_free(sort(i))).count();
        format!("{free} of {}", self.capacity)
    }

    fn head(&self, sound: bool) -> Vec<String> {
        let trial = match (self.words[3], self.words[4]) {
            (0, _) => "none open".to_string(),
            (_, 1) => "open, 1 change standing".to_string(),
            (_, standing) => format!("open, {standing} changes standing"),
        };
        vec![
            format!("routes: {} of {}", self.words[1], self.capacity),
            format!("free: {} route places, {} inner places", self.free(Place::Route), self.free(Place::Inner)),
            format!("trial: {trial}"),
            sound_text(sound),
        ]
    }

    /// What is wrong with the head's words, and the places that are used and in no tree.
    fn faults(&self) -> Vec<String> {
        let held = self.seen.iter().filter(|place| matches!(place, Place::Route(_))).count();
        let (routes, trial, standing) = (self.words[1], self.words[3], self.words[4]);
        let lines = [
            (routes as usize != held, format!("word 1 says {routes} routes, and the tree has {held}")),
            (trial > 1, format!("word 3 says {trial}, and a trial is 0 or 1")),
            (standing as usize > MOST_CHANGES, format!("word 4 says {standing} changes, and at most {MOST_CHANGES} stand")),
            (trial == 0 && standing > 0, format!("word 4 says {standing} changes, and no trial is open")),
        ];
        let head = lines.into_iter().filter(|line| line.0).map(|line| line.1);
        let places = (0..self.capacity).map(Place::Route).chain((0..self.capacity).map(Place::Inner));
        let lost = places.filter(|place| !self.is_free(*place) && !self.seen.contains(place));
        head.chain(lost.map(|place| format!("{place} is neither free nor in the tree"))).collect()
    }
}

/// The tested bit grows from parent to child; the addresses below share the bits before it, have 0 there on the left and 1 on
/// the right.
fn inner_faults(bit: u32, above: Option<u32>, sides: &[Node; 2]) -> Vec<String> {
    if bit > 31 {
        return vec![format!("its mark is {}, and a bit's mark is 1 to 32", bit + 1)];
    }
    let [left, right] = [0, 1].map(|side| sides[side].addresses());
    let has = |address: &u32, value: u32| address >> (31 - bit) & 1 == value;
    let aside = !left.iter().all(|a| has(a, 0)) || !right.iter().all(|a| has(a, 1));
    let all = [left, right].concat();
    let parted = all.iter().any(|a| (a ^ all[0]) & mask(bit) != 0);
    let lines = [
        (above.is_some_and(|above| above >= bit), "not beyond the bit above it"),
        (aside, "an address hangs on the wrong side"),
        (parted, "the addresses below part before this bit"),
    ];
    lines.into_iter().filter(|line| line.0).map(|line| line.1.to_string()).collect()
}
