//! The tables and the addresses that every engine is measured on: the same for all, and the same in every run.
use crate::limits::LAST_PORT;

/// Address, length, kind, port, gateway, origin, metric, as in the C interface. All are fixed: origin and metric are 0. Every
/// engine holds and writes out all seven, though only the proved table makes something of the last two.
pub type Route = [u32; 7];

pub const DEFAULT: Route = [0, 0, 1, 0, 0x8CFC_0D21, 0, 0];

/// How many addresses one pass looks up: enough that no branch is learnt by heart.
const ADDRESSES: usize = 4096;

/// What the routes of a table are like. Of each shape a larger table holds the smaller ones.
#[derive(Clone, Copy, PartialEq)]
pub enum Shape {
    Site,
    Random,
    Deep,
}

pub const SHAPES: [(Shape, &str); 3] = [(Shape::Site, "site"), (Shape::Random, "random"), (Shape::Deep, "deep")];

/// What the addresses of a measurement meet.
#[derive(Clone, Copy, PartialEq)]
pub enum Kind {
    Hits,
    Default,
    Misses,
}

pub const KINDS: [(Kind, &str); 3] = [(Kind::Hits, "hits"), (Kind::Default, "default"), (Kind::Misses, "misses")];

/// Splitmix, from a fixed seed.
struct Dice(u64);

impl Dice {
    fn draw(&mut self) -> u32 {
        self.0 = self.0.wrapping_add(0x9E37_79B9_7F4A_7C15);
        let z = (self.0 ^ self.0 >> 30).wrapping_mul(0xBF58_476D_1CE4_E5B9);
        (z ^ z >> 27).wrapping_mul(0x94D0_49BB_1331_11EB).wrapping_shr(32) as u32
    }

    fn below(&mut self, bound: u32) -> u32 {
        self.draw() % bound
    }
}

pub fn mask(length: u32) -> u32 {
    if length == 0 {
        0
    } else {
        u32::MAX << (32 - length)
    }
}

/// The bit of an address, which is also the side of a tree that it leads to. Bit 0 is the highest.
pub fn side(address: u32, bit: u32) -> usize {
    (address >> (31 - bit) & 1) as usize
}

pub fn matches(route: &Route, to: u32) -> bool {
    to & mask(route[1]) == route[0]
}

/// So many different prefixes as they are drawn, each out of some port.
fn drawn(count: usize, seed: u64, prefix: impl Fn(&mut Dice) -> (u32, u32)) -> Vec<Route> {
    let mut dice = Dice(seed);
    let mut routes: Vec<Route> = vec![];
    while routes.len() < count {
        let (address, length) = prefix(&mut dice);
        let held = routes.iter().any(|r| r[0] == address && r[1] == length);
        if !held {
            let port = dice.below(LAST_PORT + 1);
            routes.push([address, length, 0, port, 0, 0, 0]);
        }
    }
    routes
}

/// A site's table: networks of usual lengths in a few blocks, hosts inside them, nested ones. Only the largest table has
/// addresses with more than one length.
pub fn site(count: usize) -> Vec<Route> {
    let blocks = [10 << 24, 172 << 24 | 16 << 16, 140 << 24 | 252 << 16 | 13 << 8, 127 << 24];
    let lengths = [8, 16, 16, 24, 24, 24, 27, 30, 32, 32, 32, 32];
    drawn(count, 1990, |dice| {
        let block = blocks[dice.below(4) as usize];
        let length = lengths[dice.below(12) as usize];
        ((block | dice.draw() & 0x001F_07FF) & mask(length), length)
    })
}

/// Any address and any length from 8 on. Were there shorter ones too, some would soon match nearly every address, and there
/// would be no misses to speak of; as it is, 512 routes leave most addresses without a match.
fn random(count: usize) -> Vec<Route> {
    drawn(count, 1993, |dice| {
        let length = 8 + dice.below(25);
        (dice.draw() & mask(length), length)
    })
}

/// How many ones the addresses that miss the largest deep table start with. One less would leave it fewer than 512 routes,
/// one more would leave only half as many addresses that miss it.
const SPINE: u32 = 27;

/// The table that a lookup of the proved table has most work with. Its addresses are some ones and then zeros, so the tree is
/// one spine: at each bit, the next ones to the right, and to the left the leaf of the address that has a zero there, with
/// many lengths, none so short that it would leave out that zero. An address of more ones than any of these goes down the
/// whole spine, passes every leaf by, and on the climb tries all their routes in vain.
fn deep(count: usize) -> Vec<Route> {
    let prefixes = (1..=32).flat_map(|length| (0..length.min(SPINE)).map(move |ones| (mask(ones), length)));
    let routes = prefixes.zip(0..).map(|((address, length), i)| [address, length, 0, i % (LAST_PORT + 1), 0, 0, 0]);
    let routes: Vec<Route> = routes.take(count).collect();
    assert_eq!(routes.len(), count, "the deep table can't be as large as that");
    routes
}

/// The bits that an address has to have so that it goes down the whole spine of a deep table.
fn spine(routes: &[Route]) -> u32 {
    let most = routes.iter().map(|r| r[0].leading_ones()).max();
    mask(most.map_or(0, |ones| ones + 1))
}

/// The table for a kind of address: the default route, where it is asked for, is one of the count.
pub fn table(shape: Shape, kind: Kind, count: usize) -> Vec<Route> {
    let make = match shape {
        Shape::Site => site,
        Shape::Random => random,
        Shape::Deep => deep,
    };
    match kind {
        Kind::Default => [vec![DEFAULT], make(count - 1)].concat(),
        _ => make(count),
    }
}

/// Addresses that meet just what the kind says. Half of the misses lie near the table, so that a tree has to go deep. Those
/// of a deep table all go down its spine and differ only past it, so all take the same way: branches are learnt there, and
/// the figure is the best that the table does on it.
pub fn addresses(shape: Shape, kind: Kind, routes: &[Route]) -> Vec<u32> {
    let mut dice = Dice(1990 + routes.len() as u64);
    let longer: Vec<Route> = routes.iter().filter(|r| r[1] > 0).copied().collect();
    let spine = spine(&longer);
    let mut found = vec![];
    while found.len() < ADDRESSES {
        let any = dice.draw();
        let near = longer.get(any as usize % longer.len().max(1)).map_or(any, |r| r[0]);
        let to = match kind {
            Kind::Hits => near | dice.draw() & !mask(longer[any as usize % longer.len()][1]),
            _ if shape == Shape::Deep => any | spine,
            _ if found.len() % 2 == 0 => near ^ 1 << dice.below(32),
            _ => dice.draw(),
        };
        if longer.iter().any(|r| matches(r, to)) == (kind == Kind::Hits) {
            found.push(to);
        }
    }
    found
}
