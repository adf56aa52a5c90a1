//! Pools that are not sound and have a name, some made to keep a careless reader busy for ever, and the sound ones beside them.
//! All have the largest capacity. The words are written after docs/POOL.md and not by the code under test.
mod origins;

use crate::calls::Calls;
use crate::damage;
use crate::limits::{size, HEAD, LAST_METRIC, LAST_PORT, MOST_CHANGES, MOST_ROUTES};
use crate::pool::{Pool, LENT};
use crate::words::{rows, Rows, AFTER, BEFORE, GATEWAY, LENGTH, NEXT, PORT};

const SIZE: usize = size(MOST_ROUTES);
const ROWS: [Rows; 3] = rows(MOST_ROUTES as usize);
/// The last place of either sort.
const LAST: usize = MOST_ROUTES as usize - 1;

/// A route place: kind, port, gateway, origin, metric, address, length, next link.
const fn route_at(i: usize) -> usize {
    ROWS[0].at(i)
}
const DIRECT: u32 = 1;
const VIA: u32 = 2;
const REJECT: u32 = 3;
const FIXED: u32 = 0;
const LEARNED: u32 = 1;

/// An inner place: mark, left link, right link.
const fn inner_at(j: usize) -> usize {
    ROWS[1].at(j)
}
const LEFT: usize = 1;
const RIGHT: usize = 2;

const fn to_route(i: u32) -> u32 {
    2 * i + 1
}

const fn to_inner(j: u32) -> u32 {
    2 * j + 2
}

/// What is wrong with a pool, its words, and how many of them are lent.
type Named = (&'static str, Vec<u32>, usize);

/// Whether every pool is what its name says and owes what any pool owes; a line for each, the name first, for a call that does
/// not come back.
pub fn all_keep() -> bool {
    let said = |due: bool| move |pool| (pool, due);
    let pools = sound().into_iter().map(said(true)).chain(unsound().map(said(false)));
    let kept = pools.map(|((name, words, lent), due)| {
        println!("a pool with {name}:");
        // each seed puts other words past the pool and asks for other addresses
        let wrong = (1..9).find_map(|seed| keeps(&Pool::of(words.clone(), seed).lending(lent), due, seed).err());
        println!("    {}", wrong.as_deref().unwrap_or(if due { "sound, and a table" } else { "not sound, and refused" }));
        wrong.is_none()
    });
    // every pool is tried, also behind one that fails
    kept.filter(|kept| !kept).count() == 0
}

fn keeps(pool: &Pool, due: bool, seed: u64) -> Result<(), String> {
    match pool.sound() == due {
        true => damage::check(pool, seed),
        false => Err(format!("sound says {}", pool.sound())),
    }
}

/// The words of `good` with some of them changed.
fn with(changes: &[(usize, u32)]) -> Vec<u32> {
    changes.iter().fold(good(), |words, &(at, word)| put(words, at, &[word]))
}

fn put(mut words: Vec<u32>, at: usize, row: &[u32]) -> Vec<u32> {
    words[at..][..row.len()].copy_from_slice(row);
    words
}

/// A pool with this many routes and this root link, and these rows.
fn pool(count: u32, root: u32, rows: &[(usize, &[u32])]) -> Vec<u32> {
    let head = put(vec![0; SIZE], 0, &[MOST_ROUTES, count, root]);
    rows.iter().fold(head, |words, (at, row)| put(words, *at, row))
}

/// 0.0.0.0/0, 127.0.0.0/8 and 127.0.0.1/32 in places 0 to 2, the last of them fixed; inner places 0 and 1.
fn good() -> Vec<u32> {
    let rows: [(usize, &[u32]); 5] = [
        (route_at(0), &[VIA, 0, 0x8CFC_0D21, LEARNED, LAST_METRIC, 0, 0]),
        (route_at(1), &[REJECT, 0, 0, LEARNED, 1, 0x7F00_0000, 8]),
        (route_at(2), &[DIRECT, 2, 0, FIXED, 0, 0x7F00_0001, 32]),
        (inner_at(0), &[2, to_route(0), to_inner(1)]),
        (inner_at(1), &[32, to_route(1), to_route(2)]),
    ];
    pool(3, to_inner(0), &rows)
}

fn sound() -> Vec<Named> {
    let standing = standing_good(MOST_CHANGES as u32);
    let whole = |(name, words)| (name, words, LENT);
    let pools = [("three routes", good()), ("as many standing changes as there may be", standing)];
    pools.into_iter().chain(origins::unread()).map(whole).collect()
}

fn unsound() -> impl Iterator<Item = Named> {
    let whole = |(name, words)| (name, words, LENT);
    let one = |(name, at, word)| (name, with(&[(at, word)]), LENT);
    let short = |(name, lent)| (name, good(), lent);
    let words = HEADS.into_iter().chain(PLACES).chain(LINKS).map(one);
    SHORT
        .into_iter()
        .map(short)
        .chain(words)
        .chain(filled().map(whole))
        .chain(shapes().map(whole))
        .chain(trials().map(whole))
        .chain(origins::bad().map(whole))
}

const SHORT: [(&str, usize); 4] = [("a word too few", SIZE - 1), ("the head alone", HEAD), ("one word", 1), ("no word", 0)];

/// The head's numbers.
const HEADS: [(&str, usize, u32); 12] = [
    ("capacity 0", 0, 0),
    ("a capacity above the largest", 0, MOST_ROUTES + 1),
    ("capacity 4294967295", 0, u32::MAX),
    ("a capacity that is one too low for its words", 0, MOST_ROUTES - 1),
    ("a count that is too high", 1, 4),
    ("a count that is too low", 1, 2),
    ("no root link", 2, 0),
    ("a root link to the route place behind the last", 2, to_route(MOST_ROUTES)),
    ("a root link to the inner place behind the last", 2, to_inner(MOST_ROUTES)),
    ("a root link of 4294967295", 2, u32::MAX),
    ("an open-trial word of 2", 3, 2),
    ("a change and no trial open", 4, 1),
];

/// One word of a place.
const PLACES: [(&str, usize, u32); 12] = [
    ("a used route place outside the tree", route_at(LAST), REJECT),
    ("a used inner place outside the tree", inner_at(LAST), 5),
    ("a free route place in the tree", route_at(0), 0),
    ("a free inner place in the tree", inner_at(0), 0),
    ("a kind behind the last", route_at(0), REJECT + 1),
    ("a port behind the last", route_at(2) + PORT, LAST_PORT + 1),
    ("gateway 0", route_at(0) + GATEWAY, 0),
    ("length 33", route_at(2) + LENGTH, 33),
    ("a set bit past the length", route_at(1) + LENGTH, 7),
    ("bit 32", inner_at(1), 33),
    ("a child that tests its parent's bit", inner_at(1), 2),
    ("a node that tests the wrong bit", inner_at(1), 31),
];

/// One link.
const LINKS: [(&str, usize, u32); 4] = [
    ("an inner place that is its own child", inner_at(1) + LEFT, to_inner(1)),
    ("a route that is its own next", route_at(0) + NEXT, to_route(0)),
    ("a next link to an inner place", route_at(0) + NEXT, to_inner(0)),
    ("two links to one leaf", inner_at(0) + RIGHT, to_route(0)),
];

fn filled() -> impl Iterator<Item = (&'static str, Vec<u32>)> {
    [("all words 4294967295", u32::MAX), ("all words 1", 1), ("all words 2", 2)]
        .into_iter()
        .map(|(name, word)| (name, vec![word; SIZE]))
}

/// Trees and chains that are none.
fn shapes() -> impl Iterator<Item = (&'static str, Vec<u32>)> {
    let swapped = with(&[(inner_at(1) + LEFT, to_route(2)), (inner_at(1) + RIGHT, to_route(1))]);
    let cycle = inner(inner(good(), 0, 2, [to_inner(1); 2]), 1, 2, [to_inner(0); 2]);
    // 127.0.0.0/8 and 127.0.0.0/24, and each is the other's next
    let round = put(with(&[(2, to_route(2)), (route_at(1) + NEXT, to_route(2))]), route_at(2), &ROUND);
    [
        ("the two sides of a node swapped", swapped),
        ("a shared subtree below every inner place", shared([to_route(0); 2])),
        ("the same with good leaves on one side", shared([to_route(1), to_route(2)])),
        ("a cycle of inner places with one bit", cycle),
        ("a cycle of inner places with growing bits", long_cycle()),
        ("a chain that goes round", round),
        ("a chain of all route places", long_chain()),
        ("a next link to the place behind the last", beyond()),
    ]
    .into_iter()
}

const ROUND: [u32; 8] = [DIRECT, 2, 0, FIXED, 0, 0x7F00_0000, 24, to_route(1)];

/// The words of an inner place.
fn inner(words: Vec<u32>, j: u32, mark: u32, [left, right]: [u32; 2]) -> Vec<u32> {
    put(words, inner_at(j as usize), &[mark, left, right])
}

/// Both sides of inner places 0 to 30 lead to the next one, and the last one's are given: 2^32 ways down.
fn shared(last: [u32; 2]) -> Vec<u32> {
    let next = |words, j| inner(words, j, j + 1, [to_inner(j + 1); 2]);
    inner((0..31).fold(good(), next), 31, 32, last)
}

/// All inner places in a ring. The bits grow for 32 of them.
fn long_cycle() -> Vec<u32> {
    let child = |j: u32| to_inner((j + 1) % MOST_ROUTES);
    (0..MOST_ROUTES).fold(good(), |words, j| inner(words, j, j % 32 + 1, [child(j); 2]))
}

/// As many routes of one address as there are places, in one chain: more than there are lengths, so they can't all fall.
fn long_chain() -> Vec<u32> {
    let route = |words, i: u32| {
        let next = to_route((i + 1) % MOST_ROUTES);
        put(words, route_at(i as usize), &[REJECT, 0, 0, FIXED, 0, 0, i % 33, next])
    };
    (0..MOST_ROUTES).fold(pool(MOST_ROUTES, to_route(0), &[]), route)
}

/// A chain that goes on to the place behind the last. Its words, those of the inner places 0 and 1, look like a good route
/// 0.0.0.0/0, and a used place outside the tree makes up for the count: nothing else is wrong.
fn beyond() -> Vec<u32> {
    let rows: [(usize, &[u32]); 4] = [
        (route_at(0), &[REJECT, 0, 0, FIXED, 0, 0, 8, to_route(MOST_ROUTES)]),
        (route_at(1), &[REJECT, 0, 0, FIXED, 0, 0xE000_0000, 8]),
        (route_at(5), &[REJECT]),
        (inner_at(0), &[1, to_route(0), to_route(1)]),
    ];
    pool(3, to_inner(0), &rows)
}

/// Standing changes.
fn trials() -> impl Iterator<Item = (&'static str, Vec<u32>)> {
    [
        ("a standing change too many", standing_good(MOST_CHANGES as u32 + 1)),
        ("4294967295 standing changes", standing(u32::MAX)),
        ("a change with action 0", standing(1)),
        ("a change with action 4", change(4, 0x7F00_0001, 32)),
        ("an add of a route that is not there", change(1, 0x0B00_0000, 8)),
        ("a hop change of a route that is not there", change(3, 0x0B00_0000, 8)),
        ("a delete of a route that is there", change(2, 0x7F00_0001, 32)),
        ("a change of a bad prefix", change(2, 0x0B00_0001, 8)),
    ]
    .into_iter()
}

/// An open trial with this many changes standing, in slots that hold 0.
fn standing(count: u32) -> Vec<u32> {
    with(&[(3, 1), (4, count)])
}

/// A change in a slot; both its payloads are reject, and fixed.
fn slot(words: Vec<u32>, k: usize, action: u32, address: u32, length: u32) -> Vec<u32> {
    let head = put(words, ROWS[2].at(k), &[action, address, length]);
    [BEFORE, AFTER].into_iter().fold(head, |words, payload| put(words, ROWS[2].at(k) + payload, &[REJECT, 0, 0, FIXED, 0]))
}

/// The same, where each slot there is has a good change of 127.0.0.1/32 from reject to reject.
fn standing_good(count: u32) -> Vec<u32> {
    (0..MOST_CHANGES).fold(standing(count), |words, k| slot(words, k, 3, 0x7F00_0001, 32))
}

fn change(action: u32, address: u32, length: u32) -> Vec<u32> {
    slot(standing(1), 0, action, address, length)
}
