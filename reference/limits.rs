//! The numbers of documents 01 and 02 and of docs/POOL.md, each said here and nowhere else in the second program, the fuzzer and the
//! benchmark: whatever follows from one of them is computed.

/// The largest capacity.
pub const MOST_ROUTES: u32 = 512;
/// How many changes of a trial may stand.
pub const MOST_CHANGES: usize = 64;
/// Ports run from 0 to this one.
pub const LAST_PORT: u32 = 15;
/// The metrics of learned routes run from 1 to this one.
pub const LAST_METRIC: u32 = 15;

// How many words each part of a pool takes. A payload is what a route holds besides its prefix: it stands in a route place,
// before the prefix and the next link, and twice in a change.
pub const HEAD: usize = 8;
pub const PAYLOAD: usize = 5;
pub const ROUTE: usize = PAYLOAD + 3;
pub const INNER: usize = 4;
pub const CHANGE: usize = 16;

/// The words that a pool of this capacity takes.
pub const fn size(capacity: u32) -> usize {
    HEAD + (ROUTE + INNER) * capacity as usize + CHANGE * MOST_CHANGES
}
