//! The pools whose origins are damaged: some are not sound for it, and some are sound all the same.
use super::{change, good, put, route_at, FIXED, LEARNED, ROWS};
use crate::limits::LAST_METRIC;
use crate::words::{AFTER, BEFORE, METRIC, ORIGIN};

/// The payloads of the first change.
const BEFORE_0: usize = ROWS[2].at(0) + BEFORE;
const AFTER_0: usize = ROWS[2].at(0) + AFTER;

/// 127.0.0.1/32 was changed.
fn change_of_hop() -> Vec<u32> {
    change(3, 0x7F00_0001, 32)
}

/// Another origin and metric in a payload.
fn origin(words: Vec<u32>, payload: usize, [origin, metric]: [u32; 2]) -> Vec<u32> {
    put(put(words, payload + ORIGIN, &[origin]), payload + METRIC, &[metric])
}

/// The metric would do, so it is the origin that is none.
const NO_ORIGIN: [u32; 2] = [LEARNED + 1, 1];
const METRIC_0: [u32; 2] = [LEARNED, 0];
const METRIC_BEHIND: [u32; 2] = [LEARNED, LAST_METRIC + 1];

/// 127.0.0.1/32, which is there, was added.
fn add() -> Vec<u32> {
    change(1, 0x7F00_0001, 32)
}

/// 11.0.0.0/8, which is not there, was deleted.
fn delete() -> Vec<u32> {
    change(2, 0x0B00_0000, 8)
}

/// A fixed origin does not look at its metric, nor an action at the payload that it does not use.
pub fn unread() -> impl Iterator<Item = (&'static str, Vec<u32>)> {
    let fixed = [FIXED, LAST_METRIC + 1];
    [
        ("a metric that a fixed route does not look at", origin(good(), route_at(2), fixed)),
        ("a metric that a fixed route before a change does not look at", origin(change_of_hop(), BEFORE_0, fixed)),
        ("a metric that a fixed route after a change does not look at", origin(change_of_hop(), AFTER_0, fixed)),
        ("an add with no origin before it", origin(add(), BEFORE_0, NO_ORIGIN)),
        ("a delete with no origin after it", origin(delete(), AFTER_0, NO_ORIGIN)),
    ]
    .into_iter()
}

/// Origins that are none and metrics out of range, in a route and on both sides of a change.
pub fn bad() -> impl Iterator<Item = (&'static str, Vec<u32>)> {
    [
        ("a route with an origin that is none", origin(good(), route_at(2), NO_ORIGIN)),
        ("a learned route of metric 0", origin(good(), route_at(2), METRIC_0)),
        ("a learned route of a metric behind the last", origin(good(), route_at(2), METRIC_BEHIND)),
        ("a learned route of metric 4294967295", origin(good(), route_at(2), [LEARNED, u32::MAX])),
        ("an origin of 4294967295", origin(good(), route_at(2), [u32::MAX, 1])),
        ("a change from an origin that is none", origin(change_of_hop(), BEFORE_0, NO_ORIGIN)),
        ("a change from a learned metric 0", origin(change_of_hop(), BEFORE_0, METRIC_0)),
        ("a change from a learned metric behind the last", origin(change_of_hop(), BEFORE_0, METRIC_BEHIND)),
        ("a change to an origin that is none", origin(change_of_hop(), AFTER_0, NO_ORIGIN)),
        ("a change to a learned metric 0", origin(change_of_hop(), AFTER_0, METRIC_0)),
        ("a change to a learned metric behind the last", origin(change_of_hop(), AFTER_0, METRIC_BEHIND)),
        ("an add of an origin that is none", origin(add(), AFTER_0, NO_ORIGIN)),
        ("an add of a learned metric behind the last", origin(add(), AFTER_0, METRIC_BEHIND)),
        ("a delete of an origin that is none", origin(delete(), BEFORE_0, NO_ORIGIN)),
        ("a delete of a learned metric behind the last", origin(delete(), BEFORE_0, METRIC_BEHIND)),
    ]
    .into_iter()
}
