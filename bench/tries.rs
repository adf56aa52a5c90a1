//! How many routes a lookup of the proved table tries. It is counted here on the sorted list of routes, by the rule by which
//! the table looks; the table itself does not tell.
use crate::tables::{matches, side, Route};
use std::cmp::Reverse;

/// The routes that are tried before a lookup ends, the one that matches among them. The routes come in the order of the tree's
/// leaves, and those of one leaf with the longest first.
fn tried(sorted: &[Route], to: u32) -> usize {
    let mut part = sorted;
    let mut passed = vec![];
    // down to the leaf, with the left sides that the way passes by
    while part[0][0] != part[part.len() - 1][0] {
        let bit = (part[0][0] ^ part[part.len() - 1][0]).leading_zeros();
        let (left, right) = part.split_at(part.partition_point(|r| side(r[0], bit) == 0));
        part = if side(to, bit) == 0 {
            left
        } else {
            passed.push(left);
            right
        };
    }
    passed.push(part);
    // and up again, to the leftmost leaf of each
    let mut count = 0;
    for route in passed.iter().rev().flat_map(|part| part.iter().take_while(|r| r[0] == part[0][0])) {
        count += 1;
        if matches(route, to) {
            break;
        }
    }
    count
}

/// How many are tried in the mean of these addresses.
pub fn mean(routes: &[Route], addresses: &[u32]) -> f64 {
    let mut sorted = routes.to_vec();
    sorted.sort_by_key(|r| (r[0], Reverse(r[1])));
    let all: usize = addresses.iter().map(|&to| tried(&sorted, to)).sum();
    all as f64 / addresses.len() as f64
}
