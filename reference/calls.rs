//! The calls that a table answers. The list and, in the fuzzer, the table behind the C interface both have them, so one
//! reader of commands serves both.
use crate::rules::{By, Prefix, Route};

/// Every u32 that is answered alone is a number of the rules; 0 is done. An add or a change of a route whose origin is learned is
/// the learner's.
pub trait Calls {
    fn fresh(&mut self, capacity: u32) -> u32;
    fn add(&mut self, route: Route) -> u32;
    fn change(&mut self, route: Route) -> u32;
    fn delete(&mut self, prefix: Prefix, by: By) -> u32;
    fn lookup(&self, destination: u32) -> Result<Route, u32>;
    fn first(&self) -> Result<Route, u32>;
    fn next(&self, after: Prefix) -> Result<Route, u32>;
    fn room(&self) -> Result<u32, u32>;
    fn mask_length(&self, mask: u32) -> Result<u32, u32>;
    fn open(&mut self) -> u32;
    fn keep(&mut self) -> u32;
    fn back_out(&mut self) -> u32;
    fn step_back(&mut self) -> u32;
    fn sound(&self) -> bool;
    fn words(&self, capacity: u32) -> u32;
    fn peek(&self, place: u32) -> Result<u32, &'static str>;
    fn poke(&mut self, place: u32, word: u32) -> Result<(), &'static str>;
}
