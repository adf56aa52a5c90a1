//! The functions of `include/rishavand.h`. A pool is a pointer to words and their count.

/// A route going out: address, length, kind, port, gateway, origin, metric.
pub type RouteWords = [u32; 7];

extern "C" {
    pub fn rishavand_words(capacity: u32) -> usize;
    pub fn rishavand_fresh(pool: *mut u32, words: usize, capacity: u32) -> u32;
    pub fn rishavand_sound(pool: *const u32, words: usize) -> u32;
    pub fn rishavand_add(
        pool: *mut u32,
        words: usize,
        address: u32,
        length: u32,
        kind: u32,
        port: u32,
        gateway: u32,
    ) -> u32;
    pub fn rishavand_change(
        pool: *mut u32,
        words: usize,
        address: u32,
        length: u32,
        kind: u32,
        port: u32,
        gateway: u32,
    ) -> u32;
    pub fn rishavand_delete(pool: *mut u32, words: usize, address: u32, length: u32) -> u32;
    pub fn rishavand_learned_add(
        pool: *mut u32,
        words: usize,
        address: u32,
        length: u32,
        kind: u32,
        port: u32,
        gateway: u32,
        metric: u32,
    ) -> u32;
    pub fn rishavand_learned_change(
        pool: *mut u32,
        words: usize,
        address: u32,
        length: u32,
        kind: u32,
        port: u32,
        gateway: u32,
        metric: u32,
    ) -> u32;
    pub fn rishavand_learned_delete(pool: *mut u32, words: usize, address: u32, length: u32)
        -> u32;
    pub fn rishavand_lookup(
        pool: *const u32,
        words: usize,
        destination: u32,
        route: *mut RouteWords,
    ) -> u32;
    pub fn rishavand_first(pool: *const u32, words: usize, route: *mut RouteWords) -> u32;
    pub fn rishavand_next(
        pool: *const u32,
        words: usize,
        address: u32,
        length: u32,
        route: *mut RouteWords,
    ) -> u32;
    pub fn rishavand_room(pool: *const u32, words: usize, room: *mut [u32; 1]) -> u32;
    pub fn rishavand_mask_length(mask: u32, length: *mut [u32; 1]) -> u32;
    pub fn rishavand_masked(mask: u32) -> u32;
    pub fn rishavand_open(pool: *mut u32, words: usize) -> u32;
    pub fn rishavand_keep(pool: *mut u32, words: usize) -> u32;
    pub fn rishavand_back_out(pool: *mut u32, words: usize) -> u32;
    pub fn rishavand_step_back(pool: *mut u32, words: usize) -> u32;
}
