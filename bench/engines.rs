//! What is measured: the proved table behind its C interface, and two lists of routes that try every route. Each lookup is a
//! call that is not inlined and writes the route out, as the table's is.
use crate::limits::{size, MOST_ROUTES};
use crate::tables::{mask, Route};

pub trait Engine {
    /// 0 and the route written, or 13.
    fn lookup(&self, to: u32, route: &mut Route) -> u32;
}

mod c {
    extern "C" {
        pub fn rishavand_fresh(pool: *mut u32, words: usize, capacity: u32) -> u32;
        pub fn rishavand_sound(pool: *const u32, words: usize) -> u32;
        pub fn rishavand_add(pool: *mut u32, words: usize, at: u32, length: u32, kind: u32, port: u32, gateway: u32) -> u32;
        pub fn rishavand_delete(pool: *mut u32, words: usize, at: u32, length: u32) -> u32;
        pub fn rishavand_lookup(pool: *const u32, words: usize, destination: u32, route: *mut u32) -> u32;
    }
}

/// The proved table. Every pointer that it hands over is that of its own words.
pub struct Table {
    words: Vec<u32>,
}

impl Table {
    pub fn new(routes: &[Route]) -> Table {
        let mut table = Table { words: vec![0; size(MOST_ROUTES)] };
        let made = unsafe { c::rishavand_fresh(table.words.as_mut_ptr(), table.words.len(), MOST_ROUTES) };
        assert_eq!(made, 0, "fresh");
        for route in routes {
            assert_eq!(table.add(route), 0, "add {route:?}");
        }
        table
    }

    pub fn add(&mut self, &[address, length, kind, port, gateway, ..]: &Route) -> u32 {
        unsafe { c::rishavand_add(self.words.as_mut_ptr(), self.words.len(), address, length, kind, port, gateway) }
    }

    pub fn delete(&mut self, route: &Route) -> u32 {
        unsafe { c::rishavand_delete(self.words.as_mut_ptr(), self.words.len(), route[0], route[1]) }
    }

    pub fn sound(&self) -> u32 {
        unsafe { c::rishavand_sound(self.words.as_ptr(), self.words.len()) }
    }
}

impl Engine for Table {
    fn lookup(&self, to: u32, route: &mut Route) -> u32 {
        unsafe { c::rishavand_lookup(self.words.as_ptr(), self.words.len(), to, route.as_mut_ptr()) }
    }
}

/// A list that makes each route's mask as it goes.
pub struct Scan(pub Vec<Route>);

/// A list with each route's mask beside it.
pub struct StoredScan(Vec<(u32, Route)>);

impl StoredScan {
    pub fn new(routes: &[Route]) -> StoredScan {
        StoredScan(routes.iter().map(|&route| (mask(route[1]), route)).collect())
    }
}

fn write(best: Option<&Route>, route: &mut Route) -> u32 {
    let Some(found) = best else { return 13 };
    *route = *found;
    0
}

impl Engine for Scan {
    #[inline(never)]
    fn lookup(&self, to: u32, route: &mut Route) -> u32 {
        let mut best: Option<&Route> = None;
        for tried in &self.0 {
            if to & mask(tried[1]) == tried[0] && best.is_none_or(|b| b[1] < tried[1]) {
                best = Some(tried);
            }
        }
        write(best, route)
    }
}

impl Engine for StoredScan {
    #[inline(never)]
    fn lookup(&self, to: u32, route: &mut Route) -> u32 {
        let mut best: Option<&Route> = None;
        for (word, tried) in &self.0 {
            if to & word == tried[0] && best.is_none_or(|b| b[1] < tried[1]) {
                best = Some(tried);
            }
        }
        write(best, route)
    }
}
