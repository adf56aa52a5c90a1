//! The rules of a prefix, a hop, an origin and a route, each by its plainest reading: a mask is made bit by bit, a match is a mask and a
//! comparison. Nothing here is shared with the proved table.
use crate::limits::{LAST_METRIC, LAST_PORT};

#[derive(Clone, Copy, PartialEq, Eq, Debug)]
pub struct Prefix {
    pub address: u32,
    pub length: u32,
}

#[derive(Clone, Copy, PartialEq, Eq, Debug)]
pub enum Hop {
    Direct(u32),
    Via(u32, u32),
    Reject,
}

/// Where a route came from; a learned one has its metric.
#[derive(Clone, Copy, PartialEq, Eq, Debug)]
pub enum Origin {
    Fixed,
    Learned(u32),
}

/// Who asks for a change: a plain call may touch any route, a learner's no fixed one.
#[derive(Clone, Copy, PartialEq, Eq, Debug)]
pub enum By {
    Plain,
    Learner,
}

#[derive(Clone, Copy, PartialEq, Eq, Debug)]
pub struct Route {
    pub prefix: Prefix,
    pub hop: Hop,
    pub origin: Origin,
}

/// What stands in for the length of a mask with a hole: no prefix has it, so the call refuses it with 3 in its order.
pub const NO_LENGTH: u32 = 33;

/// The mask of a length, bit by bit, so that no length needs a shift of 32.
pub fn mask(length: u32) -> u32 {
    (0..length).fold(0, |ones, bit| ones | 0x8000_0000 >> bit)
}

/// A mask is good when it is the mask of a length.
pub fn mask_length(word: u32) -> Result<u32, u32> {
    (0..=32).find(|&n| mask(n) == word).ok_or(3)
}

impl Prefix {
    pub fn well_formed(self) -> bool {
        self.length <= 32 && self.address & !mask(self.length) == 0
    }

    pub fn matches(self, destination: u32) -> bool {
        destination & mask(self.length) == self.address
    }

    /// The walk's order: lower address first; for one address the longer prefix first.
    pub fn rank(self) -> (u32, i64) {
        (self.address, -i64::from(self.length))
    }
}

impl Hop {
    pub fn good(self) -> bool {
        match self {
            Hop::Direct(port) => port <= LAST_PORT,
            Hop::Via(port, gateway) => port <= LAST_PORT && gateway != 0,
            Hop::Reject => true,
        }
    }
}

impl Origin {
    pub fn good(self) -> bool {
        match self {
            Origin::Fixed => true,
            Origin::Learned(metric) => (1..=LAST_METRIC).contains(&metric),
        }
    }

    /// Who makes routes of this origin.
    pub fn by(self) -> By {
        match self {
            Origin::Fixed => By::Plain,
            Origin::Learned(_) => By::Learner,
        }
    }
}
