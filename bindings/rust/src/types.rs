//! Prefixes, hops, origins, routes and refusals, and how they are printed: as in the table's listing.

use std::error::Error;
use std::fmt;
use std::net::Ipv4Addr;

use crate::limits::{LARGEST_CAPACITY, LAST_METRIC, LAST_PORT, MOST_CHANGES};
use crate::raw::{self, RouteWords};

/// An address and how many of its bits count. Whether the table may hold it is the table's to say: see
/// [`Refusal::BadPrefix`].
#[derive(Clone, Copy, Debug, PartialEq, Eq, Hash)]
pub struct Prefix {
    pub address: Ipv4Addr,
    pub length: u32,
}

impl Prefix {
    /// 0.0.0.0/0, which every address matches.
    pub const DEFAULT: Prefix = Prefix {
        address: Ipv4Addr::UNSPECIFIED,
        length: 0,
    };

    pub fn new(address: impl Into<Ipv4Addr>, length: u32) -> Prefix {
        Prefix {
            address: address.into(),
            length,
        }
    }

    /// The prefix of one address alone.
    pub fn host(address: impl Into<Ipv4Addr>) -> Prefix {
        Prefix::new(address, 32)
    }

    /// A prefix whose length comes as a mask. With a hole in the mask it is a prefix that no call takes: each answers
    /// [`Refusal::BadPrefix`], in its order. [`mask_length`] tells at once whether there is a hole.
    pub fn with_mask(address: impl Into<Ipv4Addr>, mask: impl Into<Ipv4Addr>) -> Prefix {
        // SAFETY: the function takes and answers plain numbers.
        Prefix::new(address, unsafe {
            raw::rishavand_masked(mask.into().into())
        })
    }

    pub(crate) fn word(self) -> u32 {
        self.address.into()
    }
}

/// The length of a mask: its ones. A mask with a hole is [`Refusal::BadPrefix`].
pub fn mask_length(mask: impl Into<Ipv4Addr>) -> Result<u32, Refusal> {
    let mut length = [0];
    // SAFETY: `length` is one word that nothing else refers to.
    let number = unsafe { raw::rishavand_mask_length(mask.into().into(), &mut length) };
    Refusal::check(number)?;
    Ok(length[0])
}

/// Where a route leads.
#[derive(Clone, Copy, Debug, PartialEq, Eq, Hash)]
pub enum Hop {
    /// Straight out of a port.
    Direct { port: u32 },
    /// By a gateway behind a port.
    Via { port: u32, gateway: Ipv4Addr },
    /// Nowhere: an answer like any other, which hides shorter routes.
    Reject,
}

impl Hop {
    const DIRECT: u32 = 0;
    const VIA: u32 = 1;
    const REJECT: u32 = 2;

    /// Kind, port and gateway as the archive takes them.
    pub(crate) fn words(self) -> (u32, u32, u32) {
        match self {
            Hop::Direct { port } => (Hop::DIRECT, port, 0),
            Hop::Via { port, gateway } => (Hop::VIA, port, gateway.into()),
            Hop::Reject => (Hop::REJECT, 0, 0),
        }
    }
}

/// Where a route came from.
#[derive(Clone, Copy, Debug, PartialEq, Eq, Hash)]
pub enum Origin {
    /// It was put there by hand, and a learner leaves it alone.
    Fixed,
    /// It was learned, and leads so far away: a metric from 1 to [`LAST_METRIC`].
    Learned { metric: u32 },
}

impl Origin {
    const LEARNED: u32 = 1;
}

/// A prefix, its hop and its origin.
#[derive(Clone, Copy, Debug, PartialEq, Eq, Hash)]
pub struct Route {
    pub prefix: Prefix,
    pub hop: Hop,
    pub origin: Origin,
}

impl Route {
    /// A fixed route.
    pub fn new(prefix: Prefix, hop: Hop) -> Route {
        Route {
            prefix,
            hop,
            origin: Origin::Fixed,
        }
    }

    /// A learned route.
    pub fn learned(prefix: Prefix, hop: Hop, metric: u32) -> Route {
        Route {
            prefix,
            hop,
            origin: Origin::Learned { metric },
        }
    }

    pub(crate) fn from_words(words: RouteWords) -> Route {
        let [address, length, kind, port, gateway, origin, metric] = words;
        let hop = match kind {
            Hop::DIRECT => Hop::Direct { port },
            Hop::VIA => Hop::Via {
                port,
                gateway: gateway.into(),
            },
            // The archive is proved to write 0, 1 or 2.
            _ => Hop::Reject,
        };
        let prefix = Prefix::new(address, length);
        match origin {
            Origin::LEARNED => Route::learned(prefix, hop, metric),
            // The archive is proved to write 0 or 1.
            _ => Route::new(prefix, hop),
        }
    }
}

/// Why the table says no. [`Refusal::number`] is its number in the table's rules.
#[derive(Clone, Copy, Debug, PartialEq, Eq, Hash)]
#[repr(u32)]
pub enum Refusal {
    /// Capacity 0 or above [`LARGEST_CAPACITY`].
    BadCapacity = 1,
    /// A buffer shorter than needed.
    ShortBuffer = 2,
    /// A length above 32, a set bit past the length, or a mask with a hole.
    BadPrefix = 3,
    /// A port above [`LAST_PORT`], or gateway 0.0.0.0.
    BadHop = 4,
    /// The prefix is already there.
    AlreadyThere = 5,
    /// The prefix is not there.
    NotThere = 6,
    /// The routes held equal the capacity.
    TableFull = 7,
    /// A trial is open with [`MOST_CHANGES`] standing.
    TrialFull = 8,
    /// The pool is not sound, or too short for what it says.
    NotSound = 9,
    /// A trial is already open.
    TrialIsOpen = 10,
    /// No trial is open.
    NoTrial = 11,
    /// A trial is open, and nothing stands in it.
    NothingStanding = 12,
    /// No route matches.
    NoMatch = 13,
    /// There is no further route.
    NoFurther = 14,
    /// A learned change or delete is aimed at a fixed route.
    RouteIsFixed = 15,
    /// A learned metric of 0 or above [`LAST_METRIC`].
    BadMetric = 16,
}

impl Refusal {
    const ALL: [Refusal; 16] = [
        Refusal::BadCapacity,
        Refusal::ShortBuffer,
        Refusal::BadPrefix,
        Refusal::BadHop,
        Refusal::AlreadyThere,
        Refusal::NotThere,
        Refusal::TableFull,
        Refusal::TrialFull,
        Refusal::NotSound,
        Refusal::TrialIsOpen,
        Refusal::NoTrial,
        Refusal::NothingStanding,
        Refusal::NoMatch,
        Refusal::NoFurther,
        Refusal::RouteIsFixed,
        Refusal::BadMetric,
    ];

    /// The number of the refusal.
    pub fn number(self) -> u32 {
        self as u32
    }

    /// What a call answered: nothing to say on 0, else the refusal.
    pub(crate) fn check(number: u32) -> Result<(), Refusal> {
        if number == 0 {
            return Ok(());
        }
        let refusal = Refusal::ALL.into_iter().find(|r| r.number() == number);
        // The archive is proved to answer one of these numbers; another archive is not this table.
        Err(refusal.expect("a number from 0 to 16"))
    }

    fn reason(self, f: &mut fmt::Formatter<'_>) -> fmt::Result {
        match self {
            Refusal::BadCapacity => write!(f, "capacity 0 or above {LARGEST_CAPACITY}"),
            Refusal::ShortBuffer => write!(f, "buffer shorter than needed"),
            Refusal::BadPrefix => {
                write!(
                    f,
                    "length above 32, a set bit past the length, or a mask with a hole"
                )
            }
            Refusal::BadHop => write!(f, "port above {LAST_PORT}, or gateway 0.0.0.0"),
            Refusal::AlreadyThere => write!(f, "prefix already there"),
            Refusal::NotThere => write!(f, "prefix not there"),
            Refusal::TableFull => write!(f, "routes held equal the capacity"),
            Refusal::TrialFull => write!(f, "a trial is open with {MOST_CHANGES} changes standing"),
            Refusal::NotSound => write!(f, "pool not sound, or too short for what it says"),
            Refusal::TrialIsOpen => write!(f, "a trial is already open"),
            Refusal::NoTrial => write!(f, "no trial is open"),
            Refusal::NothingStanding => write!(f, "trial open, nothing standing"),
            Refusal::NoMatch => write!(f, "no route matches"),
            Refusal::NoFurther => write!(f, "no further route"),
            Refusal::RouteIsFixed => {
                write!(f, "a learned change or delete aimed at a fixed route")
            }
            Refusal::BadMetric => write!(f, "learned metric 0 or above {LAST_METRIC}"),
        }
    }
}

impl fmt::Display for Prefix {
    fn fmt(&self, f: &mut fmt::Formatter<'_>) -> fmt::Result {
        write!(f, "{}/{}", self.address, self.length)
    }
}

impl fmt::Display for Hop {
    fn fmt(&self, f: &mut fmt::Formatter<'_>) -> fmt::Result {
        match self {
            Hop::Direct { port } => write!(f, "direct {port}"),
            Hop::Via { port, gateway } => write!(f, "via {port} {gateway}"),
            Hop::Reject => write!(f, "reject"),
        }
    }
}

impl fmt::Display for Origin {
    fn fmt(&self, f: &mut fmt::Formatter<'_>) -> fmt::Result {
        match self {
            Origin::Fixed => write!(f, "fixed 0"),
            Origin::Learned { metric } => write!(f, "learned {metric}"),
        }
    }
}

impl fmt::Display for Route {
    fn fmt(&self, f: &mut fmt::Formatter<'_>) -> fmt::Result {
        write!(f, "{} {} {}", self.prefix, self.hop, self.origin)
    }
}

impl fmt::Display for Refusal {
    fn fmt(&self, f: &mut fmt::Formatter<'_>) -> fmt::Result {
        write!(f, "{}: ", self.number())?;
        self.reason(f)
    }
}

impl Error for Refusal {}
