//! A safe interface to a proved IPv4 route table.
//!
//! The table is a pool of words that the caller lends. It is proved that each call ends, stays inside the pool and answers
//! what the rules say, whatever the pool holds; this crate adds what the types of Rust can: a [`Pool`] is lent whole and is
//! known to be sound, a [`Route`] can't be a kind of hop that there is not or have an origin that is none, and a [`Trial`] that
//! is not kept is backed out of.
//!
//! ```
//! use rishavand::{words_for, Hop, Pool, Prefix, Route};
//!
//! let mut words = vec![0; words_for(4).unwrap()];
//! let mut pool = Pool::fresh(&mut words, 4)?;
//! let ten = Prefix::new([10, 0, 0, 0], 8);
//! pool.add(Route::new(ten, Hop::Direct { port: 3 }))?;
//! assert_eq!(pool.lookup([10, 1, 2, 3]).unwrap().prefix, ten);
//!
//! let mut trial = pool.trial()?;
//! trial.delete(ten)?;
//! assert!(trial.lookup([10, 1, 2, 3]).is_none());
//! drop(trial);
//! assert!(pool.lookup([10, 1, 2, 3]).is_some());
//! # Ok::<(), rishavand::Refusal>(())
//! ```

mod limits;
mod pool;
mod raw;
mod trial;
mod types;

pub use limits::{
    size, words_for, LARGEST_CAPACITY, LAST_METRIC, LAST_PORT, MOST_CHANGES, MOST_WORDS,
};
pub use pool::{Pool, Routes};
pub use trial::Trial;
pub use types::{mask_length, Hop, Origin, Prefix, Refusal, Route};
