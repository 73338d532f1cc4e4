//! A feed to time readers on, and an ordinary reader to time them against. See README.md.

pub mod feed;
pub mod ordinary;

/// How many orders a symbol has live, about: a feed is made and timed for each.
pub const LIVE_DEPTHS: [usize; 3] = [40, 116, 193];

/// The seed of the feeds that are timed.
pub const SEED: u64 = 110;
