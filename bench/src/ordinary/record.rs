//! The kept trades and crosses of one symbol: document 01, "The trade record", and request M-102.

use std::collections::hash_map::{Entry, HashMap};
use std::hash::BuildHasher;

/// A symbol keeps this many trades.
pub const KEPT_TRADES: usize = 128;
/// A symbol keeps this many crosses.
pub const KEPT_CROSSES: usize = 16;

#[derive(Clone, Copy)]
pub struct Trade {
    /// Kept as document 01 has it, though no question asks for it.
    pub price: u32,
    pub volume: u32,
}

pub struct Record<S> {
    trades: HashMap<u32, Trade, S>,
    /// The volume of each cross; its number may be a trade's too.
    crosses: HashMap<u32, u32, S>,
    whole: bool,
}

impl<S: BuildHasher + Default> Record<S> {
    /// Room for all is made at once.
    pub fn new() -> Record<S> {
        Record {
            trades: HashMap::with_capacity_and_hasher(KEPT_TRADES, S::default()),
            crosses: HashMap::with_capacity_and_hasher(KEPT_CROSSES, S::default()),
            whole: true,
        }
    }

    #[inline]
    pub fn keep(&mut self, number: u32, trade: Trade) {
        if self.trades.len() >= KEPT_TRADES {
            return self.lose_mark();
        }
        match self.trades.entry(number) {
            Entry::Occupied(_) => self.whole = false,
            Entry::Vacant(place) => {
                place.insert(trade);
            }
        }
    }

    #[inline]
    pub fn cancel(&mut self, number: u32) {
        if self.trades.remove(&number).is_none() {
            self.lose_mark();
        }
    }

    #[inline]
    pub fn keep_cross(&mut self, number: u32, volume: u32) {
        if self.crosses.len() >= KEPT_CROSSES {
            return self.lose_mark();
        }
        match self.crosses.entry(number) {
            Entry::Occupied(_) => self.whole = false,
            Entry::Vacant(place) => {
                place.insert(volume);
            }
        }
    }

    #[inline]
    pub fn correct(&mut self, number: u32, volume: u32) {
        match self.crosses.get_mut(&number) {
            Some(kept) => *kept = volume,
            None => self.lose_mark(),
        }
    }

    pub fn lose_mark(&mut self) {
        self.whole = false;
    }

    pub fn is_whole(&self) -> bool {
        self.whole
    }

    pub fn volume(&self) -> u64 {
        let trades = self.trades.values().map(|trade| trade.volume);
        let crosses = self.crosses.values().copied();
        trades.chain(crosses).map(u64::from).sum()
    }
}
