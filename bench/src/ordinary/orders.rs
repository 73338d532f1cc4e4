//! The live orders of one symbol: document 01, "The book". Each change hashes a number once.

use std::collections::hash_map::{Entry, HashMap};
use std::hash::BuildHasher;

use super::{Answer, Refused};

/// A symbol has room for this many live orders.
pub const LIVE_ORDERS: usize = 256;

#[derive(Clone, Copy, PartialEq, Eq, Debug)]
pub enum Side {
    Buy,
    Sell,
}

#[derive(Clone, Copy)]
pub struct Order {
    pub price: u32,
    pub volume: u32,
    pub side: Side,
}

/// A price and the shares that stand at it.
#[derive(Clone, Copy, PartialEq, Eq, Debug)]
pub struct Level {
    pub price: u32,
    pub size: u64,
}

#[derive(Clone, Copy, PartialEq, Eq, Debug)]
pub struct Quote {
    pub bid: Option<Level>,
    pub ask: Option<Level>,
}

pub struct Orders<S> {
    live: HashMap<u64, Order, S>,
}

impl<S: BuildHasher + Default> Orders<S> {
    /// Room for all is made at once.
    pub fn new() -> Orders<S> {
        Orders {
            live: HashMap::with_capacity_and_hasher(LIVE_ORDERS, S::default()),
        }
    }

    #[inline]
    pub fn add(&mut self, number: u64, order: Order) -> Answer {
        let full = self.live.len() >= LIVE_ORDERS;
        match self.live.entry(number) {
            Entry::Occupied(_) => Err(Refused::Misfit),
            Entry::Vacant(_) if full => Err(Refused::Full),
            Entry::Vacant(place) => {
                place.insert(order);
                Ok(())
            }
        }
    }

    #[inline]
    pub fn modify(&mut self, number: u64, order: Order) -> Answer {
        match self.live.get_mut(&number) {
            Some(live) if live.side == order.side => {
                *live = order;
                Ok(())
            }
            _ => Err(Refused::Misfit),
        }
    }

    #[inline]
    pub fn delete(&mut self, number: u64) -> Answer {
        match self.live.remove(&number) {
            Some(_) => Ok(()),
            None => Err(Refused::Misfit),
        }
    }

    #[inline]
    pub fn execute(&mut self, number: u64, volume: u32) -> Answer {
        let Entry::Occupied(mut place) = self.live.entry(number) else {
            return Err(Refused::Misfit);
        };
        match place.get().volume.checked_sub(volume) {
            Some(0) => {
                place.remove();
            }
            Some(left) => place.get_mut().volume = left,
            None => return Err(Refused::Misfit),
        }
        Ok(())
    }

    /// The old order goes first. It comes back when the new number is live.
    #[inline]
    pub fn replace(&mut self, old: u64, new: u64, order: Order) -> Answer {
        let gone = match self.live.entry(old) {
            Entry::Occupied(place) if place.get().side == order.side => place.remove(),
            _ => return Err(Refused::Misfit),
        };
        if let Entry::Vacant(place) = self.live.entry(new) {
            place.insert(order);
            return Ok(());
        }
        self.live.insert(old, gone);
        Err(Refused::Misfit)
    }

    pub fn clear(&mut self) {
        self.live.clear();
    }

    pub fn quote(&self) -> Quote {
        Quote {
            bid: self.level(Side::Buy, |price, best| price > best),
            ask: self.level(Side::Sell, |price, best| price < best),
        }
    }

    fn level(&self, side: Side, better: fn(u32, u32) -> bool) -> Option<Level> {
        let mut level: Option<Level> = None;
        for order in self.live.values().filter(|order| order.side == side) {
            let (price, size) = (order.price, u64::from(order.volume));
            level = match level {
                Some(best) if better(best.price, price) => Some(best),
                Some(best) if best.price == price => Some(Level {
                    price,
                    size: best.size + size,
                }),
                _ => Some(Level { price, size }),
            };
        }
        level
    }
}
