//! One registered symbol: its number in turn, whether it is stale, its orders and its record.

use std::cmp::Ordering;
use std::hash::BuildHasher;

use super::orders::{Orders, Quote};
use super::record::Record;
use super::{Answer, Refused};

pub struct Symbol<S> {
    /// Past the last number of 32 bits once that was used.
    expected: u64,
    stale: bool,
    pub orders: Orders<S>,
    pub record: Record<S>,
}

impl<S: BuildHasher + Default> Symbol<S> {
    pub fn new() -> Symbol<S> {
        Symbol {
            expected: 1,
            stale: false,
            orders: Orders::new(),
            record: Record::new(),
        }
    }

    /// The effect of a message, where it is this one's turn.
    #[inline]
    pub fn numbered(&mut self, number: u32, effect: impl FnOnce(&mut Self) -> Answer) -> Answer {
        if self.stale {
            return Err(Refused::Stale);
        }
        match u64::from(number).cmp(&self.expected) {
            Ordering::Less => return Err(Refused::Low),
            Ordering::Greater => return self.become_stale(Refused::Gap),
            Ordering::Equal => {}
        }
        match effect(self) {
            Ok(()) => {
                self.expected += 1;
                Ok(())
            }
            Err(refused) => self.become_stale(refused),
        }
    }

    pub fn clear(&mut self, next: u32) {
        let next = u64::from(next);
        if next != self.expected {
            self.record.lose_mark();
        }
        self.expected = next;
        self.stale = false;
        self.orders.clear();
    }

    pub fn quote(&self) -> Answer<Quote> {
        if self.stale {
            return Err(Refused::Stale);
        }
        Ok(self.orders.quote())
    }

    #[cold]
    fn become_stale(&mut self, refused: Refused) -> Answer {
        self.stale = true;
        self.record.lose_mark();
        Err(refused)
    }
}
