//! The live orders of one symbol and their quote: document 01, "The book".

use crate::answer::Refusal;

/// A symbol has room for this many live orders.
pub(crate) const LIVE_ORDERS: usize = 256;

#[derive(Clone, Copy, PartialEq, Eq, Debug)]
pub enum Side {
    Buy,
    Sell,
}

impl Side {
    /// The side of a message, whose side byte is `B` or `S`.
    pub fn from_byte(byte: u8) -> Side {
        if byte == b'B' {
            Side::Buy
        } else {
            Side::Sell
        }
    }
}

#[derive(Clone, Copy, PartialEq, Eq, Debug)]
pub struct Order {
    pub number: u64,
    pub side: Side,
    pub price: u32,
    pub volume: u32,
}

/// A price with the exact sum of the shares that stand at it.
#[derive(Clone, Copy, PartialEq, Eq, Debug)]
pub struct Level {
    pub price: u32,
    pub size: u64,
}

/// The best level of each side, as it is, crossed or not.
#[derive(Clone, Copy, PartialEq, Eq, Debug, Default)]
pub struct Quote {
    pub bid: Option<Level>,
    pub ask: Option<Level>,
}

/// The live orders of a symbol.
#[derive(Clone, Default)]
pub struct Book {
    orders: Vec<Order>,
}

impl Book {
    /// A live number does not fit; that is found before a lack of room.
    pub fn add(&mut self, order: Order) -> Result<(), Refusal> {
        if self.find(order.number).is_some() {
            return Err(Refusal::Misfit);
        }
        if self.orders.len() >= LIVE_ORDERS {
            return Err(Refusal::Full);
        }
        self.orders.push(order);
        Ok(())
    }

    /// Price and volume of a live order of that side become those given.
    pub fn modify(&mut self, changed: Order) -> Result<(), Refusal> {
        let place = self.find_on_side(changed.number, changed.side)?;
        self.orders[place] = changed;
        Ok(())
    }

    pub fn delete(&mut self, number: u64) -> Result<(), Refusal> {
        let place = self.find(number).ok_or(Refusal::Misfit)?;
        self.orders.swap_remove(place);
        Ok(())
    }

    /// Takes shares off where the order stands; the price of the trade plays no part.
    pub fn execute(&mut self, number: u64, volume: u32) -> Result<(), Refusal> {
        let place = self.find(number).ok_or(Refusal::Misfit)?;
        let order = &mut self.orders[place];
        order.volume = order.volume.checked_sub(volume).ok_or(Refusal::Misfit)?;
        if order.volume == 0 {
            self.orders.swap_remove(place);
        }
        Ok(())
    }

    /// The old order makes way before the new number is looked for, so the new one may have the old
    /// number and finds room in a full book. A refusal leaves the old order where it was.
    pub fn replace(&mut self, old: u64, new: Order) -> Result<(), Refusal> {
        let place = self.find_on_side(old, new.side)?;
        if new.number != old && self.find(new.number).is_some() {
            return Err(Refusal::Misfit);
        }
        self.orders[place] = new;
        Ok(())
    }

    pub fn clear(&mut self) {
        self.orders.clear();
    }

    pub fn quote(&self) -> Quote {
        Quote {
            bid: self.level(Side::Buy, |price, best| price > best),
            ask: self.level(Side::Sell, |price, best| price < best),
        }
    }

    /// The live orders, in no order that matters.
    pub fn orders(&self) -> &[Order] {
        &self.orders
    }

    fn find(&self, number: u64) -> Option<usize> {
        self.orders.iter().position(|order| order.number == number)
    }

    fn find_on_side(&self, number: u64, side: Side) -> Result<usize, Refusal> {
        self.find(number)
            .filter(|&place| self.orders[place].side == side)
            .ok_or(Refusal::Misfit)
    }

    fn level(&self, side: Side, better: fn(u32, u32) -> bool) -> Option<Level> {
        let mut level: Option<Level> = None;
        for order in self.orders.iter().filter(|order| order.side == side) {
            let volume = u64::from(order.volume);
            match &mut level {
                Some(best) if order.price == best.price => best.size += volume,
                Some(best) if !better(order.price, best.price) => {}
                _ => {
                    level = Some(Level {
                        price: order.price,
                        size: volume,
                    })
                }
            }
        }
        level
    }
}
