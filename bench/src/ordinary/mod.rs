//! An ordinary reader of the Integrated Feed, written for speed with the standard library alone:
//! document 01's answers and effects on NYSE, each message read where it stands, the orders of a
//! symbol in a `HashMap`. The verified reader's time is measured against this one's.

mod answer;
mod fields;
mod hasher;
mod orders;
mod record;
mod symbol;

use std::collections::hash_map::RandomState;
use std::hash::BuildHasher;

pub use answer::{number, Refused};
use fields::{
    check_conditions, flag, form_n, form_s, side, sized, split_message, u16_at, u32_at, u64_at,
    volume, Head,
};
pub use hasher::Multiplying;
use orders::Order;
pub use orders::{Level, Quote, Side, LIVE_ORDERS};
pub use record::{Trade, KEPT_CROSSES, KEPT_TRADES};
use symbol::Symbol;

/// A reader has room for this many symbols.
pub const SYMBOLS: usize = 8;

/// What a message or question answers.
pub type Answer<T = ()> = Result<T, Refused>;

/// The state of all symbols; `S` hashes the numbers of orders, trades and crosses.
pub struct Reader<S = RandomState> {
    /// Beside the symbols, so that a search for one reads nothing else.
    indices: [u32; SYMBOLS],
    /// A bit for each index that is registered.
    registered: u32,
    symbols: Vec<Symbol<S>>,
}

impl<S: BuildHasher + Default> Reader<S> {
    /// A new state with these symbols registered: at most eight, no two alike.
    pub fn new(indices: &[u32]) -> Reader<S> {
        let mut places = [0; SYMBOLS];
        places[..indices.len()].copy_from_slice(indices);
        Reader {
            indices: places,
            registered: (1 << indices.len()) - 1,
            symbols: indices.iter().map(|_| Symbol::new()).collect(),
        }
    }

    /// Applies messages until none has its extent, and hands back that position with the reason.
    pub fn run(&mut self, bytes: &[u8]) -> (usize, Refused) {
        let mut rest = bytes;
        loop {
            match split_message(rest) {
                Ok((message, after)) => {
                    // a refusal leaves its mark in the state, and the run goes on
                    let _ = self.apply(message);
                    rest = after;
                }
                Err(stop) => return (bytes.len() - rest.len(), stop),
            }
        }
    }

    /// Applies one message, given as exactly its Msg Size of bytes, at least four.
    pub fn apply(&mut self, message: &[u8]) -> Answer {
        match u16_at(message, 2) {
            100 => self.add(sized(message)?),
            101 => self.modify(sized(message)?),
            102 => self.delete(sized(message)?),
            103 => self.execute(sized(message)?),
            104 => self.replace(sized(message)?),
            105 => self.count(form_s(sized::<73>(message)?)?),
            110 => self.trade(sized(message)?),
            111 => self.cross(sized(message)?),
            112 => self.cancel(sized(message)?),
            113 => self.correct(sized(message)?),
            114 => self.count(form_n(sized::<17>(message)?)?),
            32 => self.clear(sized(message)?),
            34 => self.count(form_s(sized::<46>(message)?)?),
            _ => Err(Refused::Type),
        }
    }

    /// The best level of each side.
    pub fn quote(&self, index: u32) -> Answer<Quote> {
        self.symbols[self.place(index)?].quote()
    }

    /// The sum of the kept trades and crosses, and whether the record is whole.
    pub fn volume(&self, index: u32) -> Answer<(u64, bool)> {
        let record = &self.symbols[self.place(index)?].record;
        Ok((record.volume(), record.is_whole()))
    }

    fn add(&mut self, message: &[u8; 39]) -> Answer {
        let head = form_n(message)?;
        let order = Order {
            price: u32_at(message, 24),
            volume: volume(message, 28)?,
            side: side(message, 32)?,
        };
        self.numbered(head, |symbol| symbol.orders.add(u64_at(message, 16), order))
    }

    fn modify(&mut self, message: &[u8; 35]) -> Answer {
        let head = form_n(message)?;
        flag(message, 32)?;
        let order = Order {
            price: u32_at(message, 24),
            volume: volume(message, 28)?,
            side: side(message, 33)?,
        };
        self.numbered(head, |symbol| {
            symbol.orders.modify(u64_at(message, 16), order)
        })
    }

    fn delete(&mut self, message: &[u8; 25]) -> Answer {
        self.numbered(form_n(message)?, |symbol| {
            symbol.orders.delete(u64_at(message, 16))
        })
    }

    fn execute(&mut self, message: &[u8; 42]) -> Answer {
        let head = form_n(message)?;
        let volume = volume(message, 32)?;
        let printable = flag(message, 36)?;
        check_conditions(message, 38)?;
        let price = u32_at(message, 28);
        self.numbered(head, |symbol| {
            symbol.orders.execute(u64_at(message, 16), volume)?;
            if printable {
                let trade = Trade { price, volume };
                symbol.record.keep(u32_at(message, 24), trade);
            }
            Ok(())
        })
    }

    fn replace(&mut self, message: &[u8; 42]) -> Answer {
        let head = form_n(message)?;
        let order = Order {
            price: u32_at(message, 32),
            volume: volume(message, 36)?,
            side: side(message, 40)?,
        };
        self.numbered(head, |symbol| {
            let (old, new) = (u64_at(message, 16), u64_at(message, 24));
            symbol.orders.replace(old, new, order)
        })
    }

    fn trade(&mut self, message: &[u8; 33]) -> Answer {
        let head = form_n(message)?;
        let volume = volume(message, 24)?;
        let printable = flag(message, 28)?;
        check_conditions(message, 29)?;
        let price = u32_at(message, 20);
        self.numbered(head, |symbol| {
            if printable {
                let trade = Trade { price, volume };
                symbol.record.keep(u32_at(message, 16), trade);
            }
            Ok(())
        })
    }

    /// Its volume may be 0.
    fn cross(&mut self, message: &[u8; 29]) -> Answer {
        self.numbered(form_n(message)?, |symbol| {
            let (cross, volume) = (u32_at(message, 16), u32_at(message, 24));
            symbol.record.keep_cross(cross, volume);
            Ok(())
        })
    }

    fn cancel(&mut self, message: &[u8; 20]) -> Answer {
        self.numbered(form_n(message)?, |symbol| {
            symbol.record.cancel(u32_at(message, 16));
            Ok(())
        })
    }

    /// Its volume may be 0.
    fn correct(&mut self, message: &[u8; 24]) -> Answer {
        self.numbered(form_n(message)?, |symbol| {
            let (cross, volume) = (u32_at(message, 16), u32_at(message, 20));
            symbol.record.correct(cross, volume);
            Ok(())
        })
    }

    fn clear(&mut self, message: &[u8; 20]) -> Answer {
        let head = form_s(message)?;
        self.symbol(head.index)?.clear(head.number);
        Ok(())
    }

    /// A type that only uses up its number.
    fn count(&mut self, head: Head) -> Answer {
        self.numbered(head, |_| Ok(()))
    }

    fn numbered(&mut self, head: Head, effect: impl FnOnce(&mut Symbol<S>) -> Answer) -> Answer {
        self.symbol(head.index)?.numbered(head.number, effect)
    }

    fn symbol(&mut self, index: u32) -> Answer<&mut Symbol<S>> {
        let place = self.place(index)?;
        Ok(&mut self.symbols[place])
    }

    /// Looks at all eight places: a search that stopped would be a branch that nobody can foresee.
    fn place(&self, index: u32) -> Answer<usize> {
        let mut found = 0;
        for (place, own) in self.indices.iter().enumerate() {
            found |= u32::from(*own == index) << place;
        }
        found &= self.registered;
        if found == 0 {
            return Err(Refused::Symbol);
        }
        Ok(found.trailing_zeros() as usize)
    }
}
