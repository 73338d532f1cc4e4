//! The maker of the feed, from a seed: what an exchange would send about busy symbols, every message
//! in its turn and fitting. Readers answer 0 to all of it, and 5 to the few messages of a symbol
//! that they have not registered.

mod bodies;
mod events;
mod exchange;
mod kinds;
mod symbol;

use exchange::Exchange;
pub use kinds::{occurrences, TYPES};
use second::wire::{write, Market, Message};
use symbol::Symbol;

/// The symbols that are registered, eight of them; the program knows the first alone.
pub const REGISTERED: [u32; 8] = [7, 11, 5, 23, 1_000, 42, 77, 65_536];
/// A symbol of the feed that no reader registers.
const UNREGISTERED: u32 = 9;
/// Of so many messages one is of the symbol that is not registered.
const UNREGISTERED_RATE: usize = 100;
/// The first of the registered symbols get half of the messages to themselves.
const BUSY: usize = 2;
/// The longest message, a 105.
const LONGEST: usize = 73;

/// A feed of `count` messages about these symbols, with about `depth` live orders each. A longer one
/// of the same seed begins with it.
pub fn feed(seed: u64, depth: usize, registered: &[u32], count: usize) -> Vec<u8> {
    let mut maker = Maker::new(seed, depth, registered);
    let mut bytes = Vec::new();
    for _ in 0..count {
        let message = maker.next();
        let mut room = [0; LONGEST];
        let size = write(Market::Nyse, &message, &mut room).expect("a made message is good");
        bytes.extend(&room[..size]);
    }
    bytes
}

struct Maker {
    exchange: Exchange,
    registered: Vec<Symbol>,
    other: Symbol,
}

impl Maker {
    fn new(seed: u64, depth: usize, registered: &[u32]) -> Maker {
        let mut exchange = Exchange::new(seed);
        let mut symbol = |index: &u32| Symbol::new(*index, depth, &mut exchange);
        let registered = registered.iter().map(&mut symbol).collect();
        let other = symbol(&UNREGISTERED);
        Maker {
            exchange,
            registered,
            other,
        }
    }

    fn next(&mut self) -> Message {
        self.exchange.wait();
        let count = self.registered.len();
        let random = &mut self.exchange.random;
        let symbol = if random.one_in(UNREGISTERED_RATE) {
            &mut self.other
        } else if random.one_in(2) {
            &mut self.registered[random.below(BUSY.min(count))]
        } else {
            &mut self.registered[random.below(count)]
        };
        symbol.next(&mut self.exchange)
    }
}

#[cfg(test)]
mod tests {
    use super::{Maker, REGISTERED};
    use crate::LIVE_DEPTHS;

    #[test]
    fn books_are_about_as_deep_as_asked() {
        for depth in LIVE_DEPTHS {
            let mut maker = Maker::new(1, depth, &REGISTERED);
            let mut live = vec![0; REGISTERED.len()];
            let (fill, looks) = (40_000, 1_000);
            for round in 0..fill + 100 * looks {
                maker.next();
                if round >= fill && round % 100 == 0 {
                    for (sum, symbol) in live.iter_mut().zip(&maker.registered) {
                        *sum += symbol.orders.len();
                    }
                }
            }
            for sum in live {
                let mean = sum as f64 / looks as f64;
                let off = (mean - depth as f64).abs() / depth as f64;
                assert!(off < 0.1, "{mean} live at depth {depth}");
            }
        }
    }
}
