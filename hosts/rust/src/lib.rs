//! The verified reader of the NYSE Pillar Integrated Feed, for Rust hosts.
//!
//! ```no_run
//! let mut book = painterend::Book::new(painterend::NYSE).expect("a market's number");
//! assert_eq!(book.register(7, b"ABC", 4), 0);
//! let bytes = std::fs::read("samples/day").expect("a file of messages");
//! let ended = book.run(&bytes);
//! println!("{} bytes passed, then answer {}", ended.at, ended.answer);
//! if let Some(bid) = book.quote(7).bid {
//!     println!("bid {} x {}", bid.price, bid.size);
//! }
//! ```
//!
//! No call asks for a check beforehand. The numbers answered are listed in `painterend.h`, and a
//! thread that calls should have a stack of 8 MB: [`std::thread`] gives 2 MB unless it is asked.

#![deny(unsafe_code)]

mod answers;
#[allow(unsafe_code)]
pub mod sys;

pub use answers::{Depth, Ended, Level, LevelRow, Passed, Quote, Volume, LEVELS};

/// The market numbers.
pub const NYSE: u16 = 1;
pub const ARCA: u16 = 3;
pub const AMERICAN: u16 = 9;
pub const NATIONAL: u16 = 10;
pub const TEXAS: u16 = 11;

/// The state of one market: up to eight symbols, each with its live orders and its kept trades and
/// crosses. A clone goes its own way.
///
/// The state is large, so it stands on the heap, where a move leaves it.
#[derive(Clone)]
pub struct Book {
    state: Box<sys::State>,
}

impl Book {
    /// A new book of a market, which it keeps for good; none where the number names no market.
    pub fn new(market: u16) -> Option<Book> {
        sys::new(market).map(|state| Book { state })
    }

    /// Registers a symbol under the feed's index, with a price scale of 0 to 6: 0, 11, 12 or 13.
    pub fn register(&mut self, index: u32, name: &[u8], scale: u8) -> u8 {
        sys::register(&mut self.state, index, name, scale)
    }

    /// Passes the one message at the start of the bytes. A host that walks a file goes on behind
    /// [`Passed::at`].
    pub fn apply(&mut self, bytes: &[u8]) -> Passed {
        sys::apply(&mut self.state, bytes)
    }

    /// Passes messages from the start of the bytes until one stops it, as [`Book::apply`] one after
    /// the other, and faster.
    pub fn run(&mut self, bytes: &[u8]) -> Ended {
        sys::run(&mut self.state, bytes)
    }

    /// The best price of each side of a symbol, with its shares.
    pub fn quote(&self, index: u32) -> Quote {
        sys::quote(&self.state, index)
    }

    /// The ten best prices of each side of a symbol, with shares and orders. The first are the quote.
    pub fn depth(&self, index: u32) -> Depth {
        sys::depth(&self.state, index)
    }

    /// The day's volume of a symbol: its kept trades and crosses.
    pub fn volume(&self, index: u32) -> Volume {
        sys::volume(&self.state, index)
    }
}
