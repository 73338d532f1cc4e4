//! Messages laid out by document 01's table, and the stack that a host owes.
#![allow(dead_code)] // each test file uses its own part

use std::thread;

use painterend::{Book, Level, Quote, Volume, NYSE};

/// The stack that the header asks of a thread which calls.
const HOST_STACK: usize = 8 << 20;

/// Runs a test on such a thread, since the test harness gives less.
pub fn hosted(test: impl FnOnce() + Send) {
    thread::scope(|scope| {
        let thread = thread::Builder::new().stack_size(HOST_STACK);
        let running = thread.spawn_scoped(scope, test).expect("a thread");
        if let Err(panic) = running.join() {
            std::panic::resume_unwind(panic);
        }
    });
}

/// A new book of NYSE with ABC registered.
pub fn abc_book() -> Book {
    let mut book = Book::new(NYSE).expect("a book of NYSE");
    assert_eq!(book.register(ABC.index, b"ABC", 4), 0);
    book
}

pub const BUY: u8 = b'B';
pub const SELL: u8 = b'S';

/// Conditions that every market lists.
pub const REGULAR: &[u8; 4] = b"@   ";

/// Where an add has its side, and a message its type.
pub const SIDE_OF_ADD: usize = 32;
pub const TYPE: usize = 2;

/// The highest byte of the nanoseconds in form N.
pub const NANOSECONDS_TOP: usize = 7;

/// The first condition of a printed trade.
pub const CONDITIONS_OF_TRADE: usize = 29;

/// The messages of one symbol.
#[derive(Clone, Copy)]
pub struct Symbol {
    pub index: u32,
}

pub const ABC: Symbol = Symbol { index: 7 };

impl Symbol {
    pub fn add(self, number: u32, order: u64, side: u8, price: u32, volume: u32) -> Vec<u8> {
        let (order, price, volume) = (
            &order.to_le_bytes(),
            &price.to_le_bytes(),
            &volume.to_le_bytes(),
        );
        self.numbered(
            100,
            number,
            &[order, price, volume, &[side], b"FIRM1", &[0]],
        )
    }

    pub fn modify(self, number: u32, order: u64, side: u8, price: u32, volume: u32) -> Vec<u8> {
        let (order, price, volume) = (
            &order.to_le_bytes(),
            &price.to_le_bytes(),
            &volume.to_le_bytes(),
        );
        self.numbered(101, number, &[order, price, volume, &[0], &[side], &[0]])
    }

    pub fn delete(self, number: u32, order: u64) -> Vec<u8> {
        self.numbered(102, number, &[&order.to_le_bytes(), &[0]])
    }

    /// Its trade has the message's number.
    pub fn execute(
        self,
        number: u32,
        order: u64,
        price: u32,
        volume: u32,
        printable: u8,
    ) -> Vec<u8> {
        let (trade, order) = (&number.to_le_bytes(), &order.to_le_bytes());
        let (price, volume) = (&price.to_le_bytes(), &volume.to_le_bytes());
        self.numbered(
            103,
            number,
            &[order, trade, price, volume, &[printable], &[0], REGULAR],
        )
    }

    pub fn replace(
        self,
        number: u32,
        order: u64,
        new_order: u64,
        side: u8,
        price: u32,
        volume: u32,
    ) -> Vec<u8> {
        let (order, new_order) = (&order.to_le_bytes(), &new_order.to_le_bytes());
        let (price, volume) = (&price.to_le_bytes(), &volume.to_le_bytes());
        self.numbered(
            104,
            number,
            &[order, new_order, price, volume, &[side], &[0]],
        )
    }

    /// A printed trade that no order shows.
    pub fn trade(self, number: u32, trade: u32, volume: u32, conditions: &[u8; 4]) -> Vec<u8> {
        let (trade, price, volume) = (
            &trade.to_le_bytes(),
            &5u32.to_le_bytes(),
            &volume.to_le_bytes(),
        );
        self.numbered(110, number, &[trade, price, volume, &[1], conditions])
    }

    pub fn cross(self, number: u32, cross: u32, volume: u32) -> Vec<u8> {
        let (cross, price, volume) = (
            &cross.to_le_bytes(),
            &5u32.to_le_bytes(),
            &volume.to_le_bytes(),
        );
        self.numbered(111, number, &[cross, price, volume, b"O"])
    }

    pub fn cancel(self, number: u32, trade: u32) -> Vec<u8> {
        self.numbered(112, number, &[&trade.to_le_bytes()])
    }

    /// A cross correction.
    pub fn correct(self, number: u32, cross: u32, volume: u32) -> Vec<u8> {
        let (cross, volume) = (&cross.to_le_bytes(), &volume.to_le_bytes());
        self.numbered(113, number, &[cross, volume])
    }

    pub fn clear(self, next: u32) -> Vec<u8> {
        let fields = [
            &34_200u32.to_le_bytes()[..],
            &NANOSECONDS,
            &self.index.to_le_bytes(),
            &next.to_le_bytes(),
        ];
        message(32, &fields)
    }

    fn numbered(self, kind: u16, number: u32, fields: &[&[u8]]) -> Vec<u8> {
        let head = [
            &NANOSECONDS[..],
            &self.index.to_le_bytes(),
            &number.to_le_bytes(),
        ];
        message(kind, &[&head, fields].concat())
    }
}

const NANOSECONDS: [u8; 4] = 125u32.to_le_bytes();

/// A message of some type, its size worked out.
pub fn message(kind: u16, fields: &[&[u8]]) -> Vec<u8> {
    let rest = fields.concat();
    let size = u16::try_from(4 + rest.len()).expect("a message's size");
    [&size.to_le_bytes()[..], &kind.to_le_bytes(), &rest].concat()
}

/// A message with another byte at a place.
pub fn with(mut message: Vec<u8>, place: usize, byte: u8) -> Vec<u8> {
    message[place] = byte;
    message
}

pub fn level(price: u32, size: u64) -> Option<Level> {
    Some(Level { price, size })
}

pub fn shown(bid: Option<Level>, ask: Option<Level>) -> Quote {
    Quote {
        answer: 0,
        bid,
        ask,
    }
}

/// What a refused quote shows.
pub fn no_quote(answer: u8) -> Quote {
    let (bid, ask) = (None, None);
    Quote { answer, bid, ask }
}

pub fn day(shares: u64, whole: bool) -> Volume {
    let answer = 0;
    Volume {
        answer,
        shares,
        whole,
    }
}
