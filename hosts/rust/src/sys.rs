//! The boundary: the declarations of `painterend.h` once more, and a safe function over each call.
//! Every `unsafe` of the crate stands here. A host uses [`crate::Book`]; a state can be had alone
//! by one that lays states out itself.
//!
//! What holds of every call below, and what each `unsafe` relies on:
//!
//! - The structs have the header's fields in its order, in C's layout, and the functions its
//!   parameters. Nothing tests that but the tests of this crate.
//! - A [`State`] is one that a call handed out: its field is private, and nothing here writes into
//!   it but the calls.
//! - A slice is lent as its pointer, never null, and its length; it is borrowed for the call, which
//!   writes nothing there.
//! - A `bool` comes back as 0 or 1, as C's calling rules have it.
//! - The calls end, unwind never and keep no pointer.
//! - The stack has room. Where it has not, the process ends at the stack's guard page, since the
//!   archive's functions touch every page of a large frame in turn, as Rust's do.

use std::mem::MaybeUninit;

use crate::answers::{Depth, Ended, Level, LevelRow, Passed, Quote, Volume, LEVELS};

include!(concat!(env!("OUT_DIR"), "/size.rs"));

/// The answer that has an offset beside it.
const BAD_FIELD: u8 = 4;

/// The state of a market, in place. Some of its bytes may be padding that nobody has written, so
/// they are not looked at.
#[repr(C, align(8))]
#[derive(Clone, Copy)]
pub struct State {
    opaque: [MaybeUninit<u8>; BOOK_BYTES],
}

#[repr(C)]
struct Made {
    book: State,
    known: bool,
}

#[repr(C)]
struct Done {
    book: State,
    answer: u8,
}

#[repr(C)]
struct RawPassed {
    at: usize,
    answer: u8,
    offset: usize,
    stops: bool,
}

#[repr(C)]
struct RawEnded {
    at: usize,
    answer: u8,
}

#[repr(C)]
struct Side {
    some: bool,
    price: u32,
    size: u64,
}

#[repr(C)]
struct Sides {
    answer: u8,
    bid: Side,
    ask: Side,
}

#[repr(C)]
struct Row {
    used: bool,
    price: u32,
    size: u64,
    orders: u32,
}

#[repr(C)]
struct Levels {
    answer: u8,
    bids: [Row; LEVELS],
    asks: [Row; LEVELS],
}

#[repr(C)]
struct Day {
    answer: u8,
    shares: u64,
    whole: bool,
}

extern "C" {
    fn painterend_new(market: u16) -> Made;
    fn painterend_register(
        book: State,
        index: u32,
        name: *const u8,
        length: usize,
        scale: u8,
    ) -> Done;
    fn painterend_apply(book: *mut State, bytes: *const u8, length: usize) -> RawPassed;
    fn painterend_run(book: *mut State, bytes: *const u8, length: usize) -> RawEnded;
    fn painterend_quote(book: State, index: u32) -> Sides;
    fn painterend_depth(book: State, index: u32) -> Levels;
    fn painterend_volume(book: State, index: u32) -> Day;
}

/// A new state of a market, none where the number names no market.
pub fn new(market: u16) -> Option<Box<State>> {
    // SAFETY: it takes a number alone, and any number will do.
    let made = unsafe { painterend_new(market) };
    made.known.then(|| Box::new(made.book))
}

/// Registers a symbol; the state is the one that the call hands back.
pub fn register(state: &mut State, index: u32, name: &[u8], scale: u8) -> u8 {
    // SAFETY: the call gets a copy of a state that a call handed out, and a name that is lent while
    // it reads it.
    let done = unsafe { painterend_register(*state, index, name.as_ptr(), name.len(), scale) };
    *state = done.book;
    done.answer
}

/// Passes one message.
pub fn apply(state: &mut State, bytes: &[u8]) -> Passed {
    // SAFETY: the state is lent to nobody else, as `&mut` says, so the call may change it in place,
    // and the bytes are not part of it; they are lent while the call reads them.
    let passed = unsafe { painterend_apply(state, bytes.as_ptr(), bytes.len()) };
    Passed {
        at: passed.at,
        answer: passed.answer,
        offset: (passed.answer == BAD_FIELD).then_some(passed.offset),
        stops: passed.stops,
    }
}

/// Passes messages until one stops it.
pub fn run(state: &mut State, bytes: &[u8]) -> Ended {
    // SAFETY: as for `apply`.
    let ended = unsafe { painterend_run(state, bytes.as_ptr(), bytes.len()) };
    Ended {
        at: ended.at,
        answer: ended.answer,
    }
}

/// The quote of a symbol.
pub fn quote(state: &State, index: u32) -> Quote {
    // SAFETY: the call gets a copy of a state that a call handed out, and any index will do.
    let sides = unsafe { painterend_quote(*state, index) };
    Quote {
        answer: sides.answer,
        bid: level(sides.bid),
        ask: level(sides.ask),
    }
}

/// The ten best prices of each side of a symbol.
pub fn depth(state: &State, index: u32) -> Depth {
    // SAFETY: as for `quote`.
    let levels = unsafe { painterend_depth(*state, index) };
    Depth {
        answer: levels.answer,
        bids: levels.bids.map(row),
        asks: levels.asks.map(row),
    }
}

/// The day's volume of a symbol.
pub fn volume(state: &State, index: u32) -> Volume {
    // SAFETY: as for `quote`.
    let day = unsafe { painterend_volume(*state, index) };
    Volume {
        answer: day.answer,
        shares: day.shares,
        whole: day.whole,
    }
}

fn row(row: Row) -> Option<LevelRow> {
    row.used.then_some(LevelRow {
        price: row.price,
        size: row.size,
        orders: row.orders,
    })
}

fn level(side: Side) -> Option<Level> {
    side.some.then_some(Level {
        price: side.price,
        size: side.size,
    })
}
