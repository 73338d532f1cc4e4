//! Depths of two symbols and of eight, whose orders have the same numbers.

use super::{adds, Put};
use crate::make::call_list::CallList;
use crate::make::messages::*;
use crate::named::Cases;
use crate::reader::SYMBOLS;
use crate::wire::Message;

const FIRST: u32 = 0;
const SECOND: u32 = u32::MAX;

const EIGHT: [u32; SYMBOLS] = [7, 0, u32::MAX, 1, 2, 3, 1_000_000, 8];

pub fn add_to(cases: &mut Cases) {
    two(cases);
    eight(cases);
}

fn two(cases: &mut Cases) {
    let ask = |calls: &mut CallList| ask(calls, &[FIRST, SECOND]);
    cases.calls("depths-of-two-symbols", |calls| {
        calls.register(FIRST, 2, b"ONE");
        ask(calls);
        calls.register(SECOND, 6, b"TWO");
        calls.run_messages(&first());
        ask(calls);
        calls.run_messages(&second());
        ask(calls);
        for message in [
            on(FIRST, delete(8, 3)),
            on(SECOND, execute(15, 3, 1_000, 30)),
            on(FIRST, retail(10)),
            on(SECOND, modify(16, 1, SELL, 1_004, 9)),
            on(SECOND, clear(17)),
            on(FIRST, clear(9)),
            on(SECOND, add(17, 1, BUY, 1_000, 1)),
        ] {
            calls.step_messages(&[message]);
            ask(calls);
        }
    });
}

/// Prices that both symbols have, on other sides.
fn first() -> Vec<Message> {
    let orders: [Put; 7] = [
        (5, BUY, 1_001, 1),
        (2, SELL, 1_002, 2),
        (3, BUY, 1_003, 4),
        (1, BUY, 1_001, 8),
        (7, SELL, 1_002, 16),
        (4, SELL, 1_010, 32),
        (6, SELL, 1_002, 64),
    ];
    of(FIRST, &orders)
}

/// Eleven asks, so that the tenth of one symbol is not the other's.
fn second() -> Vec<Message> {
    let mut orders: Vec<Put> = vec![
        (3, BUY, 1_002, 30),
        (12, BUY, 1_002, 300),
        (14, BUY, 1_001, 3_000),
    ];
    orders.extend([7, 1, 11, 4, 9, 2, 6, 13, 5, 10, 8].map(|order| {
        let price = 1_003 + order as u32;
        (order, SELL, price, 100 + order as u32)
    }));
    of(SECOND, &orders)
}

/// Each symbol's orders by turns with the others', at prices of its own; then the fourth is cleared, and
/// the eighth becomes stale.
fn eight(cases: &mut Cases) {
    cases.calls("depths-of-eight-symbols", |calls| {
        for index in EIGHT {
            calls.register(index, 4, b"SAME");
        }
        let books: Vec<Vec<Message>> = (1..).zip(EIGHT).map(own_prices).collect();
        let by_turns = (0..5).flat_map(|turn| books.iter().map(move |book| book[turn]));
        calls.run_messages(&by_turns.collect::<Vec<_>>());
        ask(calls, &EIGHT);
        calls.step_messages(&[on(EIGHT[3], clear(6)), on(EIGHT[7], retail(7))]);
        ask(calls, &EIGHT);
    });
}

fn own_prices((place, index): (u32, u32)) -> Vec<Message> {
    let price = 1_000 * place;
    of(
        index,
        &[
            (3, SELL, price + 20, place),
            (1, BUY, price + 5, 10 * place),
            (5, SELL, price + 10, 2 * place),
            (2, BUY, price + 8, 20 * place),
            (4, SELL, price + 10, 3 * place),
        ],
    )
}

/// The adds of a symbol's orders, from number 1 on.
fn of(index: u32, orders: &[Put]) -> Vec<Message> {
    let adds = adds(1, orders).into_iter();
    adds.map(|message| on(index, message)).collect()
}

fn ask(calls: &mut CallList, indices: &[u32]) {
    for index in indices.iter().copied() {
        calls.quote(index);
        calls.depth(index);
    }
}
