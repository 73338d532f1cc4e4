//! Full books: request M-104. A symbol has 256 live orders, the eight have 2,048.

mod eight;
mod levels;

use super::Cases;
use crate::make::messages::*;
use crate::wire::Message;

/// As many adds as said, from number 1 and order 1 on.
pub fn adds(count: u32) -> Vec<Message> {
    (1..=count)
        .map(|number| add(number, u64::from(number), BUY, 1000 + number % 5, 10))
        .collect()
}

pub fn add_to(cases: &mut Cases) {
    counts(cases);
    freed_room(cases);
    changes(cases);
    misfits(cases);
    checks_before_room(cases);
    levels::add_to(cases);
    eight::add_to(cases);
}

/// The messages behind 256 adds; the number in turn is 257.
fn when_full(messages: &[Message]) -> Vec<Message> {
    [&adds(256), messages].concat()
}

fn counts(cases: &mut Cases) {
    cases.both("the-255th-live", &adds(255));
    cases.both("the-256th-live", &adds(256));
    cases.both("the-257th-answers-10", &adds(257));
    let messages = [adds(257), vec![clear(257)], sells_again()].concat();
    cases.both("a-clear-makes-room-for-256-again", &messages);
}

/// 256 sells and one more, each at a better price. Half of their order numbers were those of buys.
fn sells_again() -> Vec<Message> {
    (257..=513)
        .map(|number| add(number, u64::from(number) - 128, SELL, 5000 - number, number))
        .collect()
}

fn freed_room(cases: &mut Cases) {
    cases.both(
        "freed-room-is-used-again",
        &when_full(&[
            delete(257, 10),
            add(258, 257, SELL, 5000, 1),
            execute(259, 20, 999, 10),
            add(260, 10, SELL, 4000, 2),
            add(261, 20, SELL, 4000, 3),
        ]),
    );
    cases.both(
        "two-places-free-of-256",
        &when_full(&[
            delete(257, 1),
            execute(258, 256, 999, 10),
            replace(259, 128, 300, BUY, 2000, 5),
            add(260, 256, BUY, 2001, 6),
            add(261, 301, BUY, 2002, 7),
            add(262, 1, BUY, 2003, 8),
        ]),
    );
}

fn changes(cases: &mut Cases) {
    cases.both("changes-with-256-live", &when_full(&here_and_there()));
    cases.both(
        "replace-with-256-live",
        &when_full(&[
            replace(257, 1, 1000, BUY, 2000, 7),
            replace(258, 1000, 1000, BUY, 3000, 8),
            replace(259, 200, 1, BUY, 3000, 9),
            add(260, 200, BUY, 4000, 1),
        ]),
    );
    cases.both(
        "replace-of-the-last-order",
        &when_full(&[replace(257, 256, 257, BUY, 1, 1), add(258, 256, BUY, 1, 1)]),
    );
}

/// Orders at both ends of a full book and amid it.
const ORDERS: [u64; 6] = [1, 64, 65, 128, 255, 256];

/// Of each order a modify, an execution of a part and a replace by the same number, each time at the
/// best price; then one add too many.
fn here_and_there() -> Vec<Message> {
    let mut messages = Vec::new();
    for (number, order) in (257..).step_by(3).zip(ORDERS) {
        messages.extend([
            modify(number, order, BUY, 2000 + number, 20),
            execute(number + 1, order, 999, 5),
            replace(number + 2, order, order, BUY, 2002 + number, 30),
        ]);
    }
    messages.push(add(275, 275, BUY, 3000, 1));
    messages
}

/// Fit comes before room: a live number answers 9.
fn misfits(cases: &mut Cases) {
    cases.both(
        "add-of-a-live-order-with-256-live",
        &when_full(&[add(257, 256, BUY, 1, 1), retail(257)]),
    );
    cases.both(
        "replace-by-a-live-number-with-256-live",
        &when_full(&[replace(257, 256, 255, BUY, 1, 1)]),
    );
}

/// An add that finds the book full and is refused for something else first.
fn checks_before_room(cases: &mut Cases) {
    let one_more = add(257, 300, BUY, 1000, 10);
    cases.both("gap-and-full", &when_full(&[add(258, 300, BUY, 1000, 10)]));
    cases.both("stale-and-full", &when_full(&[retail(258), one_more]));
    cases.both(
        "low-and-full",
        &when_full(&[add(256, 300, BUY, 1000, 10), one_more]),
    );
    cases.both(
        "bad-side-and-full",
        &when_full(&[add(257, 300, b'X', 1000, 10), one_more]),
    );
}
