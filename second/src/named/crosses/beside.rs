//! Crosses beside trades and orders, which they leave alone.

use super::{crosses, told};
use crate::make::messages::*;
use crate::named::Cases;
use crate::wire::Message;

pub fn add_to(cases: &mut Cases) {
    told(
        cases,
        "a-cross-and-a-trade-of-one-number",
        &[
            trade(1, 1, 5, 1),
            cross(2, 1, 1000, 6),
            correction(3, 1, 7),
            cancel(4, 1),
            trade(5, 1, 8, 1),
            cross(6, 2, 1000, 9),
            trade(7, 2, 10, 1),
            cancel(8, 2),
            correction(9, 2, 11),
        ],
    );
    told(
        cases,
        "a-cancel-of-a-cross",
        &[cross(1, 1, 1000, 5), cancel(2, 1), correction(3, 1, 6)],
    );
    told(
        cases,
        "a-correction-of-a-trade",
        &[
            trade(1, 1, 5, 1),
            correction(2, 1, 6),
            cross(3, 1, 1000, 7),
            cancel(4, 1),
        ],
    );
    told(
        cases,
        "a-cross-of-an-execution-s-number",
        &[
            add(1, 1, BUY, 1000, 10),
            print_execute(2, 1, 3, 1000, 4),
            cross(3, 3, 1000, 20),
            correction(4, 3, 30),
            cancel(5, 3),
        ],
    );
    books(cases);
}

/// What costs the mark leaves the book: the next message is in its turn and fits.
fn books(cases: &mut Cases) {
    let after = |before: &[Message], spoils: Message, number: u32| -> Vec<Message> {
        let mut messages = before.to_vec();
        messages.extend([
            add(number, 1, BUY, 1000, 10),
            spoils,
            add(number + 2, 2, BUY, 1000, 20),
        ]);
        messages
    };
    cases.both(
        "a-failed-correction-leaves-the-book",
        &after(&[], correction(2, 77, 1), 1),
    );
    cases.both(
        "a-repeated-cross-leaves-the-book",
        &after(&crosses(1, 1), cross(3, 1, 1000, 1), 2),
    );
    cases.both(
        "a-17th-cross-leaves-the-book",
        &after(&crosses(1, 16), cross(18, 17, 1000, 17), 17),
    );
    cases.both(
        "a-correction-uses-its-number",
        &[
            cross(1, 1, 1000, 5),
            correction(2, 1, 6),
            add(2, 1, BUY, 1000, 10),
            add(3, 1, BUY, 1000, 20),
            correction(5, 1, 7),
        ],
    );
}
