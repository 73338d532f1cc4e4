//! Clears, refusals and orders that go amid a run: what comes behind them meets what they left.

use super::{named, Twice};
use crate::make::messages::*;
use crate::named::full::adds;
use crate::named::Cases;
use crate::wire::Message;

/// Another symbol. Its messages stand between those of ABC and are all done.
const OTHER: u32 = 8;

/// A refused message that has, or should have, this number. Order 1 is live, a buy.
type Refused = fn(u32) -> Message;

const REFUSED: [(&str, Refused); 6] = [
    ("a-7", |number| add(number + 1, 3, BUY, 1500, 1)),
    ("a-9-by-an-add", |number| add(number, 1, SELL, 900, 1)),
    ("a-9-by-a-modify", |number| modify(number, 1, SELL, 900, 1)),
    ("a-9-by-a-delete", |number| delete(number, 2)),
    ("a-9-by-an-execute", |number| {
        print_execute(number, 1, 3, 1000, 11)
    }),
    ("a-9-by-a-replace", |number| {
        replace(number, 2, 3, BUY, 1500, 1)
    }),
];

/// Full books: cases of many messages, which stand as steps and as a run in two files. Behind the 10
/// comes a low number, and a clear to the expected one: only the 10 costs the mark.
pub fn add_to(cases: &mut Cases) {
    let behind = [
        delete(256, 1),
        clear(257),
        add(257, 1, SELL, 3000, 3),
        add(258, 258, BUY, 900, 4),
    ];
    cases.both("a-10-amid-a-run", &[&adds(257), &behind[..]].concat());
    let replaces = [
        replace(257, 1, 1, BUY, 2000, 7),
        replace(258, 2, 257, BUY, 2000, 8),
        delete(259, 1),
        add(260, 2, BUY, 2000, 9),
        replace(261, 257, 258, BUY, 2000, 10),
        execute(262, 3, 900, 10),
        add(263, 3, BUY, 2000, 11),
    ];
    let messages = [&adds(256), &replaces[..]].concat();
    cases.both("replaces-in-a-full-book-amid-a-run", &messages);
}

pub fn lists() -> Vec<Twice> {
    let mut lists = vec![clears(), gone()];
    for (name, refused) in REFUSED {
        lists.push(stale(&format!("{name}-amid-a-run"), refused));
    }
    lists
}

fn beside(number: u32) -> Message {
    on(OTHER, add(number, u64::from(number), BUY, 2000, number))
}

/// A clear to the expected number, then one to another.
fn clears() -> Twice {
    named(
        "a-clear-amid-a-run",
        &[ABC, OTHER],
        &[
            &[
                add(1, 1, BUY, 1000, 10),
                beside(1),
                trade(2, 1, 5, 1),
                clear(3),
                add(3, 1, BUY, 1100, 7),
                beside(2),
                trade(4, 2, 6, 1),
            ],
            &[
                clear(9),
                delete(5, 1),
                add(9, 2, SELL, 1200, 8),
                beside(3),
                trade(10, 3, 9, 1),
            ],
        ],
    )
}

/// A refusal with a clear behind it, then the same without. Before the clear, which is to the expected
/// number, comes a low one: only the refusal costs the mark.
fn stale(name: &str, refused: Refused) -> Twice {
    named(
        name,
        &[ABC, OTHER],
        &[
            &[
                add(1, 1, BUY, 1000, 10),
                beside(1),
                trade(2, 1, 5, 1),
                refused(3),
                beside(2),
                delete(2, 1),
                clear(3),
                add(3, 1, BUY, 1100, 7),
                trade(4, 2, 6, 1),
            ],
            &[refused(5), beside(3), trade(5, 3, 9, 1)],
        ],
    )
}

/// Numbers of orders that are live no more, and may come again.
fn gone() -> Twice {
    named(
        "orders-go-amid-a-run",
        &[ABC],
        &[
            &[
                add(1, 1, BUY, 1000, 1),
                replace(2, 1, 1, BUY, 1001, 2),
                replace(3, 1, 2, BUY, 1002, 4),
                add(4, 1, BUY, 1002, 8),
                delete(5, 2),
                add(6, 2, BUY, 1002, 16),
                execute(7, 1, 900, 8),
                add(8, 1, BUY, 1002, 32),
            ],
            &[replace(9, 1, 3, BUY, 1002, 64), modify(10, 1, BUY, 1002, 1)],
            &[clear(10), delete(10, 3)],
            &[clear(10), add(10, 3, SELL, 7, 7), delete(11, 3)],
            &[delete(12, 3)],
            &[
                clear(12),
                add(12, 4, SELL, 7, 7),
                execute(13, 4, 7, 7),
                execute(14, 4, 7, 7),
            ],
        ],
    )
}
