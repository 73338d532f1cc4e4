//! Ten prices a side, fewer and more.

use super::{adds, ask, run, told, told_and_fed, Put};
use crate::make::messages::*;
use crate::named::Cases;
use crate::wire::Message;

const LARGEST: u32 = u32::MAX;

/// Ten prices a side with one to four orders each; some of their sums have more than 32 bits.
const TEN: [Put; 35] = [
    (1, SELL, 1_235_250, 250),
    (11, SELL, 1_999_999, 450),
    (32, BUY, 1_235_000, 200),
    (13, BUY, 100, 700),
    (2, BUY, 999_999, 12),
    (7, SELL, 1_236_001, 17),
    (5, BUY, 1_230_000, 4),
    (29, SELL, 2_000_000, 80),
    (22, BUY, 100, 7),
    (28, BUY, 100, 70),
    (17, BUY, 1_234_500, 3),
    (31, BUY, 1_234_500, 1),
    (19, SELL, 1_235_200, 1),
    (27, SELL, 1_236_000, LARGEST),
    (34, BUY, 1_230_000, 2),
    (8, SELL, 1_236_000, LARGEST),
    (14, SELL, 1_240_000, 99),
    (25, SELL, 1_235_100, 60),
    (16, BUY, 1_233_000, 300),
    (9, BUY, 1_230_000, 1),
    (20, SELL, 1_235_100, 40),
    (10, BUY, 1_000_000, LARGEST),
    (18, BUY, 1_200_005, 5_000),
    (23, BUY, 1_230_000, 3),
    (15, BUY, 1_000_000, LARGEST),
    (12, BUY, 1_234_499, 100),
    (30, BUY, 1_234_900, 75),
    (26, SELL, 1_240_000, 1_000),
    (33, BUY, 1_233_000, 99),
    (24, SELL, 1_236_000, LARGEST),
    (4, SELL, 2_000_000, 8),
    (21, BUY, 1_234_500, LARGEST),
    (35, SELL, 3_000_000, 6),
    (3, BUY, 1_234_900, 50),
    (6, SELL, 1_300_000, 33),
];

/// An eleventh price and a twelfth on each side.
const WORSE: [Put; 7] = [
    (44, SELL, LARGEST - 1, 55),
    (40, BUY, 0, 1),
    (47, BUY, 99, 9),
    (42, SELL, LARGEST, 2),
    (41, SELL, LARGEST - 1, 5),
    (46, BUY, 99, 900),
    (43, SELL, LARGEST - 1, 555),
];

/// The adds of ten prices a side, with the numbers 1 to 35.
pub fn ten() -> Vec<Message> {
    adds(1, &TEN)
}

/// The adds of twelve prices a side, the worst ones first, with the numbers 1 to 42.
pub fn twelve() -> Vec<Message> {
    adds(1, &[&WORSE[..], &TEN].concat())
}

/// The adds of those of the ten prices a side that are wanted, from number 1 on.
fn some(wanted: impl Fn(&Put) -> bool) -> Vec<Message> {
    let orders: Vec<Put> = TEN.into_iter().filter(wanted).collect();
    adds(1, &orders)
}

pub fn add_to(cases: &mut Cases) {
    told_and_fed(cases, "ten-levels-of-each-side", &ten(), &[]);
    told_and_fed(
        cases,
        "the-eleventh-price-is-not-shown",
        &twelve(),
        &[
            add(43, 48, BUY, 1_235_050, 13),
            add(44, 49, SELL, 1_235_060, 31),
        ],
    );
    // One bid price of the ten is not there at first; it comes, and an ask price goes.
    let nine = some(|(_, _, price, _)| *price != 1_230_000);
    told(
        cases,
        "nine-and-ten-prices",
        &nine,
        &[add(32, 50, BUY, 1_230_000, 30), delete(33, 7)],
    );
    cases.calls_on_abc("one-side-alone", |calls| {
        run(calls, &some(|(_, side, ..)| *side == BUY));
        calls.new_state();
        ask(calls);
        calls.register(ABC, 4, b"ABC");
        ask(calls);
        run(calls, &some(|(_, side, ..)| *side == SELL));
    });
    told(
        cases,
        "a-depth-after-a-clear",
        &ten(),
        &[
            clear(36),
            add(36, 11, BUY, 1_234_500, 20),
            retail(38),
            clear(9),
            add(9, 12, SELL, 1_234_600, 30),
        ],
    );
    feeds(cases);
}

/// What the levels behind the last quote can be besides.
fn feeds(cases: &mut Cases) {
    cases.feed("levels-of-a-stale-end", &[ten(), vec![retail(37)]].concat());
    cases.feed(
        "levels-of-an-emptied-book",
        &[
            add(1, 1, BUY, 1_234_500, 10),
            add(2, 2, SELL, 1_234_600, 20),
            delete(3, 1),
            execute(4, 2, 1_234_600, 20),
        ],
    );
    cases.feed(
        "levels-of-a-cleared-book",
        &[ten(), vec![clear(1)]].concat(),
    );
    let zeros = [
        (3, SELL, 1_230_045, 10),
        (9, BUY, 50, 20),
        (1, BUY, 5, 30),
        (4, SELL, 10_005, 40),
        (7, BUY, 0, 50),
        (6, SELL, 20_050, 60),
        (2, BUY, 500, 70),
        (8, SELL, 10_000, 80),
        (5, BUY, 5_000, 90),
    ];
    cases.feed("prices-with-leading-zeros", &adds(1, &zeros));
}
