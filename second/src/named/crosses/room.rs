//! The 16 places of a symbol's crosses, and what finds them taken.

use super::{crosses, told, told_after};
use crate::make::messages::*;
use crate::named::record::trades;
use crate::named::Cases;
use crate::wire::Message;

pub fn add_to(cases: &mut Cases) {
    told(cases, "16-crosses-one-by-one", &crosses(1, 16));
    told_after(
        cases,
        "the-16th-cross",
        &crosses(1, 15),
        &[cross(16, 16, 1000, 16), retail(17)],
    );
    told_after(
        cases,
        "the-17th-cross",
        &crosses(1, 16),
        &[
            cross(17, 17, 1000, 17),
            cross(18, 18, 1000, 18),
            correction(19, 17, 5),
            correction(20, 1, 2),
            correction(21, 16, 17),
        ],
    );
    told_after(
        cases,
        "a-17th-cross-of-0",
        &crosses(1, 16),
        &[cross(17, 17, 1000, 0), retail(18)],
    );
    for (name, number) in [
        ("a-repeated-cross-in-a-full-list", 1),
        ("the-last-cross-repeated-in-a-full-list", 16),
    ] {
        told_after(
            cases,
            name,
            &crosses(1, 16),
            &[cross(17, number, 1000, 50), correction(18, number, 20)],
        );
    }
    for (name, number) in [
        ("the-first-of-15-crosses-repeated", 1),
        ("the-last-of-15-crosses-repeated", 15),
    ] {
        told_after(
            cases,
            name,
            &crosses(1, 15),
            &[cross(16, number, 1000, 50), cross(17, 16, 1000, 16)],
        );
    }
    told_after(
        cases,
        "16-crosses-of-0",
        &of_0(16),
        &[
            correction(17, 16, 9),
            cross(18, 17, 1000, 5),
            correction(19, 1, 8),
        ],
    );
    told_after(
        cases,
        "a-correction-to-0-frees-no-place",
        &crosses(1, 16),
        &[
            correction(17, 3, 0),
            cross(18, 17, 1000, 50),
            correction(19, 3, 4),
        ],
    );
    both_lists(cases);
}

fn of_0(count: u32) -> Vec<Message> {
    (1..=count)
        .map(|number| cross(number, number, 1000, 0))
        .collect()
}

/// Trades and crosses take no place of each other.
fn both_lists(cases: &mut Cases) {
    told_after(
        cases,
        "a-full-record-keeps-crosses",
        &trades(1, 128),
        &[
            cross(129, 1, 1000, 1000),
            correction(130, 1, 2000),
            trade(131, 129, 7, 1),
            cross(132, 2, 1000, 100),
        ],
    );
    told_after(
        cases,
        "16-crosses-keep-trades",
        &crosses(1, 16),
        &[
            trade(17, 17, 100, 1),
            trade(18, 18, 200, 1),
            cancel(19, 17),
            cross(20, 17, 1000, 50),
            trade(21, 19, 300, 1),
        ],
    );
    let mut trades = trades(17, 128);
    let last = trades.split_off(126);
    told_after(
        cases,
        "128-trades-behind-16-crosses",
        &[crosses(1, 16), trades].concat(),
        &[last, vec![trade(145, 129, 129, 1)]].concat(),
    );
    largest(cases);
}

/// The largest volumes of all, first without trades.
fn largest(cases: &mut Cases) {
    let crosses = |from: u32| (0..16).map(move |place| cross(from + place, place, 1000, u32::MAX));
    told(
        cases,
        "16-largest-crosses",
        &crosses(1).collect::<Vec<Message>>(),
    );
    let trades = (1..=128).map(|number| trade(number, number, u32::MAX, 1));
    let messages: Vec<Message> = trades.chain(crosses(129)).collect();
    told_after(
        cases,
        "the-largest-volume",
        &messages,
        &[
            cross(145, 16, 1000, u32::MAX),
            trade(146, 129, u32::MAX, 1),
            correction(147, 15, u32::MAX - 1),
        ],
    );
}
