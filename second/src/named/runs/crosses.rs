//! Crosses and corrections amid a run, with trades and cancels beside them: request M-102.

use super::{named, Twice};
use crate::make::messages::*;
use crate::wire::Message;

/// Another symbol. Its crosses have the numbers that those of ABC have.
const OTHER: u32 = 8;

pub fn lists() -> Vec<Twice> {
    vec![
        mixed(),
        full(),
        edges("cross-0-amid-a-run", 0),
        edges("cross-all-ones-amid-a-run", u32::MAX),
    ]
}

/// First all is whole; then the mark goes with a correction of no cross, and in the other symbol with
/// a gap, behind which comes a clear.
fn mixed() -> Twice {
    named(
        "crosses-amid-a-run",
        &[ABC, OTHER],
        &[
            &[
                cross(1, 1, 1000, 1),
                on(OTHER, cross(1, 1, 1000, 100)),
                trade(2, 1, 2, 1),
                correction(3, 1, 4),
                on(OTHER, correction(2, 1, 200)),
                cross(4, 2, 1000, 8),
                cancel(5, 1),
                clear(6),
                correction(6, 2, 16),
                trade(7, 2, 32, 1),
            ],
            &[
                correction(8, 3, 64),
                cross(9, 3, 1000, 128),
                on(OTHER, cross(4, 2, 1000, 300)),
                on(OTHER, correction(3, 1, 400)),
                cancel(10, 2),
                on(OTHER, clear(3)),
                on(OTHER, correction(3, 1, 500)),
                on(OTHER, cross(4, 2, 1000, 600)),
            ],
        ],
    )
}

/// 16 crosses and corrections of the first and the last; then one cross too many.
fn full() -> Twice {
    let crosses: Vec<Message> = (1..=16)
        .map(|number| cross(number, number, 1000, 10))
        .collect();
    let corrections = [correction(17, 1, 20), correction(18, 16, 30)];
    named(
        "16-crosses-amid-a-run",
        &[ABC],
        &[
            &[&crosses[..], &corrections].concat(),
            &[cross(19, 17, 1000, 40), correction(20, 2, 50)],
        ],
    )
}

/// A symbol for each thing that can happen to a cross. The crosses beside it have the next number and
/// the one before, which for the last number and the first are each other's, or one other bit.
fn edges(name: &str, edge: u32) -> Twice {
    let [next, before] = [edge.wrapping_add(1), edge.wrapping_sub(1)];
    let happenings: [&[Message]; 8] = [
        &[cross(1, edge, 1000, 5), correction(2, edge, 6)],
        &[cross(1, edge, 1000, 5), cross(2, edge, 1000, 6)],
        &[correction(1, edge, 5), cross(2, edge, 1000, 7)],
        &[
            cross(1, edge, 1000, 5),
            cross(2, next, 1000, 6),
            cross(3, before, 1000, 7),
            correction(4, edge, 8),
        ],
        &[
            cross(1, edge, 1000, 5),
            cross(2, edge ^ 1 << 16, 1000, 6),
            cross(3, edge ^ 1 << 31, 1000, 7),
            correction(4, edge, 8),
        ],
        &[cross(1, edge, 1000, 5), correction(2, next, 6)],
        &[cross(1, edge, 1000, 5), correction(2, before, 6)],
        &[
            cross(1, edge, 1000, 5),
            trade(2, edge, 6, 1),
            cancel(3, edge),
        ],
    ];
    let symbols: Vec<u32> = (1..).take(happenings.len()).collect();
    let messages: Vec<Message> = symbols
        .iter()
        .zip(happenings)
        .flat_map(|(index, messages)| messages.iter().map(|message| on(*index, *message)))
        .collect();
    named(name, &symbols, &[&messages])
}
