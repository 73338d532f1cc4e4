//! The last number, trades with the first number and the last, and symbols with such an index.

use super::{named, Twice};
use crate::make::messages::*;
use crate::wire::Message;

const LAST: u32 = u32::MAX;

pub fn lists() -> Vec<Twice> {
    vec![
        last_number(),
        edge_trades("trade-0-amid-a-run", 0),
        edge_trades("trade-all-ones-amid-a-run", LAST),
        edge_symbols(),
        eight_symbols(),
    ]
}

fn last_number() -> Twice {
    named(
        "the-last-number-amid-a-run",
        &[ABC],
        &[
            &[
                clear(LAST - 1),
                add(LAST - 1, 1, BUY, 1000, 1),
                add(LAST, 2, BUY, 1000, 2),
                add(LAST, 3, BUY, 1000, 4),
                add(0, 3, BUY, 1000, 8),
                trade(1, 1, 5, 1),
            ],
            &[
                retail(LAST),
                clear(0),
                add(0, 2, BUY, 900, 16),
                trade(1, 1, 6, 1),
            ],
        ],
    )
}

/// A symbol for each thing that can happen to a trade. The trades beside it have the next number and
/// the one before, which for the last number and the first are each other's, or one other bit.
fn edge_trades(name: &str, edge: u32) -> Twice {
    let [next, before] = [edge.wrapping_add(1), edge.wrapping_sub(1)];
    let happenings: [&[Message]; 8] = [
        &[trade(1, edge, 5, 1), cancel(2, edge)],
        &[trade(1, edge, 5, 1), trade(2, edge, 6, 1)],
        &[cancel(1, edge), trade(2, edge, 7, 1)],
        &[
            trade(1, edge, 5, 1),
            trade(2, next, 6, 1),
            trade(3, before, 7, 1),
            cancel(4, edge),
        ],
        &[
            trade(1, edge, 5, 1),
            trade(2, edge ^ 1 << 16, 6, 1),
            trade(3, edge ^ 1 << 31, 7, 1),
            cancel(4, edge),
        ],
        &[trade(1, edge, 5, 1), cancel(2, next)],
        &[trade(1, edge, 5, 1), cancel(2, before)],
        &[trade(1, edge, 5, 1), cancel(2, edge), cancel(3, edge)],
    ];
    let symbols: Vec<u32> = (1..).take(happenings.len()).collect();
    let messages: Vec<Message> = symbols
        .iter()
        .zip(happenings)
        .flat_map(|(index, messages)| messages.iter().map(|message| on(*index, *message)))
        .collect();
    named(name, &symbols, &[&messages])
}

/// ABC and the two symbols at the edges, by turns.
fn edge_symbols() -> Twice {
    named(
        "symbols-0-and-all-ones-amid-a-run",
        &[ABC, 0, LAST],
        &[
            &[
                on(0, add(1, 1, BUY, 1000, 1)),
                on(LAST, add(1, 1, BUY, 1001, 2)),
                add(1, 1, BUY, 1002, 4),
                on(LAST, trade(2, 1, 20, 1)),
                on(0, trade(2, 1, 10, 1)),
                trade(2, 1, 40, 1),
            ],
            &[
                on(LAST, clear(9)),
                on(0, delete(3, 1)),
                retail(4),
                on(0, add(4, 2, SELL, 7, 7)),
                on(LAST, add(9, 1, SELL, 8, 8)),
            ],
        ],
    )
}

/// An order and a trade in each, by turns; then something else happens in each.
fn eight_symbols() -> Twice {
    let symbols = [0, 1, ABC, 8, 255, 256, LAST - 1, LAST];
    let begun: Vec<Message> = [1, 2]
        .into_iter()
        .flat_map(|number| symbols.into_iter().zip(1..).map(move |it| (number, it)))
        .map(|(number, (index, place))| match number {
            1 => on(index, add(1, 5, BUY, 1000 + place, place)),
            _ => on(index, trade(2, 5, 10 * place, 1)),
        })
        .collect();
    let happenings = [
        modify(3, 5, BUY, 1100, 11),
        delete(3, 5),
        print_execute(3, 5, 6, 900, 1),
        replace(3, 5, 6, BUY, 1200, 12),
        cancel(3, 5),
        clear(3),
        retail(4),
        add(3, 5, BUY, 1300, 13),
    ];
    let happenings: Vec<Message> = symbols
        .into_iter()
        .zip(happenings)
        .map(|(index, message)| on(index, message))
        .collect();
    named("eight-symbols-by-turns", &symbols, &[&begun, &happenings])
}
