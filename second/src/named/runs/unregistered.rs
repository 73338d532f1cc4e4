//! Messages of symbols that are not registered: they change nothing, in no symbol.

use super::{named, push_asked, push_run, push_steps, Twice};
use crate::make::messages::*;
use crate::named::Cases;
use crate::wire::write::to_bytes;
use crate::wire::Message;

/// Indices that a wrong search may take for an empty place's or for ABC's: both edges, and one that is
/// ABC's in its low half.
const OTHERS: [u32; 3] = [0, u32::MAX, 0x0001_0007];

/// Messages that would all be done.
fn whole_life(index: u32) -> Vec<Message> {
    [
        add(1, 1, SELL, 5, 5),
        trade(2, 1, 6, 1),
        clear(9),
        add(9, 2, BUY, 7, 7),
    ]
    .map(|message| on(index, message))
    .to_vec()
}

pub fn lists() -> Vec<Twice> {
    let own = [add(1, 1, BUY, 1000, 10), trade(2, 1, 5, 1)];
    let more = [add(3, 2, SELL, 1100, 20)];
    let other = whole_life(8);
    vec![
        named(
            "an-unregistered-symbol-first",
            &[ABC],
            &[&[&other, &own[..]].concat(), &more],
        ),
        named(
            "an-unregistered-symbol-last",
            &[ABC],
            &[&[&own, &other[..]].concat(), &more],
        ),
        named(
            "an-unregistered-symbol-throughout",
            &[ABC],
            &[&other, &other, &own],
        ),
    ]
}

pub fn add_to(cases: &mut Cases) {
    let messages: Vec<Vec<u8>> = OTHERS
        .into_iter()
        .flat_map(whole_life)
        .chain([add(1, 1, BUY, 1000, 10)])
        .map(|message| to_bytes(&message))
        .collect();
    let asked = [&[ABC], &OTHERS[..]].concat();
    cases.calls("unregistered-symbols-and-then-registered", |calls| {
        for push in [push_steps, push_run] {
            calls.new_state();
            calls.register(ABC, 4, b"ABC");
            push(calls, &messages);
            push_asked(calls, &asked);
            for index in OTHERS {
                calls.register(index, 4, b"OTHER");
            }
            push_asked(calls, &asked);
            push(calls, &messages);
            push_asked(calls, &asked);
        }
    });
    cases.calls("no-symbol-at-all", |calls| {
        for push in [push_steps, push_run] {
            calls.new_state();
            push(calls, &messages);
            push_asked(calls, &asked);
        }
    });
}
