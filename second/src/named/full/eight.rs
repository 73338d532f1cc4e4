//! Eight symbols, all of them full: 2,048 live orders.

use crate::make::call_list::CallList;
use crate::make::messages::*;
use crate::named::Cases;
use crate::reader::SYMBOLS;
use crate::wire::Message;

const INDICES: [u32; SYMBOLS] = [7, 0, u32::MAX, 1, 2, 3, 1_000_000, 8];
const FIRST: u32 = INDICES[0];

/// Adds of one run: 39,936 bytes, where a call has less than 65,536.
const IN_A_RUN: usize = 1_024;

pub fn add_to(cases: &mut Cases) {
    cases.calls("eight-full-symbols", |calls| {
        push_full(calls, &one_by_one());
        calls.step_messages(&[on(1, replace(257, 256, 1000, SELL, 1, 1))]);
        calls.step_messages(&[on(2, add(257, 257, SELL, 1, 1)), on(2, clear(9))]);
        calls.step_messages(&[on(3, add(257, 256, SELL, 1, 1))]);
        calls.step_messages(&[on(8, delete(257, 3)), on(8, add(258, 257, SELL, 1, 1))]);
        push_asked(calls);
    });
    cases.calls("eight-full-symbols-and-one-more-in-each", |calls| {
        push_full(calls, &by_turns());
        calls.step_messages(&INDICES.map(|index| on(index, add(257, 257, SELL, 1, 1))));
        push_asked(calls);
        push_first_again(calls);
        calls.step_messages(&INDICES[1..].iter().map(one_low).collect::<Vec<_>>());
        push_asked(calls);
    });
    cases.calls("eight-full-symbols-and-the-first-cleared", |calls| {
        push_full(calls, &by_turns());
        push_first_again(calls);
    });
}

/// A message that answers 8 in a stale symbol alone.
fn one_low(index: &u32) -> Message {
    on(*index, retail(1))
}

/// A sell of a symbol, with shares of its own.
fn sell(index: u32, number: u32) -> Message {
    let volume = index % 100 + 1;
    let order = u64::from(number);
    on(index, add(number, order, SELL, 500 + number % 3, volume))
}

fn one_by_one() -> Vec<Message> {
    INDICES
        .into_iter()
        .flat_map(|index| (1..=256).map(move |number| sell(index, number)))
        .collect()
}

fn by_turns() -> Vec<Message> {
    (1..=256)
        .flat_map(|number| INDICES.map(|index| sell(index, number)))
        .collect()
}

/// Registers the symbols and fills them.
fn push_full(calls: &mut CallList, messages: &[Message]) {
    for index in INDICES {
        calls.register(index, 2, b"SAME");
    }
    for run in messages.chunks(IN_A_RUN) {
        calls.run_messages(run);
    }
    push_asked(calls);
}

/// The first symbol is cleared, and filled once more.
fn push_first_again(calls: &mut CallList) {
    calls.step_messages(&[on(FIRST, clear(257))]);
    push_asked(calls);
    let again: Vec<Message> = (257..=512).map(|number| sell(FIRST, number)).collect();
    calls.run_messages(&again);
    push_asked(calls);
}

fn push_asked(calls: &mut CallList) {
    for index in INDICES {
        calls.quote(index);
        calls.volume(index);
    }
}
