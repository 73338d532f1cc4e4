//! Crosses of several symbols, of new states, and of runs.

use super::crosses;
use crate::make::call_list::CallList;
use crate::make::messages::*;
use crate::named::Cases;
use crate::reader::SYMBOLS;
use crate::wire::Message;

const OTHER: u32 = 8;

const INDICES: [u32; SYMBOLS] = [7, 0, u32::MAX, 1, 2, 3, 1_000_000, 8];
const FIRST: u32 = INDICES[0];
const EIGHTH: u32 = INDICES[SYMBOLS - 1];

pub fn add_to(cases: &mut Cases) {
    two(cases);
    eight(cases);
    new_states(cases);
    within(cases);
}

fn register(calls: &mut CallList, indices: &[u32]) {
    for index in indices {
        calls.register(*index, 2, b"SAME");
    }
}

fn ask(calls: &mut CallList, indices: &[u32]) {
    for index in indices {
        calls.volume(*index);
    }
}

/// A step for each message, with the volumes after it.
fn tell(calls: &mut CallList, indices: &[u32], messages: &[Message]) {
    for message in messages {
        calls.step_messages(&[*message]);
        ask(calls, indices);
    }
}

fn two(cases: &mut Cases) {
    let both = [ABC, OTHER];
    cases.calls("crosses-of-two-symbols", |calls| {
        register(calls, &both);
        tell(
            calls,
            &both,
            &[
                cross(1, 1, 1000, 5),
                on(OTHER, cross(1, 1, 1000, 60)),
                correction(2, 1, 6),
                on(OTHER, correction(2, 1, 70)),
                on(OTHER, cross(3, 2, 1000, 800)),
                correction(3, 2, 1),
                on(OTHER, correction(4, 2, 900)),
                cross(4, 2, 1000, 8),
                on(OTHER, cross(5, 2, 1000, 1)),
            ],
        );
    });
}

/// Crosses of a symbol with shares of their own, from number 1 on.
fn crosses_of(index: u32) -> Vec<Message> {
    let shares = index % 100 + 1;
    (1..=16)
        .map(|number| on(index, cross(number, number, 1000, shares)))
        .collect()
}

fn by_turns() -> Vec<Message> {
    let lists = INDICES.map(crosses_of);
    (0..16)
        .flat_map(|place| lists.iter().map(move |list| list[place]))
        .collect()
}

fn eight(cases: &mut Cases) {
    cases.calls("eight-symbols-of-16-crosses", |calls| {
        register(calls, &INDICES);
        calls.run_messages(&by_turns());
        ask(calls, &INDICES);
        tell(
            calls,
            &INDICES,
            &[
                on(FIRST, correction(17, 16, 1000)),
                on(EIGHTH, correction(17, 1, 2000)),
                on(2, cross(17, 17, 1000, 1)),
                on(3, cross(17, 1, 1000, 1)),
                on(1, correction(17, 17, 1)),
            ],
        );
        calls.step_messages(&[FIRST, EIGHTH].map(|index| on(index, cross(18, 17, 1000, 1))));
        ask(calls, &INDICES);
    });
    cases.calls("crosses-of-the-eighth-symbol", |calls| {
        register(calls, &INDICES);
        let others = &INDICES[..SYMBOLS - 1];
        let full: Vec<Message> = others.iter().copied().flat_map(crosses_of).collect();
        calls.run_messages(&full);
        ask(calls, &INDICES);
        tell(calls, &INDICES, &crosses_of(EIGHTH)[..2]);
        calls.run_messages(&crosses_of(EIGHTH)[2..]);
        ask(calls, &INDICES);
        tell(
            calls,
            &INDICES,
            &[
                on(EIGHTH, correction(17, 16, 50)),
                on(EIGHTH, cross(18, 17, 1000, 1)),
                on(FIRST, clear(17)),
                on(FIRST, correction(17, 1, 9)),
            ],
        );
    });
}

fn new_states(cases: &mut Cases) {
    cases.calls("a-new-state-has-no-crosses", |calls| {
        for _ in 0..2 {
            calls.new_state();
            calls.register(ABC, 4, b"ABC");
            calls.volume(ABC);
            calls.run_messages(&crosses(1, 16));
            calls.volume(ABC);
        }
    });
    cases.calls("the-crosses-of-no-symbol", |calls| {
        tell(calls, &[ABC], &[cross(1, 1, 1000, 5), correction(2, 1, 6)]);
        calls.register(ABC, 4, b"ABC");
        calls.volume(ABC);
        tell(calls, &[ABC], &[cross(1, 1, 1000, 5), correction(2, 1, 6)]);
    });
}

/// A run over a day of crosses, corrections, trades and cancels ends within each of its messages in
/// turn; the next run begins with that message.
fn within(cases: &mut Cases) {
    let day = [
        cross(1, 1, 1000, 1),
        trade(2, 1, 2, 1),
        correction(3, 1, 4),
        cross(4, 2, 1000, 8),
        cancel(5, 1),
        correction(6, 2, 16),
        trade(7, 3, 32, 1),
        correction(8, 1, 64),
        cross(9, 1, 1000, 128),
        correction(10, 3, 256),
        cancel(11, 2),
    ];
    cases.calls_on_abc("runs-that-stop-within-crosses", |calls| {
        let bytes = feed(&day);
        let mut at = 0;
        for message in &day {
            let end = at + feed(&[*message]).len();
            calls.run(at, &bytes[..end - 1]);
            calls.volume(ABC);
            calls.run(at, &bytes[..end]);
            calls.volume(ABC);
            at = end;
        }
    });
    cases.calls_on_abc("a-run-that-stops-within-a-cross", |calls| {
        let bytes = feed(&day);
        calls.run(0, &bytes[..29 + 33 + 24 + 28]);
        calls.volume(ABC);
        calls.run(29 + 33 + 24, &bytes);
        calls.volume(ABC);
    });
}
