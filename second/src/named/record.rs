//! Corners of the kept trades. The program does not print them, so these are calls of the probe.

use super::Cases;
use crate::make::messages::*;
use crate::wire::Message;

/// Printed trades from that number on, trade 1 with volume 1, trade 2 with volume 2 and so on.
pub fn trades(from: u32, count: u32) -> Vec<Message> {
    (1..=count)
        .map(|place| trade(from + place - 1, place, place, 1))
        .collect()
}

/// Some messages in a run, then a step for each other one with the volume after it; and all at once.
pub fn told_after(cases: &mut Cases, name: &str, before: &[Message], messages: &[Message]) {
    cases.at_once(name, &[before, messages].concat());
    cases.calls_on_abc(name, |calls| {
        if !before.is_empty() {
            calls.run_messages(before);
            calls.volume(ABC);
        }
        for message in messages {
            calls.step_messages(&[*message]);
            calls.volume(ABC);
        }
    });
}

/// The same without messages before.
pub fn told(cases: &mut Cases, name: &str, messages: &[Message]) {
    told_after(cases, name, &[], messages);
}

pub fn add_to(cases: &mut Cases) {
    capacity(cases);
    marks(cases);
    kinds(cases);
    cases.calls_on_abc("a-volume-past-32-bits", |calls| {
        let messages: Vec<_> = (1..=128)
            .map(|number| trade(number, number, u32::MAX, 1))
            .collect();
        calls.run_messages(&messages);
    });
    cases.calls("the-volume-of-no-symbol", |calls| {
        calls.volume(ABC);
        calls.quote(ABC);
        calls.register(ABC, 4, b"ABC");
        calls.volume(ABC);
        calls.volume(8);
    });
}

fn capacity(cases: &mut Cases) {
    cases.calls_on_abc("128-trades-are-whole", |calls| {
        calls.run_messages(&trades(1, 128));
    });
    cases.calls_on_abc("the-129th-trade", |calls| {
        calls.run_messages(&trades(1, 129));
        calls.quote(ABC);
    });
    cases.calls_on_abc("129-trades-one-by-one", |calls| {
        calls.step_messages(&trades(1, 129));
    });
    for count in [127, 128, 129] {
        told_after(
            cases,
            &format!("{count}-trades-and-two-cancels"),
            &trades(1, count),
            &[cancel(count + 1, count), cancel(count + 2, 1)],
        );
    }
    told_after(
        cases,
        "a-full-record",
        &trades(1, 128),
        &[
            trade(129, 500, 7, 0),
            add(130, 1, BUY, 1000, 10),
            execute(131, 1, 1000, 3),
            print_execute(132, 1, 501, 1000, 3),
            cancel(133, 64),
            trade(134, 502, 9, 1),
            trade(135, 503, 9, 1),
        ],
    );
    told_after(
        cases,
        "a-repeated-number-in-a-full-record",
        &trades(1, 128),
        &[trade(129, 1, 7, 1)],
    );
    told_after(
        cases,
        "room-for-a-trade-again",
        &trades(1, 128),
        &[cancel(129, 1), trade(130, 1, 1000, 1), cancel(131, 128)],
    );
}

fn marks(cases: &mut Cases) {
    told(
        cases,
        "the-mark-goes-with-a-gap",
        &[trade(1, 1, 5, 1), retail(3), clear(2), retail(2)],
    );
    told(
        cases,
        "the-mark-goes-with-a-misfit",
        &[trade(1, 1, 5, 1), delete(2, 9), clear(2)],
    );
    told(
        cases,
        "the-mark-stays-at-a-low-number",
        &[trade(1, 1, 5, 1), retail(1), retail(0), retail(2)],
    );
    for next in [1, 2, 3] {
        told(
            cases,
            &format!("the-mark-at-a-clear-to-{next}"),
            &[trade(1, 1, 5, 1), clear(next), trade(next, 2, 6, 1)],
        );
    }
    told(
        cases,
        "the-mark-past-the-last-number",
        &[clear(u32::MAX), retail(u32::MAX), clear(0), clear(0)],
    );
    told(
        cases,
        "still-recording-without-the-mark",
        &[
            cancel(1, 9),
            trade(2, 9, 5, 1),
            trade(3, 10, 6, 1),
            cancel(4, 9),
            retail(9),
            trade(5, 11, 7, 1),
            clear(5),
            trade(5, 11, 7, 1),
        ],
    );
}

fn kinds(cases: &mut Cases) {
    told(
        cases,
        "a-cancel-of-a-trade-not-printed",
        &[trade(1, 1, 5, 0), cancel(2, 1), add(3, 1, BUY, 1000, 10)],
    );
    told(
        cases,
        "a-cancel-twice",
        &[trade(1, 1, 5, 1), cancel(2, 1), cancel(3, 1)],
    );
    told(
        cases,
        "a-removed-number-is-recorded-again",
        &[trade(1, 1, 5, 1), cancel(2, 1), trade(3, 1, 6, 1)],
    );
    told(
        cases,
        "a-repeated-trade-number",
        &[trade(1, 1, 5, 1), trade(2, 1, 6, 1), cancel(3, 1)],
    );
    told(
        cases,
        "executions-and-trades-share-numbers",
        &[
            add(1, 1, BUY, 1000, 10),
            print_execute(2, 1, 0, 900, 4),
            trade(3, 0, 6, 1),
            cancel(4, 0),
        ],
    );
    told(
        cases,
        "an-execution-that-does-not-fit",
        &[add(1, 1, BUY, 1000, 10), print_execute(2, 1, 5, 900, 11)],
    );
    told(
        cases,
        "trade-numbers-0-and-all-ones",
        &[
            trade(1, 0, 5, 1),
            trade(2, u32::MAX, 6, 1),
            cancel(3, 0),
            cancel(4, u32::MAX),
            cancel(5, 0),
        ],
    );
}
