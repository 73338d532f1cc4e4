//! Which bad field a refusal names: request M-111.

use super::printout::unknown;
use super::Cases;
use crate::make::bad_fields::{spoiled, Bad};
use crate::make::messages::*;
use crate::wire::Message;

const NANOSECONDS: Bad = Bad::Nanoseconds(1_000_000_000);
const VOLUME: Bad = Bad::Volume;
const FLAG: Bad = Bad::Flag(2);
const SIDE: Bad = Bad::Side(0);

/// Every set of two or more of the fields with a rule, where a type has a side, a flag or both.
const WITH_SIDE: [&[Bad]; 4] = [
    &[VOLUME, SIDE],
    &[NANOSECONDS, VOLUME],
    &[NANOSECONDS, SIDE],
    &[NANOSECONDS, VOLUME, SIDE],
];
const WITH_FLAG: [&[Bad]; 4] = [
    &[VOLUME, FLAG],
    &[NANOSECONDS, VOLUME],
    &[NANOSECONDS, FLAG],
    &[NANOSECONDS, VOLUME, FLAG],
];
const WITH_BOTH: [&[Bad]; 11] = [
    &[VOLUME, FLAG, SIDE],
    &[FLAG, SIDE],
    &[VOLUME, FLAG],
    &[VOLUME, SIDE],
    &[NANOSECONDS, VOLUME],
    &[NANOSECONDS, FLAG],
    &[NANOSECONDS, SIDE],
    &[NANOSECONDS, VOLUME, FLAG],
    &[NANOSECONDS, VOLUME, SIDE],
    &[NANOSECONDS, FLAG, SIDE],
    &[NANOSECONDS, VOLUME, FLAG, SIDE],
];

pub fn add_to(cases: &mut Cases) {
    cases.read_and_applied("each-bad-field-alone", &alone());
    cases.read_and_applied("several-bad-fields", &several());
    outputs(cases);
    other_answers(cases);
    effects(cases);
    places(cases);
}

fn add_one() -> Message {
    add(1, 1, BUY, 1000, 10)
}

/// Each type of the table with each of its fields bad, in the order of the offsets. Conditions have
/// cases of their own.
fn alone() -> Vec<Message> {
    let types: [(Message, &[Bad]); 13] = [
        (add_one(), &[NANOSECONDS, VOLUME, SIDE]),
        (
            modify(1, 1, BUY, 1000, 10),
            &[NANOSECONDS, VOLUME, FLAG, SIDE],
        ),
        (delete(1, 1), &[NANOSECONDS]),
        (execute(1, 1, 1000, 10), &[NANOSECONDS, VOLUME, FLAG]),
        (
            replace(1, 1, 2, BUY, 1000, 10),
            &[NANOSECONDS, VOLUME, SIDE],
        ),
        (imbalance(1), &[NANOSECONDS]),
        (trade(1, 1, 10, 1), &[NANOSECONDS, VOLUME, FLAG]),
        (cross(1, 1, 1000, 10), &[NANOSECONDS]),
        (cancel(1, 1), &[NANOSECONDS]),
        (correction(1, 1, 10), &[NANOSECONDS]),
        (retail(1), &[NANOSECONDS]),
        (clear(1), &[NANOSECONDS]),
        (status(1), &[NANOSECONDS]),
    ];
    let mut messages = Vec::new();
    for (message, fields) in types {
        messages.extend(fields.iter().map(|bad| spoiled(message, &[*bad])));
    }
    messages
}

fn several() -> Vec<Message> {
    let types: [(Message, &[&[Bad]]); 5] = [
        (add_one(), &WITH_SIDE),
        (modify(1, 1, BUY, 1000, 10), &WITH_BOTH),
        (execute(1, 1, 1000, 10), &WITH_FLAG),
        (replace(1, 1, 2, BUY, 1000, 10), &WITH_SIDE),
        (trade(1, 1, 10, 1), &WITH_FLAG),
    ];
    let mut messages = Vec::new();
    for (message, sets) in types {
        messages.extend(sets.iter().map(|set| spoiled(message, set)));
    }
    messages
}

/// Bytes that do not read, and the checks of the writer and the line themselves.
fn outputs(cases: &mut Cases) {
    cases.calls_on_abc("a-bad-field-before-writing", |calls| {
        for message in alone() {
            let bytes = feed(&[message]);
            calls.write(1, 2, &bytes);
            calls.line(1, 1, 0, 2, &bytes);
        }
        // The bad nanoseconds of the call come too late.
        let bad_side = feed(&[spoiled(add_one(), &[SIDE])]);
        calls.write(u32::MAX, 2, &bad_side);
        calls.line(u32::MAX, 1, 0, 2, &bad_side);
    });
    cases.calls_on_abc("a-bad-field-in-writing", |calls| {
        for message in super::fields::one_of_each() {
            calls.write(1_000_000_000, 2, &feed(&[message]));
            calls.line(1_000_000_000, 1, 0, 2, &feed(&[message]));
        }
    });
}

/// Refusals with other numbers, each behind a 4 whose offset must not stay.
fn other_answers(cases: &mut Cases) {
    let bad_side = feed(&[spoiled(add_one(), &[SIDE])]);
    let mut wrong_size = [&bad_side[..], &[0]].concat();
    wrong_size[0] += 1;
    let mut unknown_type = bad_side.clone();
    unknown_type[2] = 106;
    let mut others = vec![wrong_size, unknown_type];
    let messages = [
        on(8, add_one()),
        on(8, spoiled(add_one(), &[SIDE])),
        add(0, 1, BUY, 1000, 10),
        add_one(),
        add(3, 1, BUY, 1000, 10),
        add(2, 1, BUY, 1000, 10),
        clear(2),
        delete(2, 9),
    ];
    others.extend(messages.map(|message| feed(&[message])));
    let cut = &bad_side[..38];
    let others = others.iter().map(Vec::as_slice).chain([cut]);
    let pairs: Vec<&[u8]> = others.clone().flat_map(|one| [&bad_side, one]).collect();
    cases.feed_bytes("no-offset-with-another-answer", pairs.concat());
    cases.calls_on_abc("no-offset-with-another-answer", |calls| {
        for bytes in others {
            calls.step(0, &bad_side);
            calls.step(0, bytes);
            calls.read(0, &bad_side);
            calls.read(0, bytes);
        }
    });
}

/// A bad field is refused in every state, and costs what a lost message costs.
fn effects(cases: &mut Cases) {
    cases.both(
        "a-bad-field-is-a-lost-message",
        &[
            add_one(),
            spoiled(modify(2, 1, BUY, 1001, 20), &[SIDE]),
            add(3, 2, BUY, 1000, 20),
            add(4, 3, BUY, 1000, 30),
            spoiled(execute(5, 1, 1000, 5), &[FLAG]),
            spoiled(clear(5), &[NANOSECONDS]),
            add(5, 4, BUY, 1000, 40),
            clear(5),
            spoiled(trade(5, 1, 10, 1), &[VOLUME]),
            add(5, 4, BUY, 1000, 40),
        ],
    );
}

/// The offset counts from the message's start, wherever in the stream or the file that lies.
fn places(cases: &mut Cases) {
    cases.calls_on_abc("an-offset-is-no-position", |calls| {
        let bytes = feed(&[
            spoiled(add_one(), &[SIDE]),
            spoiled(clear(1), &[NANOSECONDS]),
            spoiled(modify(1, 1, BUY, 1000, 10), &[FLAG]),
        ]);
        for at in [0, 39, 59] {
            calls.read(at, &bytes);
            calls.step(at, &bytes);
        }
        calls.run(0, &bytes);
    });
    cases.feed("bad-fields-at-places-of-four-digits", &alone().repeat(42));
    cases.feed_bytes(
        "a-bad-field-across-the-part",
        [
            unknown(65_520),
            feed(&[spoiled(add_one(), &[SIDE]), add_one()]),
        ]
        .concat(),
    );
}
