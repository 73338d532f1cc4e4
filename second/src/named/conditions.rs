//! Conditions that NYSE does not list, alone and beside other faults, and what they cost: request
//! M-107.

use super::printout::unknown;
use super::Cases;
use crate::make::bad_fields::{spoiled, Bad};
use crate::make::messages::*;
use crate::wire::Message;

/// A bad code for each position: a space where none is listed, a code of another position, no
/// space, and the small letter that looks like odd lot's.
const BAD: [Bad; 4] = [
    Bad::Condition(0, b' '),
    Bad::Condition(1, b'@'),
    Bad::Condition(2, 0),
    Bad::Condition(3, b'l'),
];

/// Every set of two or more positions.
const SETS: [&[usize]; 11] = [
    &[0, 1],
    &[0, 2],
    &[0, 3],
    &[1, 2],
    &[1, 3],
    &[2, 3],
    &[0, 1, 2],
    &[0, 1, 3],
    &[0, 2, 3],
    &[1, 2, 3],
    &[0, 1, 2, 3],
];

const NANOSECONDS: Bad = Bad::Nanoseconds(1_000_000_000);
const VOLUME: Bad = Bad::Volume;
const FLAG: Bad = Bad::Flag(2);

/// Every set of the other fields that a 103 or a 110 has a rule for.
const OTHERS: [&[Bad]; 7] = [
    &[NANOSECONDS],
    &[VOLUME],
    &[FLAG],
    &[NANOSECONDS, VOLUME],
    &[NANOSECONDS, FLAG],
    &[VOLUME, FLAG],
    &[NANOSECONDS, VOLUME, FLAG],
];

pub fn add_to(cases: &mut Cases) {
    let alone = each_bad(both_types());
    let not_printed = each_bad([execute(1, 1, 1000, 10), trade(1, 1, 10, 0)]);
    cases.read_and_applied("each-bad-condition-alone", &alone);
    cases.read_and_applied("several-bad-conditions", &several());
    cases.read_and_applied("a-bad-condition-behind-bad-fields", &behind());
    cases.read_and_applied("a-bad-condition-of-what-is-not-printed", &not_printed);
    other_checks(cases);
    effects(cases, "103", |number| {
        spoiled(print_execute(number, 1, 6, 1000, 4), &[BAD[3]])
    });
    effects(cases, "110", |number| {
        spoiled(trade(number, 6, 4, 1), &[BAD[0]])
    });
    page(cases, &alone);
    outputs(cases, &alone);
}

/// A printed 103 and a printed 110.
pub fn both_types() -> [Message; 2] {
    [print_execute(1, 1, 1, 1000, 10), trade(1, 1, 10, 1)]
}

/// Each of them with each position bad.
fn each_bad(types: [Message; 2]) -> Vec<Message> {
    let each = |message| BAD.map(|bad| spoiled(message, &[bad]));
    types.into_iter().flat_map(each).collect()
}

fn several() -> Vec<Message> {
    let mut messages = Vec::new();
    for message in both_types() {
        for set in SETS {
            let values: Vec<Bad> = set.iter().map(|position| BAD[*position]).collect();
            messages.push(spoiled(message, &values));
        }
    }
    messages
}

/// Each set of other bad fields, with another condition bad each time.
fn behind() -> Vec<Message> {
    let mut messages = Vec::new();
    for message in both_types() {
        for (others, condition) in OTHERS.into_iter().zip(BAD.into_iter().cycle()) {
            messages.push(spoiled(message, &[others, &[condition]].concat()));
        }
    }
    messages
}

/// Sizes and types are checked before conditions, symbols and all that comes later after them.
fn other_checks(cases: &mut Cases) {
    let mut parts = Vec::new();
    for message in both_types().map(|message| spoiled(message, &[BAD[3]])) {
        let bytes = feed(&[message]);
        let mut short = bytes[..bytes.len() - 1].to_vec();
        short[0] -= 1;
        let mut long = [&bytes[..], b" "].concat();
        long[0] += 1;
        let mut unknown_type = bytes.clone();
        unknown_type[3] = 1;
        let other_symbol = feed(&[on(8, message)]);
        let low = feed(&[Message {
            number: 0,
            ..message
        }]);
        let gap = feed(&[Message {
            number: 9,
            ..message
        }]);
        parts.extend([short, long, unknown_type, other_symbol, low, gap]);
    }
    // The last one is cut.
    let cut = feed(&[spoiled(trade(1, 1, 10, 1), &BAD)]);
    parts.push(cut[..32].to_vec());
    cases.feed_bytes("a-bad-condition-and-other-checks", parts.concat());
    cases.calls_on_abc("a-bad-condition-and-other-checks", |calls| {
        for bytes in &parts {
            calls.read(0, bytes);
            calls.step(0, bytes);
        }
    });
}

/// A refused 103 or 110 leaves the book, the trades and the mark, and its number is not used.
fn effects(cases: &mut Cases, kind: &str, bad: impl Fn(u32) -> Message) {
    cases.both(
        &format!("a-{kind}-with-a-bad-condition-is-a-lost-one"),
        &[
            add(1, 1, BUY, 1000, 10),
            print_execute(2, 1, 5, 1000, 3),
            bad(3),
            retail(4),
            bad(3),
            clear(4),
            bad(4),
            retail(4),
        ],
    );
    cases.both(
        &format!("a-{kind}-with-a-bad-condition-uses-no-number"),
        &[
            add(1, 1, BUY, 1000, 10),
            bad(2),
            print_execute(2, 1, 6, 1000, 4),
            bad(3),
            trade(3, 7, 5, 1),
        ],
    );
}

/// Places of four digits, and a message across the end of a part.
fn page(cases: &mut Cases, alone: &[Message]) {
    cases.feed(
        "bad-conditions-at-places-of-four-digits",
        &alone.repeat(126),
    );
    let bad = spoiled(print_execute(2, 1, 1, 1000, 4), &[BAD[2]]);
    let more = [
        add(1, 1, BUY, 1000, 10),
        bad,
        print_execute(2, 1, 1, 1000, 4),
    ];
    cases.feed_bytes(
        "a-bad-condition-across-the-part",
        [unknown(65_457), feed(&more)].concat(),
    );
}

/// Bytes that do not read are not written; of those that do a line is refused for its type.
fn outputs(cases: &mut Cases, alone: &[Message]) {
    cases.calls_on_abc("a-bad-condition-before-writing", |calls| {
        for message in alone.iter().chain(&both_types()) {
            let bytes = feed(&[*message]);
            calls.write(1, 42, &bytes);
            calls.line(1, 1, 0, 2, &bytes);
            // The bad nanoseconds of the call come after the bad condition.
            calls.write(1_000_000_000, 2, &bytes);
        }
    });
}
