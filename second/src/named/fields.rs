//! Corners of reading and writing one message.

use super::Cases;
use crate::make::messages::*;
use crate::wire::message::size_of_type;
use crate::wire::{Body, Message};

/// One good message of each type, numbered from 1 on, in the order of the table.
pub fn one_of_each() -> Vec<Message> {
    vec![
        add(1, 1, BUY, 1000, 10),
        modify(2, 1, BUY, 1001, 20),
        execute(3, 1, 1001, 5),
        replace(4, 1, 2, BUY, 1002, 30),
        delete(5, 2),
        imbalance(6),
        trade(7, 1, 10, 1),
        cross(8, 1, 1000, 10),
        cancel(9, 1),
        correction(10, 1, 20),
        retail(11),
        status(12),
        clear(13),
    ]
}

pub fn add_to(cases: &mut Cases) {
    cases.both("one-of-each", &one_of_each());
    cases.both(
        "bad-nanoseconds-in-each",
        &one_of_each().map_all(|message| at(1_000_000_000, message)),
    );
    cases.both(
        "the-last-nanosecond-in-each",
        &one_of_each().map_all(|message| at(999_999_999, message)),
    );
    reserved(cases);
    flags(cases);
    sizes(cases);
    free_values(cases);
    writer(cases);
}

trait MapAll {
    fn map_all(self, change: impl Fn(Message) -> Message) -> Self;
}

impl MapAll for Vec<Message> {
    fn map_all(self, change: impl Fn(Message) -> Message) -> Self {
        self.into_iter().map(change).collect()
    }
}

fn reserved(cases: &mut Cases) {
    let places = [(0, 38), (1, 34), (2, 37), (3, 41), (4, 24)];
    let mut bytes = Vec::new();
    for (which, place) in places {
        let mut one = feed(&[one_of_each()[which]]);
        one[place] = 0xFF;
        bytes.push(one);
    }
    cases.fed("reserved-bytes-are-dropped", bytes.concat());
    cases.calls_on_abc("reserved-bytes-are-written-as-0", |calls| {
        for one in &bytes {
            calls.write(1, one.len(), one);
        }
        let plain = Message {
            body: Body::Imbalance {
                seconds: 9,
                plain: [0xFF; 53],
            },
            ..imbalance(1)
        };
        calls.write(1, 73, &feed(&[plain]));
    });
}

fn flags(cases: &mut Cases) {
    for flag in [0, 1, 2, 0x30, 0x31, 0xFF] {
        let mut bytes = feed(&[
            add(1, 1, BUY, 1000, 10),
            modify(2, 1, BUY, 1000, 20),
            execute(3, 1, 1000, 5),
            trade(4, 1, 10, 1),
        ]);
        bytes[39 + 32] = flag;
        bytes[39 + 35 + 36] = flag;
        bytes[39 + 35 + 42 + 28] = flag;
        cases.fed(&format!("flags-of-{flag}"), bytes);
    }
    for side in [0, b'A', b'b', b's', 0xFF] {
        cases.fed(
            &format!("side-of-{side}"),
            feed(&[
                add(1, 1, side, 1000, 10),
                add(1, 1, BUY, 1000, 10),
                modify(2, 1, side, 1000, 20),
                replace(2, 1, 2, side, 1000, 20),
            ]),
        );
    }
    cases.fed(
        "volume-0",
        feed(&[
            add(1, 1, BUY, 1000, 0),
            add(1, 1, BUY, 1000, 10),
            modify(2, 1, BUY, 1000, 0),
            execute(2, 1, 1000, 0),
            replace(2, 1, 2, BUY, 1000, 0),
            trade(2, 1, 0, 1),
            cross(2, 1, 1000, 0),
            correction(3, 1, 0),
            cross(4, 2, 0, 0),
        ]),
    );
}

fn sizes(cases: &mut Cases) {
    let [mut short, mut long, mut least] = [(); 3].map(|()| Vec::new());
    for message in one_of_each() {
        let size = size_of_type(message.kind()).unwrap_or(0) as u16;
        let mut bytes = feed(&[message]);
        bytes[..2].copy_from_slice(&(size - 1).to_le_bytes());
        short.push(bytes[..bytes.len() - 1].to_vec());
        bytes[..2].copy_from_slice(&(size + 1).to_le_bytes());
        bytes.push(0);
        long.push(bytes);
        least.push([&[4, 0], &message.kind().to_le_bytes()[..]].concat());
    }
    for (name, messages) in [
        ("one-byte-too-few-in-each", short),
        ("one-byte-too-many-in-each", long),
        ("size-4-in-each", least),
    ] {
        cases.fed(name, messages.concat());
        cases.in_runs(name, &messages);
    }
    for (name, size) in [
        ("types-outside-the-table", 39_u16),
        ("types-outside-of-4-bytes", 4),
    ] {
        let mut bytes = Vec::new();
        for kind in [0_u16, 1, 2, 3, 33, 35, 99, 106, 115, 223, 0x0164, 65535] {
            let mut one = feed(&[add(1, 1, BUY, 1000, 10)]);
            one.truncate(usize::from(size));
            one[..2].copy_from_slice(&size.to_le_bytes());
            one[2..4].copy_from_slice(&kind.to_le_bytes());
            bytes.extend(one);
        }
        bytes.extend(feed(&[add(1, 1, BUY, 1000, 10)]));
        cases.fed(name, bytes);
    }
}

fn free_values(cases: &mut Cases) {
    cases.both(
        "order-0-and-all-ones",
        &[
            delete(1, 0),
            clear(1),
            add(1, 0, BUY, 0, 1),
            add(2, u64::MAX, BUY, 0, 2),
            replace(3, 0, 5, BUY, 1, 3),
            replace(4, 5, 0, BUY, 1, 4),
            modify(5, u64::MAX, BUY, 2, 5),
            delete(6, u64::MAX),
            execute(7, 0, 9, 4),
        ],
    );
    for (name, order) in [("0", 0), ("all-ones", u64::MAX)] {
        cases.both(
            &format!("order-{name}-is-live-once"),
            &[add(1, order, BUY, 0, 1), add(2, order, BUY, 0, 1)],
        );
        cases.both(
            &format!("replace-by-live-order-{name}"),
            &[
                add(1, order, BUY, 0, 1),
                add(2, 5, BUY, 0, 1),
                replace(3, 5, order, BUY, 0, 1),
            ],
        );
    }
    cases.calls("index-0-and-all-ones", |calls| {
        for index in [0, u32::MAX] {
            calls.quote(index);
            calls.volume(index);
            calls.step_messages(&[on(index, add(1, 1, BUY, 5, 1))]);
            calls.register(index, 0, b"X");
            calls.step_messages(&[on(index, add(1, 1, BUY, 5, 1))]);
            calls.quote(index);
        }
        calls.quote(0);
    });
}

fn writer(cases: &mut Cases) {
    cases.calls("write-each-in-all-rooms", |calls| {
        for message in one_of_each() {
            let bytes = feed(&[message]);
            for room in [bytes.len(), bytes.len() - 1, 0, 256] {
                calls.write(999_999_999, room, &bytes);
            }
            calls.write(1_000_000_000, bytes.len(), &bytes);
            calls.write(1_000_000_000, 0, &bytes);
        }
    });
    cases.calls("write-what-cannot-be-read", |calls| {
        calls.write(1, 256, &[]);
        calls.write(1, 256, &[3, 0, 100, 0]);
        calls.write(1, 256, &[4, 0, 0xE7, 3]);
        calls.write(1, 256, &[4, 0, 100, 0]);
        calls.write(1, 256, &feed(&[add(1, 1, 0, 1, 1)]));
        calls.write(1, 256, &feed(&[at(u32::MAX, add(1, 1, BUY, 1, 1))]));
    });
}
