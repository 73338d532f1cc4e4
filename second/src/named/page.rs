//! Corners of the TAQ lines.

use super::Cases;
use crate::make::messages::*;
use crate::wire::{Body, Message};

const ROOM: usize = 256;

fn with_firm(firm: [u8; 5]) -> Message {
    Message {
        body: Body::Add {
            order: 1,
            price: 1000,
            volume: 10,
            side: SELL,
            firm,
        },
        ..add(1, 1, SELL, 1000, 10)
    }
}

fn with_type(cross_type: u8) -> Message {
    Message {
        body: Body::Cross {
            cross: 1,
            price: 1000,
            volume: 10,
            cross_type,
        },
        ..cross(1, 1, 1000, 10)
    }
}

/// The 100 and the 111 with the longest lines, given the longest name.
fn longest() -> [Message; 2] {
    let (max, last) = (u32::MAX, 999_999_999);
    let add = Message {
        body: Body::Add {
            order: u64::MAX,
            price: max,
            volume: max,
            side: BUY,
            firm: *b"FIRM1",
        },
        ..add(max, 1, BUY, 1, 1)
    };
    [at(last, add), at(last, cross(max, max, max, max))]
}

pub fn add_to(cases: &mut Cases) {
    texts(cases);
    scales(cases);
    rooms(cases);
    order_of_checks(cases);
    clock(cases);
}

fn texts(cases: &mut Cases) {
    let bytes: Vec<u8> = (0..=255).collect();
    let firms: Vec<Message> = bytes
        .chunks(4)
        .map(|four| with_firm([four[0], four[1], b'F', four[2], four[3]]))
        .collect();
    cases.calls_on_abc("every-byte-in-a-firm", |calls| {
        for firm in &firms {
            calls.line(0, 1, 0, 111, &feed(&[*firm]));
        }
    });
    cases.calls_on_abc("every-cross-type", |calls| {
        for byte in &bytes {
            calls.line(0, 1, 0, 111, &feed(&[with_type(*byte)]));
        }
    });
    let mut printed = Vec::new();
    for (place, byte) in [0x00, 0x20, 0x21, b',', 0x7E, 0x7F, 0x80, 0xFF]
        .into_iter()
        .enumerate()
    {
        let number = place as u32 * 2 + 1;
        printed.push(Message {
            number: number + 1,
            ..with_type(byte)
        });
        let mut one = with_firm([byte; 5]);
        if let Body::Add { order, .. } = &mut one.body {
            *order = u64::from(number);
        }
        printed.insert(printed.len() - 1, Message { number, ..one });
    }
    cases.feed("text-bytes-on-printed-lines", &printed);
}

fn scales(cases: &mut Cases) {
    cases.calls("prices-at-every-scale", |calls| {
        for scale in 0..=6 {
            calls.register(u32::from(scale), scale, b"ABC");
            for price in [
                0,
                5,
                9,
                10,
                99,
                100,
                999_999,
                1_000_000,
                1_234_500,
                u32::MAX,
            ] {
                let index = u32::from(scale);
                calls.line(0, 1, 0, ROOM, &feed(&[on(index, add(1, 1, BUY, price, 1))]));
                calls.line(0, 1, 0, ROOM, &feed(&[on(index, cross(1, 1, price, 1))]));
            }
        }
    });
}

fn rooms(cases: &mut Cases) {
    cases.calls("the-longest-lines", |calls| {
        calls.register(ABC, 4, b"ABCDEFGHIJK");
        for (message, length) in longest().into_iter().zip([111, 93]) {
            for room in [length, length - 1, length + 1, 0, 1, ROOM] {
                calls.line(
                    999_999_999,
                    u32::MAX,
                    86_399,
                    room,
                    &feed(&[on(ABC, message)]),
                );
            }
        }
    });
    cases.calls("the-shortest-lines", |calls| {
        calls.register(0, 0, b"A");
        let shortest = [
            (on(0, add(0, 0, BUY, 0, 1)), 45),
            (on(0, cross(0, 0, 0, 0)), 37),
        ];
        for (message, length) in shortest {
            for room in [length, length - 1, ROOM] {
                calls.line(0, 0, 0, room, &feed(&[message]));
            }
        }
    });
}

fn order_of_checks(cases: &mut Cases) {
    let bad = 1_000_000_000;
    cases.calls_on_abc("the-order-of-a-line-s-checks", |calls| {
        let add = add(1, 1, BUY, 1000, 10);
        let unknown = on(8, add);
        calls.line(bad, 1, 86_400, 0, &feed(&[on(8, delete(1, 1))]));
        calls.line(1, 1, 0, ROOM, &feed(&[delete(1, 1)]));
        calls.line(bad, 1, 86_400, 0, &feed(&[unknown]));
        calls.line(1, 1, 86_400, 0, &feed(&[unknown]));
        calls.line(1, 1, 86_400, 0, &feed(&[add]));
        calls.line(1, 1, 86_399, 0, &feed(&[add]));
        calls.line(bad, 1, 0, ROOM, &feed(&[add]));
        calls.line(1, 1, 0, ROOM, &feed(&[unknown]));
        calls.line(1, 1, 86_400, ROOM, &feed(&[add]));
        calls.line(u32::MAX, 1, 0, ROOM, &feed(&[cross(1, 1, 1, 0)]));
    });
    cases.calls_on_abc("a-line-of-each-type", |calls| {
        for message in super::fields::one_of_each() {
            calls.line(1, 1, 0, ROOM, &feed(&[message]));
            calls.line(bad, 1, 86_400, 0, &feed(&[message]));
        }
    });
    cases.calls_on_abc("a-line-of-what-cannot-be-read", |calls| {
        for bytes in [&[][..], &[3, 0, 0, 0], &[4, 0, 0xE7, 3], &[4, 0, 100, 0]] {
            calls.line(1, 1, 0, ROOM, bytes);
        }
        calls.line(1, 1, 0, ROOM, &feed(&[add(1, 1, b'X', 1, 1)]));
    });
    cases.calls_on_abc("a-line-needs-no-applied-message", |calls| {
        calls.step_messages(&[retail(9)]);
        calls.line(1, 1, 0, ROOM, &feed(&[add(77, 1, BUY, 1000, 10)]));
        calls.line(1, 0, 0, ROOM, &feed(&[cross(0, 0, 0, 0)]));
    });
}

fn clock(cases: &mut Cases) {
    cases.calls_on_abc("times-of-the-day", |calls| {
        let seconds = [
            0, 1, 59, 60, 61, 3_599, 3_600, 35_999, 36_000, 43_200, 86_399,
        ];
        for second in seconds {
            for nanoseconds in [0, 1, 100_000_000, 999_999_999] {
                calls.line(nanoseconds, 1, second, ROOM, &feed(&[cross(1, 2, 3, 4)]));
            }
        }
    });
}
