//! Every byte in every position of the conditions, every code applied, and every byte where any is
//! good: request M-107.

use super::conditions::both_types;
use super::Cases;
use crate::make::call_list::CallList;
use crate::make::messages::*;
use crate::wire::{Body, Market, Message};

/// Regular conditions with this one instead.
fn regular_but(position: usize, code: u8) -> [u8; 4] {
    let mut conditions = *b"@   ";
    conditions[position] = code;
    conditions
}

pub fn add_to(cases: &mut Cases) {
    every_byte(cases);
    free_bytes(cases);
    for market in Market::ALL {
        let name = format!("every-code-of-market-{}-applied", market.id());
        cases.calls(&name, |calls| every_code(calls, market));
    }
    let codes: Vec<_> = applied(Market::Nyse).into_iter().flatten().collect();
    let order = add(1, 1, BUY, 1000, 100);
    cases.feed("every-code-of-nyse", &[vec![order], codes].concat());
}

/// Every byte in each position of a message that is good besides, on each market.
fn every_byte(cases: &mut Cases) {
    for (message, kind) in both_types().into_iter().zip(["103", "110"]) {
        let name = format!("every-byte-in-each-condition-of-a-{kind}");
        cases.calls(&name, |calls| {
            for market in Market::ALL {
                calls.new_market(market);
                for position in 0..4 {
                    for code in 0..=255 {
                        let conditions = regular_but(position, code);
                        calls.read(0, &feed(&[under(conditions, message)]));
                    }
                }
            }
        });
    }
}

/// Every byte in each place of a firm, a cross type, an indicator and plain bytes, and in the
/// reserved byte of a 103 and of a 104, which is as long.
fn free_bytes(cases: &mut Cases) {
    cases.calls("every-byte-where-any-is-good", |calls| {
        for byte in 0..=255_u8 {
            for message in with_free(byte) {
                calls.read(0, &feed(&[message]));
            }
            for (message, place) in [(both_types()[0], 37), (replace(1, 1, 2, BUY, 1000, 10), 41)] {
                let mut bytes = feed(&[message]);
                bytes[place] = byte;
                calls.read(0, &bytes);
            }
        }
    });
}

/// Messages whose free bytes count up from this one.
fn with_free(byte: u8) -> [Message; 5] {
    let mut messages = [
        add(1, 1, BUY, 1000, 10),
        cross(1, 1, 1000, 10),
        retail(1),
        imbalance(1),
        status(1),
    ];
    for message in &mut messages {
        let free: &mut [u8] = match &mut message.body {
            Body::Add { firm, .. } => firm,
            Body::Cross { cross_type, .. } => std::slice::from_mut(cross_type),
            Body::Retail { indicator } => std::slice::from_mut(indicator),
            Body::Imbalance { plain, .. } => plain,
            Body::Status { plain, .. } => plain,
            _ => &mut [],
        };
        for (place, free) in free.iter_mut().enumerate() {
            *free = byte.wrapping_add(place as u8);
        }
    }
    messages
}

/// A 103 and a 110 with the first code of each position, with the second and so on, numbered from 2
/// on. A position with fewer codes than another begins again.
fn applied(market: Market) -> Vec<[Message; 2]> {
    let codes: [Vec<u8>; 4] = std::array::from_fn(|position| market.codes(position).collect());
    let most = codes.iter().map(Vec::len).max().unwrap_or(0);
    let numbered = (0..most).zip((2..).step_by(2));
    numbered
        .map(|(place, number)| {
            let conditions = std::array::from_fn(|position| {
                let codes = &codes[position];
                codes[place % codes.len()]
            });
            [
                print_execute(number, 1, number, 1000, 1),
                trade(number + 1, number + 1, 1, 1),
            ]
            .map(|message| under(conditions, message))
        })
        .collect()
}

/// Each code in a 103 and a 110 that are applied, and the 103 written back.
fn every_code(calls: &mut CallList, market: Market) {
    calls.new_market(market);
    calls.register(ABC, 4, b"ABC");
    calls.step_messages(&[add(1, 1, BUY, 1000, 100)]);
    for messages in applied(market) {
        for message in messages {
            calls.step_messages(&[message]);
            calls.quote(ABC);
            calls.volume(ABC);
        }
        calls.write(125, 42, &feed(&messages[..1]));
    }
}
