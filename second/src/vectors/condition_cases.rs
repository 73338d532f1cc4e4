//! The calls `D` and `M` with conditions of every market: request M-107.

use super::hand::Hand;
use super::hand_cases;
use super::raw::{raw, Raw};
use super::read_cases::push_decode_on;
use crate::wire::Market;

/// What a market's messages are tried with, chosen by hand.
struct Codes {
    market: Market,
    /// Four that are good.
    good: [u8; 4],
    /// For each position others that are good too, where there are others.
    others: [&'static [u8]; 4],
    /// For each position two that are bad.
    bad: [[u8; 2]; 4],
}

const CODES: [Codes; 5] = [
    Codes {
        market: Market::Nyse,
        good: *b"@O  ",
        others: [b"", b"5", b"T", b"I"],
        bad: [*b" C", *b"7\0", *b"tV", *b"lV"],
    },
    Codes {
        market: Market::Arca,
        good: *b"@ UI",
        others: [b"", b"6", b"Z", b" "],
        bad: [*b"R\0", *b"7o", *b"I@", *b"V1"],
    },
    Codes {
        market: Market::American,
        good: *b"@FT ",
        others: [b"", b"O", b"U", b"I"],
        bad: [*b"CA", *b"49", *b"\0F", *b"Mi"],
    },
    Codes {
        market: Market::National,
        good: *b"@FZI",
        others: [b"", b" ", b"T", b" "],
        bad: [*b"C ", *b"O6", *b"z\xFF", *b"VQ"],
    },
    Codes {
        market: Market::Texas,
        good: *b"C7 V",
        others: [b"@", b"F", b"U", b"I"],
        bad: [*b" c", *b"6O", *b"5\0", *b"l@"],
    },
];

/// Every set of two or more positions, as bits.
const SETS: [u8; 11] = [3, 5, 6, 7, 9, 10, 11, 12, 13, 14, 15];

pub fn conditions(calls: &mut Vec<u8>) {
    for codes in CODES {
        for (kind, bad) in [(103, 2), (110, 1)] {
            push(calls, &raw(kind), codes.market, codes.good);
            for position in 0..4 {
                let others = codes.others[position].iter();
                for code in others.chain(&codes.bad[position][..bad]) {
                    let mut conditions = codes.good;
                    conditions[position] = *code;
                    push(calls, &raw(kind), codes.market, conditions);
                }
            }
        }
    }
    several(calls);
    not_printed(calls);
}

/// The first of several bad conditions is told, whichever they are.
fn several(calls: &mut Vec<u8>) {
    for set in SETS {
        let conditions = std::array::from_fn(|position| match set & (1 << position) {
            0 => CODES[0].good[position],
            _ => CODES[0].bad[position][0],
        });
        push(calls, &raw(103), CODES[0].market, conditions);
    }
}

/// A bad condition is bad whatever the printable byte says.
fn not_printed(calls: &mut Vec<u8>) {
    let conditions = [CODES[0].bad[0][0], CODES[0].good[1], b' ', b' '];
    for raw in [raw(103), raw(110)] {
        let mut bytes = bytes(&raw, conditions);
        if let Some(flag) = raw.flag {
            bytes[flag] = 0;
        }
        push_decode_on(Market::Nyse, calls, &bytes);
        let hand = hand(&raw, Market::Nyse, conditions);
        Hand { flag: 0, ..hand }.push_call(calls, raw.size);
    }
}

/// A printed message with these conditions, read and written.
fn push(calls: &mut Vec<u8>, raw: &Raw, market: Market, conditions: [u8; 4]) {
    push_decode_on(market, calls, &bytes(raw, conditions));
    hand(raw, market, conditions).push_call(calls, raw.size);
}

fn bytes(raw: &Raw, conditions: [u8; 4]) -> Vec<u8> {
    let mut bytes = raw.distinct(0x63);
    if let Some(flag) = raw.flag {
        bytes[flag] = 1;
    }
    if let Some(place) = raw.conditions {
        bytes[place..place + 4].copy_from_slice(&conditions);
    }
    bytes
}

fn hand(raw: &Raw, market: Market, conditions: [u8; 4]) -> Hand {
    let mut hand = Hand {
        market,
        ..hand_cases::distinct(raw.kind)
    };
    hand.plain[..4].copy_from_slice(&conditions);
    hand
}
