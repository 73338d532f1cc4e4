//! The calls `M`: messages made by hand, written into buffers of all kinds of room.

use super::hand::{Hand, LARGEST_ROOM};
use super::raw::{raws, Raw};
use crate::wire::message::{EXECUTE, TRADE};
use crate::wire::Market;

/// Every field good on NYSE, with a byte of its own in every place, spare bytes too: those behind
/// the conditions are no codes.
pub fn distinct(kind: u16) -> Hand {
    let mut plain = [0; 53];
    for (place, byte) in plain.iter_mut().enumerate() {
        *byte = 0xC1 + place as u8;
    }
    put_conditions(kind, *b"@FZI", &mut plain);
    Hand {
        market: Market::Nyse,
        kind,
        seconds: 0x0403_0201,
        nanoseconds: 0x1807_0605,
        index: 0x0C0B_0A09,
        number: 0x100F_0E0D,
        order: 0x8817_1615_1413_1211,
        new_order: 0x9927_2625_2423_2221,
        id: 0xB433_3231,
        price: 0xC837_3635,
        volume: 0xDC3B_3A39,
        flag: 1,
        side: b'B',
        letter: 0xF7,
        plain,
    }
}

/// This byte wherever any byte is good on NYSE.
pub fn filled(kind: u16, byte: u8) -> Hand {
    let wide = u32::from_le_bytes([byte; 4]);
    let order = u64::from_le_bytes([byte; 8]);
    let mut plain = [byte; 53];
    put_conditions(kind, *b"@6UI", &mut plain);
    Hand {
        market: Market::Nyse,
        kind,
        seconds: wide,
        nanoseconds: wide.min(999_999_999),
        index: wide,
        number: wide,
        order,
        new_order: order,
        id: wide,
        price: wide,
        volume: wide.max(1),
        flag: byte & 1,
        side: if byte == 0 { b'S' } else { b'B' },
        letter: byte,
        plain,
    }
}

/// The conditions where the type has them.
fn put_conditions(kind: u16, conditions: [u8; 4], plain: &mut [u8; 53]) {
    if matches!(kind, EXECUTE | TRADE) {
        plain[..4].copy_from_slice(&conditions);
    }
}

pub fn writes(calls: &mut Vec<u8>) {
    for raw in raws() {
        rooms(calls, &raw);
        fields(calls, &raw);
    }
    others(calls);
}

fn rooms(calls: &mut Vec<u8>, raw: &Raw) {
    let hand = distinct(raw.kind);
    for room in [raw.size, raw.size - 1, 0, 4, LARGEST_ROOM] {
        hand.push_call(calls, room);
    }
    filled(raw.kind, 0x00).push_call(calls, raw.size + 3);
    filled(raw.kind, 0xFF).push_call(calls, raw.size + 3);
    // A bad field and too little room: 4.
    let bad = Hand {
        nanoseconds: 1_000_000_000,
        ..hand
    };
    bad.push_call(calls, raw.size - 1);
    bad.push_call(calls, 0);
}

fn fields(calls: &mut Vec<u8>, raw: &Raw) {
    let good = distinct(raw.kind);
    let room = raw.size;
    for nanoseconds in [999_999_999, 1_000_000_000, u32::MAX] {
        Hand {
            nanoseconds,
            ..good
        }
        .push_call(calls, room);
    }
    if raw.side.is_some() {
        for side in [b'S', 0, b'b', b'A', 0xFF] {
            Hand { side, ..good }.push_call(calls, room);
        }
    }
    if raw.flag.is_some() {
        for flag in [0, 2, 0x30, 0x31, 0xFF] {
            Hand { flag, ..good }.push_call(calls, room);
        }
    }
    if raw.volume.is_some() {
        for volume in [0, 0x100, 0x0100_0000] {
            Hand { volume, ..good }.push_call(calls, room);
        }
    }
}

/// The other good values of the checked fields, all at once. The call has bad values for what a type
/// lacks, but no typed message holds them: a type without such a field would be written as in `rooms`.
fn others(calls: &mut Vec<u8>) {
    for raw in raws().filter(Raw::has_checked_fields) {
        let good = distinct(raw.kind);
        let hand = Hand {
            flag: if raw.flag.is_some() { 0 } else { 0xFF },
            side: if raw.side.is_some() { b'S' } else { 0 },
            volume: if raw.volume.is_some() { 1 } else { 0 },
            ..good
        };
        hand.push_call(calls, raw.size);
    }
}
