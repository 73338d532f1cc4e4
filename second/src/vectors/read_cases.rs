//! The calls `R` and `D`: how far a message reaches, and reading one.

use super::raw::{put_u16, put_u32, raw, raws, Raw};
use crate::wire::Market;

/// Type numbers outside the table; 0x0164 is 100 with a second byte.
const UNKNOWN: [u16; 17] = [
    0, 1, 2, 3, 31, 33, 35, 99, 106, 109, 115, 223, 0x0120, 0x0164, 0x6400, 0x8064, 65535,
];

fn push_extent(calls: &mut Vec<u8>, at: usize, bytes: &[u8]) {
    calls.push(b'R');
    calls.extend((at as u16).to_le_bytes());
    calls.extend((bytes.len() as u16).to_le_bytes());
    calls.extend(bytes);
}

/// On NYSE.
pub fn push_decode(calls: &mut Vec<u8>, bytes: &[u8]) {
    push_decode_on(Market::Nyse, calls, bytes);
}

pub fn push_decode_on(market: Market, calls: &mut Vec<u8>, bytes: &[u8]) {
    calls.extend([b'D', market.id()]);
    calls.extend((bytes.len() as u16).to_le_bytes());
    calls.extend(bytes);
}

pub fn extents(calls: &mut Vec<u8>) {
    let stream = [
        raw(102).distinct(0x30),
        raw(114).distinct(0x50),
        vec![4, 0, 0xE7, 0x03],
        raw(32).distinct(0x70),
    ]
    .concat();
    let ends = [0, 25, 42, 46, 66];
    for at in ends {
        push_extent(calls, at, &stream);
    }
    for at in [1, 2, 24, 26, 43, 62, 63, 64, 65, 67, 70, 1000, 65535] {
        push_extent(calls, at, &stream);
    }
    for short in [65, 64, 50, 49] {
        push_extent(calls, 46, &stream[..short]);
    }
    for length in 0..=3 {
        push_extent(calls, 0, &[3, 0, 100][..length]);
        push_extent(calls, 2, &[9, 9, 39, 0, 100][..2 + length]);
    }
    for size in 0..=3 {
        push_extent(calls, 0, &[size, 0, 100, 0]);
        push_extent(calls, 3, &[7, 7, 7, size, 0, 32, 0, 1, 1]);
        push_extent(calls, 3, &[7, 7, 7, size, 0, 32]);
    }
    for (size, length) in [
        (4, 4),
        (4, 5),
        (5, 4),
        (5, 5),
        (256, 255),
        (256, 256),
        (256, 300),
        (257, 256),
        (0x0104, 259),
        (65535, 300),
        (0xFF03, 300),
    ] {
        let mut bytes = vec![0x5A; length];
        put_u16(&mut bytes, 0, size);
        push_extent(calls, 0, &bytes);
    }
    push_extent(calls, 1, &[]);
    push_extent(calls, 65535, &[]);
}

pub fn decodes(calls: &mut Vec<u8>) {
    short_slices(calls);
    for raw in raws() {
        good(calls, &raw);
        bad_fields(calls, &raw);
        sizes(calls, &raw);
    }
    unknown_types(calls);
    pairs_of_faults(calls);
}

fn short_slices(calls: &mut Vec<u8>) {
    push_decode(calls, &[]);
    for length in 1..=3 {
        push_decode(calls, &[39, 0, 100][..length]);
        push_decode(calls, &[3, 0, 100][..length]);
    }
    for size in 0..=3 {
        push_decode(calls, &[size, 0, 100, 0]);
        let mut bytes = raw(114).distinct(0x30);
        bytes[0] = size;
        push_decode(calls, &bytes);
    }
}

fn good(calls: &mut Vec<u8>, raw: &Raw) {
    push_decode(calls, &raw.distinct(0x21));
    push_decode(calls, &raw.distinct(0xA0));
    push_decode(calls, &raw.filled(0x00));
    push_decode(calls, &raw.filled(0xFF));
    let trailing = [raw.distinct(0x40), vec![0xEE; 9]].concat();
    push_decode(calls, &trailing);
    for byte in [0, 1, 0xFF] {
        if let Some(place) = raw.reserved {
            let mut bytes = raw.distinct(0x60);
            bytes[place] = byte;
            push_decode(calls, &bytes);
        }
    }
}

fn bad_fields(calls: &mut Vec<u8>, raw: &Raw) {
    let base = raw.distinct(0x54);
    for nanoseconds in [0, 999_999_999, 1_000_000_000, u32::MAX] {
        let mut bytes = base.clone();
        put_u32(&mut bytes, raw.nanoseconds, nanoseconds);
        push_decode(calls, &bytes);
    }
    // The four bytes beside the nanoseconds are never bad.
    let mut bytes = base.clone();
    put_u32(&mut bytes, raw.nanoseconds, 7);
    put_u32(&mut bytes, raw.index, u32::MAX);
    if raw.nanoseconds == 8 {
        put_u32(&mut bytes, 4, u32::MAX);
    }
    push_decode(calls, &bytes);
    if let Some((volume, _)) = raw.volume {
        for value in [0, 1, 0x100, 0x10000, 0x0100_0000, u32::MAX] {
            let mut bytes = base.clone();
            put_u32(&mut bytes, volume, value);
            push_decode(calls, &bytes);
        }
    }
    if let Some(side) = raw.side {
        for value in [b'B', b'S', 0, 1, b' ', b'A', b'C', b'R', b'b', b's', 0xFF] {
            let mut bytes = base.clone();
            bytes[side] = value;
            push_decode(calls, &bytes);
        }
    }
    if let Some(flag) = raw.flag {
        for value in [0, 1, 2, 0x30, 0x31, 0x80, 0xFF] {
            let mut bytes = base.clone();
            bytes[flag] = value;
            // The base itself stands above where it has a side.
            if bytes != base || raw.side.is_none() {
                push_decode(calls, &bytes);
            }
        }
    }
}

fn sizes(calls: &mut Vec<u8>, raw: &Raw) {
    for size in [raw.size - 1, raw.size + 1, 4, raw.size + 256] {
        let mut bytes = raw.distinct(0x35);
        bytes.resize(raw.size + 1, 0xEE);
        if size > 256 {
            bytes.resize(size, 0xEE);
        }
        put_u16(&mut bytes, 0, size as u16);
        // A size that is right in its low byte alone is long: one type shows it.
        if size < 256 || raw.kind == 114 {
            push_decode(calls, &bytes);
        }
    }
    let bytes = raw.distinct(0x35);
    push_decode(calls, &bytes[..raw.size - 1]);
    push_decode(calls, &bytes[..4]);
}

fn unknown_types(calls: &mut Vec<u8>) {
    for kind in UNKNOWN {
        let mut bytes = raw(100).distinct(0x44);
        put_u16(&mut bytes, 2, kind);
        push_decode(calls, &bytes);
        let mut bytes = vec![4, 0, 0, 0];
        put_u16(&mut bytes, 2, kind);
        push_decode(calls, &bytes);
    }
}

/// Two faults at once show which check comes first.
fn pairs_of_faults(calls: &mut Vec<u8>) {
    // An unknown type and a bad side, bad nanoseconds: 3.
    let mut bytes = raw(100).distinct(0x44);
    put_u16(&mut bytes, 2, 0x0164);
    put_u32(&mut bytes, 4, u32::MAX);
    bytes[32] = 0;
    push_decode(calls, &bytes);
    // A size beyond the rest and an unknown type: 1. With one byte more: 3.
    let mut bytes = raw(100).distinct(0x44);
    put_u16(&mut bytes, 0, 40);
    put_u16(&mut bytes, 2, 106);
    push_decode(calls, &bytes);
    bytes.push(0);
    push_decode(calls, &bytes);
    // A size beyond the rest, wrong for its type: 1. With one byte more: 2.
    let mut bytes = raw(100).distinct(0x44);
    put_u16(&mut bytes, 0, 40);
    push_decode(calls, &bytes);
    bytes.push(0);
    push_decode(calls, &bytes);
    // A size beyond the rest and a bad side: 1.
    let mut bytes = raw(104).distinct(0x44);
    bytes[40] = b'X';
    push_decode(calls, &bytes[..41]);
    push_decode(calls, &bytes);
    // Msg Size 3 with three bytes: 1. With four: 2, whatever the type.
    push_decode(calls, &[3, 0, 0xFF]);
    push_decode(calls, &[3, 0, 0xFF, 0xFF]);
    push_decode(calls, &[0, 0, 32, 0]);
    for wrong in raws() {
        // A wrong size and bad nanoseconds: 2.
        let mut bytes = wrong.distinct(0x44);
        put_u32(&mut bytes, wrong.nanoseconds, u32::MAX);
        bytes.push(0);
        put_u16(&mut bytes, 0, wrong.size as u16 + 1);
        push_decode(calls, &bytes);
    }
}
