//! Raw messages for the vectors, laid out here once more and apart from the reader and the writer,
//! so that a slip in one of the three shows.

use crate::wire::message::TYPES;

/// Where the checked fields of a type lie.
#[derive(Clone, Copy)]
pub struct Raw {
    pub kind: u16,
    pub size: usize,
    pub nanoseconds: usize,
    pub index: usize,
    /// A volume that must not be 0, or one that may.
    pub volume: Option<(usize, bool)>,
    pub side: Option<usize>,
    pub flag: Option<usize>,
    /// The first of the four conditions.
    pub conditions: Option<usize>,
    pub reserved: Option<usize>,
}

/// The codes that NYSE lists for each of the four conditions.
const CODES: [&[u8]; 4] = [b"@", b" FO56", b" TUZ", b" I"];

/// The 13 types, in the order of document 01's table.
pub fn raws() -> impl Iterator<Item = Raw> {
    TYPES.into_iter().map(raw)
}

pub fn raw(kind: u16) -> Raw {
    let form_n = |size| Raw {
        kind,
        size,
        nanoseconds: 4,
        index: 8,
        volume: None,
        side: None,
        flag: None,
        conditions: None,
        reserved: None,
    };
    let form_s = |size| Raw {
        nanoseconds: 8,
        index: 12,
        ..form_n(size)
    };
    match kind {
        100 => Raw {
            volume: Some((28, true)),
            side: Some(32),
            reserved: Some(38),
            ..form_n(39)
        },
        101 => Raw {
            volume: Some((28, true)),
            flag: Some(32),
            side: Some(33),
            reserved: Some(34),
            ..form_n(35)
        },
        102 => Raw {
            reserved: Some(24),
            ..form_n(25)
        },
        103 => Raw {
            volume: Some((32, true)),
            flag: Some(36),
            conditions: Some(38),
            reserved: Some(37),
            ..form_n(42)
        },
        104 => Raw {
            volume: Some((36, true)),
            side: Some(40),
            reserved: Some(41),
            ..form_n(42)
        },
        105 => form_s(73),
        110 => Raw {
            volume: Some((24, true)),
            flag: Some(28),
            conditions: Some(29),
            ..form_n(33)
        },
        111 => Raw {
            volume: Some((24, false)),
            ..form_n(29)
        },
        112 => form_n(20),
        113 => Raw {
            volume: Some((20, false)),
            ..form_n(24)
        },
        114 => form_n(17),
        32 => form_s(20),
        34 => form_s(46),
        _ => panic!("type {kind} is outside the table"),
    }
}

impl Raw {
    /// Fields besides the nanoseconds that the writer is asked about: a volume, a side or a flag.
    pub fn has_checked_fields(&self) -> bool {
        self.volume.is_some() || self.side.is_some() || self.flag.is_some()
    }

    /// A good message of NYSE with another byte in every place, as far as its conditions allow it.
    pub fn distinct(&self, start: u8) -> Vec<u8> {
        let mut bytes: Vec<u8> = (0..self.size)
            .map(|place| start.wrapping_add(place as u8).max(2))
            .collect();
        bytes[self.nanoseconds + 3] = 0x1B;
        self.made_good(bytes)
    }

    /// A good message of NYSE with this byte wherever any byte is good.
    pub fn filled(&self, byte: u8) -> Vec<u8> {
        let mut bytes = vec![byte; self.size];
        if byte >= 0x3B {
            put_u32(&mut bytes, self.nanoseconds, 999_999_999);
        }
        if let Some((volume, true)) = self.volume {
            bytes[volume] |= 1;
        }
        self.made_good(bytes)
    }

    fn made_good(&self, mut bytes: Vec<u8>) -> Vec<u8> {
        put_u16(&mut bytes, 0, self.size as u16);
        put_u16(&mut bytes, 2, self.kind);
        if let Some(side) = self.side {
            bytes[side] = if bytes[side] & 1 == 0 { b'B' } else { b'S' };
        }
        if let Some(flag) = self.flag {
            bytes[flag] &= 1;
        }
        if let Some(conditions) = self.conditions {
            for (byte, codes) in bytes[conditions..].iter_mut().zip(CODES) {
                *byte = codes[usize::from(*byte) % codes.len()];
            }
        }
        bytes
    }
}

pub fn put_u16(bytes: &mut [u8], at: usize, number: u16) {
    bytes[at..at + 2].copy_from_slice(&number.to_le_bytes());
}

pub fn put_u32(bytes: &mut [u8], at: usize, number: u32) {
    bytes[at..at + 4].copy_from_slice(&number.to_le_bytes());
}
