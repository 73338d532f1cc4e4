//! The calls `D` and `M` with several bad fields at once: requests M-111 and M-107.

use super::hand::Hand;
use super::hand_cases;
use super::raw::{put_u32, raws, Raw};
use super::read_cases::push_decode;

/// Which of the fields with a rule are bad.
#[derive(Clone, Copy)]
struct BadFields {
    nanoseconds: bool,
    volume: bool,
    flag: bool,
    side: bool,
    /// The third condition.
    condition: bool,
}

const BAD_NANOSECONDS: u32 = 1_000_000_000;
const BAD_BYTE: u8 = 0x7E;

/// Every set of two or more of a type's fields. A volume that may be 0 is among them: it does not
/// count as bad.
pub fn sets(calls: &mut Vec<u8>) {
    for raw in raws() {
        let sets = (0..32).map(BadFields::of_bits);
        for set in sets.filter(|set| set.count() >= 2 && set.is_in(&raw)) {
            push_decode(calls, &set.bytes(&raw));
            set.hand(&raw).push_call(calls, raw.size);
        }
    }
}

impl BadFields {
    fn of_bits(bits: u8) -> BadFields {
        let has = |place: u8| bits & (1 << place) != 0;
        BadFields {
            nanoseconds: has(0),
            volume: has(1),
            flag: has(2),
            side: has(3),
            condition: has(4),
        }
    }

    fn count(&self) -> usize {
        let each = [
            self.nanoseconds,
            self.volume,
            self.flag,
            self.side,
            self.condition,
        ];
        each.into_iter().filter(|bad| *bad).count()
    }

    /// Whether the type has these fields.
    fn is_in(&self, raw: &Raw) -> bool {
        (!self.volume || raw.volume.is_some())
            && (!self.flag || raw.flag.is_some())
            && (!self.side || raw.side.is_some())
            && (!self.condition || raw.conditions.is_some())
    }

    /// The bytes of a message with these fields bad.
    fn bytes(&self, raw: &Raw) -> Vec<u8> {
        let mut bytes = raw.distinct(0x44);
        if self.nanoseconds {
            put_u32(&mut bytes, raw.nanoseconds, BAD_NANOSECONDS);
        }
        if let Some((volume, _)) = raw.volume.filter(|_| self.volume) {
            put_u32(&mut bytes, volume, 0);
        }
        if let Some(flag) = raw.flag.filter(|_| self.flag) {
            bytes[flag] = BAD_BYTE;
        }
        if let Some(side) = raw.side.filter(|_| self.side) {
            bytes[side] = BAD_BYTE;
        }
        if let Some(conditions) = raw.conditions.filter(|_| self.condition) {
            bytes[conditions + 2] = BAD_BYTE;
        }
        bytes
    }

    /// A message made by hand with these fields bad.
    fn hand(&self, raw: &Raw) -> Hand {
        let mut hand = hand_cases::distinct(raw.kind);
        if self.nanoseconds {
            hand.nanoseconds = BAD_NANOSECONDS;
        }
        if self.volume {
            hand.volume = 0;
        }
        if self.flag {
            hand.flag = BAD_BYTE;
        }
        if self.side {
            hand.side = BAD_BYTE;
        }
        if self.condition {
            hand.plain[2] = BAD_BYTE;
        }
        hand
    }
}
