//! Frames of random bytes, some of which a reader takes for messages.

use super::draw::Draw;
use super::random::Random;
use crate::wire::conditions::CONDITIONS;
use crate::wire::message::{size_of_type, EXECUTE, TRADE, TYPES};

/// A frame of random bytes. Half of them have the size of a known type.
pub fn noise(draw: &mut Draw) -> Vec<u8> {
    let random = &mut draw.random;
    let kind = if random.one_in(4) {
        random.u32() as u16
    } else {
        random.pick(&TYPES)
    };
    let known = size_of_type(kind);
    let size = match known {
        Some(size) if !random.one_in(4) => size,
        _ => 4 + random.below(90),
    };
    let mut bytes = random.bytes(size);
    bytes[..2].copy_from_slice(&(size as u16).to_le_bytes());
    bytes[2..4].copy_from_slice(&kind.to_le_bytes());
    steady(&mut bytes, random);
    put_conditions(&mut bytes, kind, draw);
    bytes
}

/// Makes some of the noise get past the first checks: time, symbol, number, side and flag. At times
/// there are zeros where some types have their volume, which noise alone hardly gives.
fn steady(bytes: &mut [u8], random: &mut Random) {
    let shift = if random.one_in(4) { 4 } else { 0 };
    for (at, value) in [(4, 5), (8, 7), (12, random.u32_below(5))] {
        let at = at + shift;
        if at + 4 <= bytes.len() && !random.one_in(6) {
            bytes[at..at + 4].copy_from_slice(&u32::to_le_bytes(value));
        }
    }
    for at in [28, 32, 33, 36, 40] {
        if at < bytes.len() && !random.one_in(4) {
            bytes[at] = random.pick(&[b'B', b'S', 0, 1]);
        }
    }
    let volume = random.pick(&[24, 28, 32, 36]);
    if volume + 4 <= bytes.len() && random.one_in(4) {
        bytes[volume..volume + 4].fill(0);
    }
}

/// Puts codes where the type has its conditions: mostly listed ones, at times a bad one among them.
/// At times there is the noise.
fn put_conditions(bytes: &mut [u8], kind: u16, draw: &mut Draw) {
    let at = match kind {
        EXECUTE => 38,
        TRADE => 29,
        _ => return,
    };
    let Some(place) = bytes.get_mut(at..at + CONDITIONS) else {
        return;
    };
    if draw.random.one_in(8) {
        return;
    }
    place.copy_from_slice(&draw.conditions());
    if draw.random.one_in(5) {
        let position = draw.random.below(CONDITIONS);
        place[position] = draw.bad_code(position);
    }
}
