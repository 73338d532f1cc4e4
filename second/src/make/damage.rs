//! Damage to one message: bits, sizes, types and fields.

use super::bad_draws::with_bad_fields;
use super::draw::Draw;
use super::random::Random;
use crate::wire::message::{ADD, DELETE, EXECUTE, MODIFY, REPLACE, TYPES};
use crate::wire::write::to_bytes;
use crate::wire::Message;

/// Types outside the table, some of them near one inside.
const UNKNOWN: [u16; 14] = [
    0, 1, 2, 3, 31, 33, 35, 99, 106, 109, 115, 223, 0x0164, 0xFFFF,
];

/// The bytes of a message as a source may send it: reserved bytes hold anything.
pub fn sent(message: &Message, random: &mut Random) -> Vec<u8> {
    let mut bytes = to_bytes(message);
    let reserved = match message.kind() {
        ADD => 38,
        MODIFY => 34,
        DELETE => 24,
        EXECUTE => 37,
        REPLACE => 41,
        _ => return bytes,
    };
    if random.one_in(3) {
        bytes[reserved] = random.byte();
    }
    bytes
}

/// The message with a fault that leaves the next one where a reader looks for it.
pub fn damaged(message: &Message, draw: &mut Draw) -> Vec<u8> {
    let bad_field = draw.random.one_in(2);
    let mut bytes = if bad_field {
        to_bytes(&with_bad_fields(*message, draw))
    } else {
        to_bytes(message)
    };
    let random = &mut draw.random;
    match random.below(6) {
        0 => resize(&mut bytes, random),
        1 => set_type(&mut bytes, random),
        2 => {
            set_type(&mut bytes, random);
            resize(&mut bytes, random);
        }
        _ if bad_field => {}
        3 => set_any_byte(&mut bytes, random),
        _ => flip(&mut bytes, random, 4),
    }
    bytes
}

/// The message with a fault that may well hide the next ones.
pub fn derailed(message: &Message, random: &mut Random) -> Vec<u8> {
    let mut bytes = to_bytes(message);
    match random.below(5) {
        0 => flip(&mut bytes, random, 0),
        1 => bytes[..2].copy_from_slice(&[random.byte() % 4, 0]),
        2 => bytes[..2].copy_from_slice(&random.array::<2>()),
        3 => {
            bytes.remove(random.below(bytes.len()));
        }
        _ => bytes.insert(random.below(bytes.len()), random.byte()),
    }
    bytes
}

/// Flips a bit, or a few, from that place on.
fn flip(bytes: &mut [u8], random: &mut Random, from: usize) {
    for _ in 0..=random.below(3) {
        let place = from + random.below(bytes.len() - from);
        bytes[place] ^= 1 << random.below(8);
    }
}

fn set_any_byte(bytes: &mut [u8], random: &mut Random) {
    let place = 4 + random.below(bytes.len() - 4);
    bytes[place] = random.byte();
}

/// Another size, with as many bytes.
fn resize(bytes: &mut Vec<u8>, random: &mut Random) {
    let length = bytes.len();
    let any = 4 + random.below(120);
    let size = random.pick(&[length - 1, length + 1, 4, 5, any, length + 256]);
    bytes.resize(size, 0x42);
    bytes[..2].copy_from_slice(&(size as u16).to_le_bytes());
}

fn set_type(bytes: &mut [u8], random: &mut Random) {
    let any = random.u32() as u16;
    let unknown = random.pick(&UNKNOWN);
    let known = random.pick(&TYPES);
    let kind = random.pick(&[any, unknown, known]);
    bytes[2..4].copy_from_slice(&kind.to_le_bytes());
}
