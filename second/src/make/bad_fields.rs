//! Bad values for the fields that have a rule: document 01, "Message layouts", and request M-107.

use crate::wire::{Body, Message};

/// A bad value and the field that it is for.
#[derive(Clone, Copy)]
pub enum Bad {
    Nanoseconds(u32),
    /// The only bad volume is 0.
    Volume,
    /// For a position or printable byte.
    Flag(u8),
    Side(u8),
    /// For the condition of a position, which counts from 0.
    Condition(usize, u8),
}

/// The message with these values. A type without such a field, or without a rule for it, is left
/// as it is.
pub fn spoiled(mut message: Message, values: &[Bad]) -> Message {
    for bad in values {
        spoil(&mut message, *bad);
    }
    message
}

fn spoil(message: &mut Message, bad: Bad) {
    match (bad, &mut message.body) {
        (Bad::Nanoseconds(value), _) => message.nanoseconds = value,
        (
            Bad::Volume,
            Body::Add { volume, .. }
            | Body::Modify { volume, .. }
            | Body::Execute { volume, .. }
            | Body::Replace { volume, .. }
            | Body::Trade { volume, .. },
        ) => *volume = 0,
        (
            Bad::Flag(value),
            Body::Modify { position: flag, .. }
            | Body::Execute {
                printable: flag, ..
            }
            | Body::Trade {
                printable: flag, ..
            },
        ) => *flag = value,
        (
            Bad::Side(value),
            Body::Add { side, .. } | Body::Modify { side, .. } | Body::Replace { side, .. },
        ) => *side = value,
        (
            Bad::Condition(position, code),
            Body::Execute { conditions, .. } | Body::Trade { conditions, .. },
        ) => conditions[position] = code,
        _ => {}
    }
}
