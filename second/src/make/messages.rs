//! Messages of symbol 7 in short form. Another index, other nanoseconds: by update of the struct.

use crate::wire::write::to_bytes;
use crate::wire::{Body, Message};

/// The symbol of the small program.
pub const ABC: u32 = 7;

pub const BUY: u8 = b'B';
pub const SELL: u8 = b'S';

/// Regular conditions of a trade, which every market lists.
const REGULAR: [u8; 4] = *b"@   ";

/// Messages laid end to end.
pub fn feed(messages: &[Message]) -> Vec<u8> {
    messages.iter().flat_map(to_bytes).collect()
}

fn message(number: u32, body: Body) -> Message {
    Message {
        nanoseconds: 125,
        index: ABC,
        number,
        body,
    }
}

pub fn add(number: u32, order: u64, side: u8, price: u32, volume: u32) -> Message {
    let firm = *b"FIRM1";
    message(
        number,
        Body::Add {
            order,
            price,
            volume,
            side,
            firm,
        },
    )
}

pub fn modify(number: u32, order: u64, side: u8, price: u32, volume: u32) -> Message {
    let position = 0;
    message(
        number,
        Body::Modify {
            order,
            price,
            volume,
            position,
            side,
        },
    )
}

pub fn delete(number: u32, order: u64) -> Message {
    message(number, Body::Delete { order })
}

/// An execution that is not printed.
pub fn execute(number: u32, order: u64, price: u32, volume: u32) -> Message {
    message(
        number,
        Body::Execute {
            order,
            trade: number,
            price,
            volume,
            printable: 0,
            conditions: REGULAR,
        },
    )
}

/// A printed execution.
pub fn print_execute(number: u32, order: u64, trade: u32, price: u32, volume: u32) -> Message {
    message(
        number,
        Body::Execute {
            order,
            trade,
            price,
            volume,
            printable: 1,
            conditions: REGULAR,
        },
    )
}

pub fn replace(
    number: u32,
    order: u64,
    new_order: u64,
    side: u8,
    price: u32,
    volume: u32,
) -> Message {
    message(
        number,
        Body::Replace {
            order,
            new_order,
            price,
            volume,
            side,
        },
    )
}

pub fn imbalance(number: u32) -> Message {
    let plain = std::array::from_fn(|place| place as u8);
    message(number, Body::Imbalance { seconds: 1, plain })
}

pub fn trade(number: u32, trade: u32, volume: u32, printable: u8) -> Message {
    message(
        number,
        Body::Trade {
            trade,
            price: 1_234_500,
            volume,
            printable,
            conditions: REGULAR,
        },
    )
}

pub fn cross(number: u32, cross: u32, price: u32, volume: u32) -> Message {
    message(
        number,
        Body::Cross {
            cross,
            price,
            volume,
            cross_type: b'O',
        },
    )
}

pub fn cancel(number: u32, trade: u32) -> Message {
    message(number, Body::Cancel { trade })
}

pub fn correction(number: u32, cross: u32, volume: u32) -> Message {
    message(number, Body::Correction { cross, volume })
}

pub fn retail(number: u32) -> Message {
    message(number, Body::Retail { indicator: b'A' })
}

pub fn clear(next: u32) -> Message {
    message(next, Body::Clear { seconds: 1 })
}

pub fn status(number: u32) -> Message {
    let plain = std::array::from_fn(|place| b'a' + place as u8);
    message(number, Body::Status { seconds: 1, plain })
}

/// The same 103 or 110 with other conditions.
pub fn under(conditions: [u8; 4], mut message: Message) -> Message {
    if let Body::Execute {
        conditions: own, ..
    }
    | Body::Trade {
        conditions: own, ..
    } = &mut message.body
    {
        *own = conditions;
    }
    message
}

/// The same message for another symbol.
pub fn on(index: u32, message: Message) -> Message {
    Message { index, ..message }
}

/// The same message at another time.
pub fn at(nanoseconds: u32, message: Message) -> Message {
    Message {
        nanoseconds,
        ..message
    }
}
