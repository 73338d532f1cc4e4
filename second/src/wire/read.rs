//! From bytes to a message. The checks run in the order of document 01, "Numbers answered":
//! is there a header, is the size too small or past the end, then type, size and fields.

use super::bytes::{array_at, u16_at, u32_at, u64_at};
use super::conditions::Market;
use super::message::*;
use crate::answer::Refusal;

/// The least Msg Size: itself and the type.
const HEADER: usize = 4;

/// How many bytes the message at `at` takes.
pub fn extent(stream: &[u8], at: usize) -> Result<usize, Refusal> {
    let rest = stream.get(at..).unwrap_or(&[]);
    if rest.len() < HEADER {
        return Err(Refusal::Cut);
    }
    let size = usize::from(u16_at(rest, 0));
    if size < HEADER {
        return Err(Refusal::Size);
    }
    if size > rest.len() {
        return Err(Refusal::Cut);
    }
    Ok(size)
}

/// Reads the message of a market at `at`. The position handed back is that of the next message; it
/// is `at` itself when no message has its extent there, and then no further message can be read.
pub fn read(market: Market, stream: &[u8], at: usize) -> (usize, Result<Message, Refusal>) {
    match extent(stream, at) {
        Ok(size) => (at + size, decode(market, &stream[at..at + size])),
        Err(refusal) => (at, Err(refusal)),
    }
}

/// A message from exactly its Msg Size of bytes.
fn decode(market: Market, bytes: &[u8]) -> Result<Message, Refusal> {
    let kind = u16_at(bytes, 2);
    let size = size_of_type(kind).ok_or(Refusal::Type)?;
    if bytes.len() != size {
        return Err(Refusal::Size);
    }
    let message = match kind {
        IMBALANCE | CLEAR | STATUS => form_s(kind, bytes),
        _ => form_n(kind, bytes),
    };
    message.check(market)?;
    Ok(message)
}

fn form_s(kind: u16, bytes: &[u8]) -> Message {
    let seconds = u32_at(bytes, 4);
    Message {
        nanoseconds: u32_at(bytes, 8),
        index: u32_at(bytes, 12),
        number: u32_at(bytes, 16),
        body: match kind {
            IMBALANCE => Body::Imbalance {
                seconds,
                plain: array_at(bytes, 20),
            },
            STATUS => Body::Status {
                seconds,
                plain: array_at(bytes, 20),
            },
            _ => Body::Clear { seconds },
        },
    }
}

fn form_n(kind: u16, bytes: &[u8]) -> Message {
    Message {
        nanoseconds: u32_at(bytes, 4),
        index: u32_at(bytes, 8),
        number: u32_at(bytes, 12),
        body: match kind {
            ADD | MODIFY | DELETE | EXECUTE | REPLACE => order_body(kind, bytes),
            _ => trade_body(kind, bytes),
        },
    }
}

fn order_body(kind: u16, bytes: &[u8]) -> Body {
    let order = u64_at(bytes, 16);
    match kind {
        ADD => Body::Add {
            order,
            price: u32_at(bytes, 24),
            volume: u32_at(bytes, 28),
            side: bytes[32],
            firm: array_at(bytes, 33),
        },
        MODIFY => Body::Modify {
            order,
            price: u32_at(bytes, 24),
            volume: u32_at(bytes, 28),
            position: bytes[32],
            side: bytes[33],
        },
        EXECUTE => Body::Execute {
            order,
            trade: u32_at(bytes, 24),
            price: u32_at(bytes, 28),
            volume: u32_at(bytes, 32),
            printable: bytes[36],
            conditions: array_at(bytes, 38),
        },
        REPLACE => Body::Replace {
            order,
            new_order: u64_at(bytes, 24),
            price: u32_at(bytes, 32),
            volume: u32_at(bytes, 36),
            side: bytes[40],
        },
        _ => Body::Delete { order },
    }
}

fn trade_body(kind: u16, bytes: &[u8]) -> Body {
    match kind {
        TRADE => Body::Trade {
            trade: u32_at(bytes, 16),
            price: u32_at(bytes, 20),
            volume: u32_at(bytes, 24),
            printable: bytes[28],
            conditions: array_at(bytes, 29),
        },
        CROSS => Body::Cross {
            cross: u32_at(bytes, 16),
            price: u32_at(bytes, 20),
            volume: u32_at(bytes, 24),
            cross_type: bytes[28],
        },
        CANCEL => Body::Cancel {
            trade: u32_at(bytes, 16),
        },
        CORRECTION => Body::Correction {
            cross: u32_at(bytes, 16),
            volume: u32_at(bytes, 20),
        },
        _ => Body::Retail {
            indicator: bytes[16],
        },
    }
}
