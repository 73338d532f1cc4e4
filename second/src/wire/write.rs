//! From a message to bytes: the fields one after the other, reserved bytes as zero.
//! A bad field (4) is found before too little room (15), and a refusal writes nothing.

use super::conditions::Market;
use super::message::{Body, Message};
use crate::answer::Refusal;

/// The longest message, a 105.
const LONGEST: usize = 73;

/// Writes the message of a market at the start of `out` and hands back how many bytes it took.
pub fn write(market: Market, message: &Message, out: &mut [u8]) -> Result<usize, Refusal> {
    message.check(market)?;
    let pen = encode(message);
    let bytes = &pen.bytes[..pen.count];
    out.get_mut(..pen.count)
        .ok_or(Refusal::Room)?
        .copy_from_slice(bytes);
    Ok(pen.count)
}

/// The bytes of a message, whatever its fields hold.
pub fn to_bytes(message: &Message) -> Vec<u8> {
    let pen = encode(message);
    pen.bytes[..pen.count].to_vec()
}

fn encode(message: &Message) -> Pen {
    let mut pen = Pen {
        bytes: [0; LONGEST],
        count: 2,
    };
    pen.u16(message.kind());
    if let Some(seconds) = message.body.seconds() {
        pen.u32(seconds);
    }
    pen.u32(message.nanoseconds);
    pen.u32(message.index);
    pen.u32(message.number);
    pen.body(&message.body);
    let size = pen.count as u16;
    pen.bytes[..2].copy_from_slice(&size.to_le_bytes());
    pen
}

/// Bytes so far; the first two wait for Msg Size.
struct Pen {
    bytes: [u8; LONGEST],
    count: usize,
}

impl Pen {
    fn put(&mut self, bytes: &[u8]) {
        self.bytes[self.count..self.count + bytes.len()].copy_from_slice(bytes);
        self.count += bytes.len();
    }

    fn u16(&mut self, number: u16) {
        self.put(&number.to_le_bytes());
    }

    fn u32(&mut self, number: u32) {
        self.put(&number.to_le_bytes());
    }

    fn u64(&mut self, number: u64) {
        self.put(&number.to_le_bytes());
    }

    fn reserved(&mut self) {
        self.put(&[0]);
    }

    fn body(&mut self, body: &Body) {
        match *body {
            Body::Add {
                order,
                price,
                volume,
                side,
                firm,
            } => {
                self.u64(order);
                self.u32(price);
                self.u32(volume);
                self.put(&[side]);
                self.put(&firm);
                self.reserved();
            }
            Body::Modify {
                order,
                price,
                volume,
                position,
                side,
            } => {
                self.u64(order);
                self.u32(price);
                self.u32(volume);
                self.put(&[position, side]);
                self.reserved();
            }
            Body::Delete { order } => {
                self.u64(order);
                self.reserved();
            }
            Body::Execute {
                order,
                trade,
                price,
                volume,
                printable,
                conditions,
            } => {
                self.u64(order);
                self.u32(trade);
                self.u32(price);
                self.u32(volume);
                self.put(&[printable]);
                self.reserved();
                self.put(&conditions);
            }
            Body::Replace {
                order,
                new_order,
                price,
                volume,
                side,
            } => {
                self.u64(order);
                self.u64(new_order);
                self.u32(price);
                self.u32(volume);
                self.put(&[side]);
                self.reserved();
            }
            Body::Trade {
                trade,
                price,
                volume,
                printable,
                conditions,
            } => {
                self.u32(trade);
                self.u32(price);
                self.u32(volume);
                self.put(&[printable]);
                self.put(&conditions);
            }
            Body::Cross {
                cross,
                price,
                volume,
                cross_type,
            } => {
                self.u32(cross);
                self.u32(price);
                self.u32(volume);
                self.put(&[cross_type]);
            }
            Body::Cancel { trade } => self.u32(trade),
            Body::Correction { cross, volume } => {
                self.u32(cross);
                self.u32(volume);
            }
            Body::Retail { indicator } => self.put(&[indicator]),
            Body::Imbalance { ref plain, .. } => self.put(plain),
            Body::Status { ref plain, .. } => self.put(plain),
            Body::Clear { .. } => {}
        }
    }
}
