//! A message made by hand: every field that any type has, as the call `M` gives them.

use crate::cursor::Cursor;
use crate::wire::bytes::array_at;
use crate::wire::message::*;
use crate::wire::Market;

/// The largest buffer that a call may ask for.
pub const LARGEST_ROOM: usize = 128;

#[derive(Clone, Copy)]
pub struct Hand {
    pub market: Market,
    pub kind: u16,
    pub seconds: u32,
    pub nanoseconds: u32,
    pub index: u32,
    pub number: u32,
    pub order: u64,
    pub new_order: u64,
    /// The trade or cross.
    pub id: u32,
    pub price: u32,
    pub volume: u32,
    /// The position or printable byte.
    pub flag: u8,
    pub side: u8,
    /// The cross type or indicator.
    pub letter: u8,
    /// Its first bytes are the firm or the conditions, or it has all of the plain bytes.
    pub plain: [u8; 53],
}

impl Hand {
    /// The fields of a call, after its letter and before its room.
    pub fn taken(cursor: &mut Cursor) -> Option<Hand> {
        Some(Hand {
            market: Market::of_id(cursor.u8()?)?,
            kind: cursor.u16()?,
            seconds: cursor.u32()?,
            nanoseconds: cursor.u32()?,
            index: cursor.u32()?,
            number: cursor.u32()?,
            order: cursor.u64()?,
            new_order: cursor.u64()?,
            id: cursor.u32()?,
            price: cursor.u32()?,
            volume: cursor.u32()?,
            flag: cursor.u8()?,
            side: cursor.u8()?,
            letter: cursor.u8()?,
            plain: cursor.array()?,
        })
    }

    /// The call that writes this message into that much room.
    pub fn push_call(&self, calls: &mut Vec<u8>, room: usize) {
        calls.extend([b'M', self.market.id()]);
        calls.extend(self.kind.to_le_bytes());
        for field in [self.seconds, self.nanoseconds, self.index, self.number] {
            calls.extend(field.to_le_bytes());
        }
        calls.extend(self.order.to_le_bytes());
        calls.extend(self.new_order.to_le_bytes());
        for field in [self.id, self.price, self.volume] {
            calls.extend(field.to_le_bytes());
        }
        calls.extend([self.flag, self.side, self.letter]);
        calls.extend(self.plain);
        calls.extend((room as u16).to_le_bytes());
    }

    /// The typed message; none when the type is outside the table.
    pub fn message(&self) -> Option<Message> {
        Some(Message {
            nanoseconds: self.nanoseconds,
            index: self.index,
            number: self.number,
            body: self.body()?,
        })
    }

    fn body(&self) -> Option<Body> {
        let Hand {
            seconds,
            order,
            new_order,
            id,
            price,
            volume,
            flag,
            side,
            letter,
            ..
        } = *self;
        Some(match self.kind {
            ADD => Body::Add {
                order,
                price,
                volume,
                side,
                firm: array_at(&self.plain, 0),
            },
            MODIFY => Body::Modify {
                order,
                price,
                volume,
                position: flag,
                side,
            },
            DELETE => Body::Delete { order },
            EXECUTE => Body::Execute {
                order,
                trade: id,
                price,
                volume,
                printable: flag,
                conditions: array_at(&self.plain, 0),
            },
            REPLACE => Body::Replace {
                order,
                new_order,
                price,
                volume,
                side,
            },
            IMBALANCE => Body::Imbalance {
                seconds,
                plain: self.plain,
            },
            TRADE => Body::Trade {
                trade: id,
                price,
                volume,
                printable: flag,
                conditions: array_at(&self.plain, 0),
            },
            CROSS => Body::Cross {
                cross: id,
                price,
                volume,
                cross_type: letter,
            },
            CANCEL => Body::Cancel { trade: id },
            CORRECTION => Body::Correction { cross: id, volume },
            RETAIL => Body::Retail { indicator: letter },
            CLEAR => Body::Clear { seconds },
            STATUS => Body::Status {
                seconds,
                plain: array_at(&self.plain, 0),
            },
            _ => return None,
        })
    }
}
