//! Answers a file of message-layer calls:
//! `R` (how far a message reaches), `D` (read one), `M` (write one made by hand).

use super::hand::{Hand, LARGEST_ROOM};
use crate::answer::{number, offset_field};
use crate::cursor::{hex, Cursor};
use crate::wire::{extent, read, write, Body, Market, Message};

/// One line for each call; `?` and the end at a call that cannot be understood.
pub fn answers(calls: &[u8]) -> String {
    let mut text = String::new();
    let mut cursor = Cursor::new(calls);
    while !cursor.is_empty() {
        let Some(line) = answer(&mut cursor) else {
            text.push_str("?\n");
            break;
        };
        text.push_str(&line);
        text.push('\n');
    }
    text
}

fn answer(cursor: &mut Cursor) -> Option<String> {
    match cursor.u8()? {
        b'R' => {
            let at = cursor.u16()?;
            let reach = extent(cursor.counted()?, usize::from(at));
            Some(format!("R,{},{}", number(&reach), reach.unwrap_or(0)))
        }
        b'D' => {
            let market = Market::of_id(cursor.u8()?)?;
            Some(decoded(market, cursor.counted()?))
        }
        b'M' => {
            let hand = Hand::taken(cursor)?;
            let room = usize::from(cursor.u16()?);
            (room <= LARGEST_ROOM).then(|| written(&hand, room))
        }
        _ => None,
    }
}

fn decoded(market: Market, bytes: &[u8]) -> String {
    let (_, message) = read(market, bytes, 0);
    let mut plain = [0; 53];
    if let Ok(message) = &message {
        let own = plain_bytes(message);
        plain[..own.len()].copy_from_slice(own);
    }
    let mut line = format!("D,{},{}", number(&message), hex(&plain));
    line += &offset_field(&message);
    if let Ok(message) = &message {
        line += &format!(",{}", message.kind());
        for value in scalars(message) {
            line += &format!(",{value}");
        }
    }
    line
}

fn written(hand: &Hand, room: usize) -> String {
    let mut buffer = vec![0xAA; room];
    let Some(message) = hand.message() else {
        return format!("M,3,0,{}", hex(&buffer));
    };
    let done = write(hand.market, &message, &mut buffer);
    let count = done.unwrap_or(0);
    let offset = offset_field(&done);
    format!("M,{},{count},{}{offset}", number(&done), hex(&buffer))
}

/// The byte array of a message; none in most types.
fn plain_bytes(message: &Message) -> &[u8] {
    match &message.body {
        Body::Add { firm, .. } => firm,
        Body::Execute { conditions, .. } | Body::Trade { conditions, .. } => conditions,
        Body::Imbalance { plain, .. } => plain,
        Body::Status { plain, .. } => plain,
        _ => &[],
    }
}

/// The numbers of a message in the order of the table.
fn scalars(message: &Message) -> Vec<u64> {
    let head = [message.nanoseconds, message.index, message.number];
    let seconds = message.body.seconds().into_iter();
    let mut values: Vec<u64> = seconds.chain(head).map(u64::from).collect();
    values.extend(own_scalars(&message.body));
    values
}

fn own_scalars(body: &Body) -> Vec<u64> {
    match *body {
        Body::Add {
            order,
            price,
            volume,
            side,
            ..
        } => vec![order, price.into(), volume.into(), side.into()],
        Body::Modify {
            order,
            price,
            volume,
            position,
            side,
        } => vec![
            order,
            price.into(),
            volume.into(),
            position.into(),
            side.into(),
        ],
        Body::Delete { order } => vec![order],
        Body::Execute {
            order,
            trade,
            price,
            volume,
            printable,
            ..
        } => vec![
            order,
            trade.into(),
            price.into(),
            volume.into(),
            printable.into(),
        ],
        Body::Replace {
            order,
            new_order,
            price,
            volume,
            side,
        } => vec![order, new_order, price.into(), volume.into(), side.into()],
        Body::Trade {
            trade,
            price,
            volume,
            printable,
            ..
        } => vec![trade.into(), price.into(), volume.into(), printable.into()],
        Body::Cross {
            cross,
            price,
            volume,
            cross_type,
        } => vec![cross.into(), price.into(), volume.into(), cross_type.into()],
        Body::Cancel { trade } => vec![trade.into()],
        Body::Correction { cross, volume } => vec![cross.into(), volume.into()],
        Body::Retail { indicator } => vec![indicator.into()],
        Body::Imbalance { .. } | Body::Clear { .. } | Body::Status { .. } => vec![],
    }
}
