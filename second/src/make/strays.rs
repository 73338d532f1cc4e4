//! Messages that a reader of the source's feed refuses for their number, their fit or their room.
//! The source does not apply them.

use super::source::{side_byte, Source};
use crate::book::LIVE_ORDERS;
use crate::wire::{Body, Message};

/// A message of that symbol that is refused, where the state of the book allows one.
pub fn stray(source: &mut Source, index: u32) -> Message {
    let message = source.sample(index);
    match source.draw.random.below(10) {
        0 => misnumbered(source, message),
        1 => Message {
            index: source.draw.random.pick(&[8, 9, 6, 0x0700, 0x0700_0000]),
            ..message
        },
        _ => Message {
            body: misfit(source, index),
            ..message
        },
    }
}

fn misnumbered(source: &mut Source, message: Message) -> Message {
    let number = message.number;
    let any = source.draw.random.u32();
    Message {
        number: source.draw.random.pick(&[
            number.wrapping_sub(1),
            number.wrapping_sub(2),
            number.wrapping_add(1),
            number.wrapping_add(256),
            number ^ 0x0001_0000,
            0,
            u32::MAX,
            any,
        ]),
        ..message
    }
}

/// A body that does not fit the book, or that finds it full.
fn misfit(source: &mut Source, index: u32) -> Body {
    let live = source.live(index).len();
    if live == LIVE_ORDERS && !source.draw.random.one_in(3) {
        return one_too_many(source, index);
    }
    if live == 0 || source.draw.random.one_in(4) {
        return of_no_order(source, index);
    }
    let place = source.draw.random.below(live);
    let other = source.draw.random.below(live);
    let order = source.live(index)[place];
    let other = source.live(index)[other].number;
    let (number, side) = (order.number, side_byte(order.side));
    let wrong_side = if side == b'B' { b'S' } else { b'B' };
    let price = order.price;
    let volume = source.draw.volume();
    match source.draw.random.below(5) {
        0 => Body::Add {
            order: number,
            price,
            volume,
            side,
            firm: source.draw.firm(),
        },
        1 => Body::Modify {
            order: number,
            price,
            volume,
            position: 0,
            side: wrong_side,
        },
        2 => Body::Execute {
            order: number,
            trade: source.draw.id(),
            price,
            volume: order.volume.saturating_add(volume),
            printable: 1,
            conditions: source.draw.conditions(),
        },
        3 => Body::Replace {
            order: number,
            new_order: source.draw.order(),
            price,
            volume,
            side: wrong_side,
        },
        _ => Body::Replace {
            order: number,
            new_order: other,
            price,
            volume,
            side,
        },
    }
}

/// An add in a full book, mostly of an order that is not live.
fn one_too_many(source: &mut Source, index: u32) -> Body {
    let mut body = source.add_body(index);
    if let Body::Add { order, .. } = &mut body {
        if source.draw.random.one_in(3) {
            let place = source.draw.random.below(LIVE_ORDERS);
            *order = source.live(index)[place].number;
        }
    }
    body
}

/// A change of an order that is most likely not live.
fn of_no_order(source: &mut Source, index: u32) -> Body {
    let order = source.draw.order() ^ source.draw.random.pick(&[1 << 40, 1 << 33, 91]);
    let side = source.draw.side();
    let price = source.draw.price(side);
    let volume = source.draw.volume();
    let place = source.live(index).first();
    let new_order = place.map_or(order, |order| order.number);
    match source.draw.random.below(4) {
        0 => Body::Delete { order },
        1 => Body::Modify {
            order,
            price,
            volume,
            position: 1,
            side,
        },
        2 => Body::Execute {
            order,
            trade: source.draw.id(),
            price,
            volume,
            printable: 0,
            conditions: source.draw.conditions(),
        },
        _ => Body::Replace {
            order,
            new_order,
            price,
            volume,
            side,
        },
    }
}
