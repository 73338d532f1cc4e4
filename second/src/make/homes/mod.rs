//! Calls on books that are mostly near full of orders of few families: request M-101.

#[cfg(test)]
mod tests;

use super::call_maker::Maker;
use super::damage::sent;
use super::families::Pool;
use super::source::side_byte;
use crate::book::{Order, LIVE_ORDERS};
use crate::wire::write::to_bytes;
use crate::wire::{Body, Message};

/// From now on order numbers are of few families; all books are filled with them.
pub fn begin(maker: &mut Maker) {
    let pool = Pool::drawn(maker.random());
    maker.source.draw.pool = Some(pool);
    for index in maker.source.indices().to_vec() {
        fill(maker, index);
    }
}

/// One more call, or a few.
pub fn push_home(maker: &mut Maker) {
    let index = index(maker);
    match maker.random().below(200) {
        0..=5 => fill(maker, index),
        6 => drain(maker, index),
        7..=79 => {
            let bytes = next_change(maker, index);
            maker.step_at(0, &bytes);
        }
        80..=139 => {
            let count = 2 + maker.random().below(11);
            let bytes: Vec<u8> = (0..count).flat_map(|_| next_change(maker, index)).collect();
            maker.run_at(0, &bytes);
        }
        140..=187 => maker.list.quote(index),
        188..=192 => maker.list.volume(index),
        193 => clear_and_fill(maker, index),
        194..=198 => {
            let body = misfit(maker, index);
            push_refused(maker, index, body);
        }
        _ => push_overflow(maker, index),
    }
}

/// The first symbol, the last one or any.
fn index(maker: &mut Maker) -> u32 {
    let indices = maker.source.indices().to_vec();
    let any = maker.random().pick(&indices);
    maker
        .random()
        .pick(&[indices[0], indices[indices.len() - 1], any])
}

/// Adds until the book is full or nearly so.
fn fill(maker: &mut Maker, index: u32) {
    let depth = LIVE_ORDERS - maker.random().pick(&[0, 0, 1, 5]);
    fill_to(maker, index, depth);
}

fn fill_to(maker: &mut Maker, index: u32, depth: usize) {
    let mut bytes = Vec::new();
    while maker.source.live(index).len() < depth {
        let body = maker.source.add_body(index);
        bytes.extend(applied(maker, index, body));
    }
    push_run(maker, index, &bytes);
}

/// A run over these bytes, if there are any, and the quote.
fn push_run(maker: &mut Maker, index: u32, bytes: &[u8]) {
    if !bytes.is_empty() {
        maker.run_at(0, bytes);
    }
    maker.list.quote(index);
}

/// Some orders or all of them go, in any order.
fn drain(maker: &mut Maker, index: u32) {
    let live = maker.source.live(index).len();
    let left = maker.random().below(live + 1);
    let mut bytes = Vec::new();
    while maker.source.live(index).len() > left {
        let live = maker.source.live_order(index);
        let body = match maker.random().below(3) {
            0 => executed(maker, live, live.volume),
            _ => Body::Delete { order: live.number },
        };
        bytes.extend(applied(maker, index, body));
    }
    push_run(maker, index, &bytes);
}

fn next_change(maker: &mut Maker, index: u32) -> Vec<u8> {
    let body = change(maker, index);
    applied(maker, index, body)
}

/// The bytes of the symbol's next message, which fits; the source applies it.
fn applied(maker: &mut Maker, index: u32, body: Body) -> Vec<u8> {
    let message = next_message(maker, index, body);
    maker.source.apply(message);
    sent(&message, maker.random())
}

/// The next message of a symbol, whose numbers are far from used up.
fn next_message(maker: &mut Maker, index: u32, body: Body) -> Message {
    let number = maker.source.expected(index) as u32;
    maker.source.message(index, number, body)
}

/// As many orders come as go, unless the book is full; most of the changes move an order.
fn change(maker: &mut Maker, index: u32) -> Body {
    let live = maker.source.live(index).len();
    if live == 0 || live < LIVE_ORDERS && maker.random().one_in(2) {
        return maker.source.add_body(index);
    }
    let live = maker.source.live_order(index);
    match maker.random().below(12) {
        0..=2 => Body::Delete { order: live.number },
        3 | 4 => executed(maker, live, live.volume),
        5 => {
            let part = maker.random().u32_below(live.volume) + 1;
            executed(maker, live, part)
        }
        6 => replaced(maker, live, live.number),
        7..=9 => {
            let new = maker.source.unused_order(index);
            replaced(maker, live, new)
        }
        10 => modified(maker, live),
        _ => maker.source.other_body(index),
    }
}

fn executed(maker: &mut Maker, live: Order, volume: u32) -> Body {
    Body::Execute {
        order: live.number,
        trade: maker.source.draw.id(),
        price: live.price,
        volume,
        printable: maker.source.draw.flag(),
        conditions: maker.source.draw.conditions(),
    }
}

fn replaced(maker: &mut Maker, live: Order, new_order: u64) -> Body {
    let price = maker.source.draw.price(side_byte(live.side));
    maker.source.replace_body(live, new_order, price)
}

fn modified(maker: &mut Maker, live: Order) -> Body {
    let price = maker.source.draw.price(side_byte(live.side));
    maker.source.modify_body(live, price)
}

/// An add of a live order, a change of one that is not live, or most often a replace by a live one.
fn misfit(maker: &mut Maker, index: u32) -> Body {
    let unused = maker.source.unused_order(index);
    if maker.source.live(index).is_empty() {
        return Body::Delete { order: unused };
    }
    let live = maker.source.live_order(index);
    let not_live = Order {
        number: unused,
        ..live
    };
    match maker.random().below(16) {
        0 | 1 => added(maker, index, live.number),
        2 => Body::Delete { order: unused },
        3 => modified(maker, not_live),
        4 => executed(maker, not_live, 1),
        5 => replaced(maker, not_live, live.number),
        _ => {
            let other = maker.source.live_order(index).number;
            let old = if other == live.number { not_live } else { live };
            replaced(maker, old, other)
        }
    }
}

/// An add under that number.
fn added(maker: &mut Maker, index: u32, number: u64) -> Body {
    let mut body = maker.source.add_body(index);
    if let Body::Add { order, .. } = &mut body {
        *order = number;
    }
    body
}

/// One add too many.
fn push_overflow(maker: &mut Maker, index: u32) {
    fill_to(maker, index, LIVE_ORDERS);
    let body = maker.source.add_body(index);
    push_refused(maker, index, body);
}

/// A message that makes the symbol stale, at times one or two that find it so, and a clear.
fn push_refused(maker: &mut Maker, index: u32, body: Body) {
    push_unapplied(maker, index, body);
    maker.list.quote(index);
    for _ in 0..maker.random().below(3) {
        let body = change(maker, index);
        push_unapplied(maker, index, body);
    }
    clear_and_fill(maker, index);
}

/// A step that the source does not know of.
fn push_unapplied(maker: &mut Maker, index: u32, body: Body) {
    let message = next_message(maker, index, body);
    let bytes = sent(&message, maker.random());
    maker.step_at(0, &bytes);
}

fn clear_and_fill(maker: &mut Maker, index: u32) {
    let message = maker.source.clear(index);
    maker.step_at(0, &to_bytes(&message));
    fill(maker, index);
}
