//! Calls that fill books and records to the last place, and one past it.

use super::auctions;
use super::call_maker::Maker;
use super::source::side_byte;
use super::strays::stray;
use crate::book::LIVE_ORDERS;
use crate::record::KEPT_TRADES;
use crate::wire::write::to_bytes;
use crate::wire::Body;

/// The first book is full, and is to stay so.
pub fn begin(maker: &mut Maker) {
    if let Some(first) = maker.source.indices().first().copied() {
        fill_book(maker, first);
        maker.source.aim_at(LIVE_ORDERS);
    }
}

pub fn push_fill(maker: &mut Maker) {
    let index = maker.source.index();
    match maker.random().below(11) {
        0 => {
            // Eight full symbols hold 2,048 orders.
            for index in maker.source.indices().to_vec() {
                fill_book(maker, index);
            }
            for index in maker.source.indices().to_vec() {
                maker.list.quote(index);
            }
        }
        1 | 2 => fill_record(maker, index),
        3 => fill_record_past(maker, index),
        4 | 5 => {
            fill_book(maker, index);
            at_the_brim(maker, index);
        }
        6 => auctions::fill(maker, index),
        7 => auctions::fill_past(maker, index),
        8 => {
            fill_record(maker, index);
            auctions::fill(maker, index);
        }
        _ => {
            fill_book(maker, index);
            let message = stray(&mut maker.source, index);
            maker.step(&to_bytes(&message));
        }
    }
    maker.list.quote(index);
    maker.list.volume(index);
}

/// Adds until 256 orders are live.
fn fill_book(maker: &mut Maker, index: u32) {
    let mut bytes = Vec::new();
    for _ in maker.source.live(index).len()..LIVE_ORDERS {
        let body = maker.source.add_body(index);
        push_body(maker, index, body, &mut bytes);
    }
    maker.run(&bytes);
}

/// In a full book: a replace, a delete and an add again, or one add too many.
fn at_the_brim(maker: &mut Maker, index: u32) {
    let place = maker.random().below(LIVE_ORDERS);
    let Some(order) = maker.source.live(index).get(place).copied() else {
        return;
    };
    let mut bytes = Vec::new();
    let new_order = maker.random().u64();
    let price = maker.source.draw.price(side_byte(order.side));
    let replace = maker.source.replace_body(order, new_order, price);
    push_body(maker, index, replace, &mut bytes);
    if let Some(last) = maker.source.live(index).last().copied() {
        let order = last.number;
        push_body(maker, index, Body::Delete { order }, &mut bytes);
    }
    for _ in 0..=maker.random().below(2) {
        let body = maker.source.add_body(index);
        push_body(maker, index, body, &mut bytes);
    }
    maker.run(&bytes);
}

/// Printed trades until 128 are kept.
fn fill_record(maker: &mut Maker, index: u32) {
    let mut bytes = Vec::new();
    for _ in maker.source.kept(index).len()..KEPT_TRADES {
        let body = maker.source.printed_trade_body();
        push_body(maker, index, body, &mut bytes);
    }
    maker.run(&bytes);
}

/// A full record, then trades that find it full, cancels, and trades again.
fn fill_record_past(maker: &mut Maker, index: u32) {
    fill_record(maker, index);
    maker.list.volume(index);
    for _ in 0..3 {
        let mut bytes = Vec::new();
        let body = match maker.random().below(3) {
            0 => maker.source.other_body(index),
            1 => maker.source.cancel_body(index),
            _ => maker.source.printed_trade_body(),
        };
        push_body(maker, index, body, &mut bytes);
        maker.step(&bytes);
        maker.list.volume(index);
    }
}

/// The next message of a symbol with that body; none when its numbers are used up.
pub fn push_body(maker: &mut Maker, index: u32, body: Body, bytes: &mut Vec<u8>) {
    if let Ok(number) = u32::try_from(maker.source.expected(index)) {
        let message = maker.source.message(index, number, body);
        maker.source.apply(message);
        bytes.extend(to_bytes(&message));
    }
}
