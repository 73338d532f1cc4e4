//! Levels of many orders, and books of many levels, up to the 256 orders that a symbol has room for.

use super::{adds, ask, run, told, told_and_fed, Put};
use crate::make::messages::*;
use crate::named::Cases;
use crate::wire::Message;

const LARGEST: u32 = u32::MAX;

pub fn add_to(cases: &mut Cases) {
    let (buys, sells) = (buys_of_64(), sells_of_64());
    let by_turns: Vec<Put> = buys
        .into_iter()
        .zip(sells)
        .flat_map(<[Put; 2]>::from)
        .collect();
    told(cases, "levels-of-64-prices", &adds(1, &by_turns), &[]);
    told_and_fed(
        cases,
        "64-orders-at-one-price",
        &adds(1, &largest_64()),
        &[delete(69, 100), execute(70, 101, 1_000, 1)],
    );
    of_256_prices(cases);
    at_one_price(cases);
    full(cases);
}

/// 64 prices that 10 lie between, in an order that steps over most of them.
fn buys_of_64() -> Vec<Put> {
    (1..=64)
        .map(|place| {
            let order = u64::from(1_000 - 3 * place);
            (order, BUY, 10_000 + 10 * (37 * place % 64), place)
        })
        .collect()
}

/// The same in another order, above those.
fn sells_of_64() -> Vec<Put> {
    (1..=64)
        .map(|place| {
            let order = u64::from(2_000 + 11 * place % 64);
            (order, SELL, 10_640 + 7 * (27 * place % 64), 100 * place)
        })
        .collect()
}

/// 64 of the largest buys at one price, and four such sells at two, one behind each 16 of them.
fn largest_64() -> Vec<Put> {
    let mut orders = Vec::new();
    for place in 0..64 {
        orders.push((163 - place, BUY, 1_000, LARGEST));
        if place % 16 == 15 {
            let price = if place == 31 { 1_002 } else { 1_001 };
            orders.push((place, SELL, price, LARGEST));
        }
    }
    orders
}

/// 256 buys, 256 sells, and 128 of each whose prices come by turns, each order at a price of its own.
fn of_256_prices(cases: &mut Cases) {
    let buys: Vec<Put> = (1..=256)
        .map(|place| own_price(place, BUY, 256, 1))
        .collect();
    let sells: Vec<Put> = (1..=256)
        .map(|place| own_price(place, SELL, 256, 3))
        .collect();
    let both: Vec<Put> = (1..=128)
        .flat_map(|place| {
            let (order, side, price, volume) = own_price(place, SELL, 128, 2);
            let sell = (order + 1_000, side, price + 1, volume);
            [sell, own_price(place, BUY, 128, 2)]
        })
        .collect();
    books(cases, "levels-of-256-prices", &[buys, sells, both]);
}

/// One of so many orders whose prices lie so far apart; the place is its volume too.
fn own_price(place: u32, side: u8, count: u32, apart: u32) -> Put {
    let price = 100_000 + apart * (89 * place % count);
    (u64::from(7 * place % 509), side, price, place)
}

/// 256 of the largest buys, 256 such sells, and 128 of each, all of them at one price.
fn at_one_price(cases: &mut Cases) {
    let of = |side: u8| move |place: u64| (7 * place % 509, side, 1_000, LARGEST);
    let buys: Vec<Put> = (1..=256).map(of(BUY)).collect();
    let sells: Vec<Put> = (1..=256).map(of(SELL)).collect();
    let both: Vec<Put> = (1..=256)
        .map(|place| of(if place % 2 == 0 { BUY } else { SELL })(place))
        .collect();
    cases.feed("the-largest-sizes-of-both-sides", &adds(1, &both));
    books(cases, "256-orders-at-one-price", &[buys, sells, both]);
}

/// Each book in a run, with a clear before the next one.
fn books(cases: &mut Cases, name: &str, books: &[Vec<Put>]) {
    cases.calls_on_abc(name, |calls| {
        for (number, orders) in (1..).step_by(256).zip(books) {
            calls.step_messages(&[clear(number)]);
            ask(calls);
            run(calls, &adds(number, orders));
        }
    });
}

/// A full book of 16 prices a side: the first has one order, the second two and so on to the 15th, and
/// the 16th has eight.
fn full(cases: &mut Cases) {
    cases.feed("a-depth-of-a-full-book", &full_book());
    told(
        cases,
        "a-depth-of-a-full-book",
        &full_book(),
        &[
            delete(257, 1_000),
            add(258, 1, BUY, 10_001, 5),
            replace(259, 2_120, 2, SELL, 19_990, 6),
            modify(260, 1_001, BUY, 9_980, 7),
            add(261, 3, BUY, 9_000, 8),
        ],
    );
}

/// Its adds, with the numbers 1 to 256.
pub fn full_book() -> Vec<Message> {
    let orders: Vec<Put> = (1..=128)
        .flat_map(|place| {
            let (buy, sell) = (45 * place % 128, 77 * place % 128);
            [
                (
                    u64::from(2_000 + sell),
                    SELL,
                    20_000 - 10 * step_of(sell),
                    LARGEST - sell,
                ),
                (
                    u64::from(1_000 + buy),
                    BUY,
                    10_000 - 10 * step_of(buy),
                    buy + 1,
                ),
            ]
        })
        .collect();
    adds(1, &orders)
}

/// The price that an order is at: step 0 has order 0, step 1 the next two, step 2 the next three.
fn step_of(order: u32) -> u32 {
    (0..)
        .find(|step| order < (step + 1) * (step + 2) / 2)
        .expect("the steps have no end")
}
