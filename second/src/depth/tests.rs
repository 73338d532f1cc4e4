//! The rows of books that made lists and feeds leave, held against the orders themselves.

use super::{Depth, Row, Rows};
use crate::book::{Book, Level, Order, Side};
use crate::make::calls::{calls, CALL_KINDS};
use crate::make::feeds::{feed, FEED_KINDS};
use crate::make::messages::ABC;
use crate::probe::watch;
use crate::program::new_reader;
use crate::reader::Reader;

fn order(number: u64, side: Side, price: u32, volume: u32) -> Order {
    Order {
        number,
        side,
        price,
        volume,
    }
}

/// These rows, and empty ones behind them.
fn rows(used: &[(u32, u64, usize)]) -> Rows {
    std::array::from_fn(|place| {
        used.get(place).map(|&(price, size, orders)| Row {
            price,
            size,
            orders,
        })
    })
}

#[test]
fn no_orders_no_rows() {
    assert_eq!(Depth::of(&[]), Depth::default());
    assert_eq!(Depth::default().bids, rows(&[]));
}

#[test]
fn bids_fall_and_asks_rise() {
    let orders = [
        order(3, Side::Sell, 12, 7),
        order(1, Side::Buy, 10, 5),
        order(9, Side::Buy, 12, u32::MAX),
        order(4, Side::Sell, 11, 1),
        order(2, Side::Buy, 10, 6),
        order(8, Side::Sell, 12, u32::MAX),
    ];
    let depth = Depth::of(&orders);
    assert_eq!(depth.bids, rows(&[(12, 4_294_967_295, 1), (10, 11, 2)]));
    assert_eq!(depth.asks, rows(&[(11, 1, 1), (12, 4_294_967_302, 2)]));
}

/// Prices 1 to 11, each with as many orders of one share.
#[test]
fn the_eleventh_price_is_left_out() {
    for side in [Side::Buy, Side::Sell] {
        let orders: Vec<Order> = (0..66)
            .map(|number| {
                let price = (1..=11).find(|price| number < price * (price + 1) / 2);
                order(number, side, price.expect("66 orders") as u32, 1)
            })
            .collect();
        let depth = Depth::of(&orders);
        let level = |price: u32| (price, u64::from(price), price as usize);
        let falling: Vec<_> = (2..=11).rev().map(level).collect();
        let rising: Vec<_> = (1..=10).map(level).collect();
        let (bids, asks) = match side {
            Side::Buy => (rows(&falling), rows(&[])),
            Side::Sell => (rows(&[]), rows(&rising)),
        };
        assert_eq!(depth, Depth { bids, asks });
    }
}

/// The quote of a row.
fn level(row: &Row) -> Level {
    Level {
        price: row.price,
        size: row.size,
    }
}

/// Used rows come first and each is better than the next. A row has all orders of its price, and an
/// order without a row is worse than ten rows.
fn assert_rows(rows: &Rows, orders: &[Order], best: Option<Level>, better: fn(u32, u32) -> bool) {
    let used: Vec<Row> = rows.iter().map_while(|row| *row).collect();
    assert_eq!(rows.iter().flatten().count(), used.len());
    assert_eq!(used.first().map(level), best);
    assert!(used
        .windows(2)
        .all(|two| better(two[0].price, two[1].price)));
    let mut left = orders.to_vec();
    for row in &used {
        let before = left.len();
        let mut size = 0;
        left.retain(|order| {
            let is_here = order.price == row.price;
            size += if is_here { u64::from(order.volume) } else { 0 };
            !is_here
        });
        assert_eq!((size, before - left.len()), (row.size, row.orders));
        assert!(row.orders > 0);
    }
    if let Some(Some(tenth)) = rows.last() {
        assert!(left.iter().all(|order| better(tenth.price, order.price)));
    } else {
        assert_eq!(left, []);
    }
}

fn assert_depth(depth: &Depth, book: &Book) {
    let of = |side| {
        let orders = book.orders().iter().filter(|order| order.side == side);
        orders.copied().collect::<Vec<Order>>()
    };
    let quote = book.quote();
    assert_rows(&depth.bids, &of(Side::Buy), quote.bid, |one, two| one > two);
    assert_rows(&depth.asks, &of(Side::Sell), quote.ask, |one, two| {
        one < two
    });
}

/// Every symbol has the depth of its orders, unless its quote is refused; then the depth is too.
fn assert_depths(reader: &Reader) {
    for symbol in reader.symbols() {
        match (reader.depth(symbol.index), reader.quote(symbol.index)) {
            (Ok(depth), Ok(_)) => assert_depth(&depth, &symbol.book),
            (depth, quote) => assert_eq!(depth.err(), quote.err()),
        }
    }
}

#[test]
fn depths_of_made_lists_are_those_of_their_orders() {
    for (_, kind) in CALL_KINDS {
        for seed in 1..=3 {
            watch(&calls(seed, kind, 200), assert_depths);
        }
    }
}

#[test]
fn depths_of_made_feeds_are_those_of_their_orders() {
    for (_, kind) in FEED_KINDS {
        for seed in 1..=10 {
            let bytes = feed(seed, kind, 150);
            let mut reader = new_reader();
            let mut at = 0;
            loop {
                let (next, _) = reader.step(&bytes, at);
                if next == at {
                    break;
                }
                at = next;
                assert_depths(&reader);
            }
            assert!(reader.symbol(ABC).is_some());
        }
    }
}
