//! Ten levels a side, request M-106: by `apply`, message by message.

mod common;

use common::*;
use painterend::{Book, Depth, LevelRow, LEVELS};

/// The book after messages that are all done.
fn after(messages: &[Vec<u8>]) -> Book {
    let mut book = abc_book();
    for message in messages {
        assert_eq!(book.apply(message).answer, 0);
    }
    book
}

/// Rows of price, size and orders, and behind them none.
fn rows(used: &[(u32, u64, u32)]) -> [Option<LevelRow>; LEVELS] {
    let mut rows = [None; LEVELS];
    for (row, &(price, size, orders)) in rows.iter_mut().zip(used) {
        *row = Some(LevelRow {
            price,
            size,
            orders,
        });
    }
    rows
}

fn levels(bids: &[(u32, u64, u32)], asks: &[(u32, u64, u32)]) -> Depth {
    Depth {
        answer: 0,
        bids: rows(bids),
        asks: rows(asks),
    }
}

/// What a refused depth shows.
fn no_depth(answer: u8) -> Depth {
    Depth {
        answer,
        ..levels(&[], &[])
    }
}

/// Twelve bids at 100, 110 .. 210 and twelve asks at 205, 215 .. 315, neither best first; the third
/// of each side has a second order.
fn twelve_prices() -> Vec<Vec<u8>> {
    let mut adds = Vec::new();
    for step in 0..12u32 {
        let place = step * 5 % 12;
        let number = 2 * step + 1;
        let (bid, ask) = (100 + 10 * place, 205 + 10 * place);
        adds.push(ABC.add(number, number.into(), BUY, bid, 1 + place));
        adds.push(ABC.add(number + 1, u64::from(number) + 1, SELL, ask, 101 + place));
    }
    adds.push(ABC.add(25, 25, BUY, 190, u32::MAX));
    adds.push(ABC.add(26, 26, SELL, 225, u32::MAX));
    adds
}

#[test]
fn ten_of_twelve_prices_are_shown() {
    hosted(|| {
        let book = after(&twelve_prices());
        let mut bids: Vec<_> = (2..12u32)
            .rev()
            .map(|place| (100 + 10 * place, u64::from(1 + place), 1))
            .collect();
        let mut asks: Vec<_> = (0..10u32)
            .map(|place| (205 + 10 * place, u64::from(101 + place), 1))
            .collect();
        bids[2] = (190, 10 + u64::from(u32::MAX), 2);
        asks[2] = (225, 103 + u64::from(u32::MAX), 2);
        assert_eq!(book.depth(ABC.index), levels(&bids, &asks));
    });
}

#[test]
fn the_first_rows_are_the_quote() {
    hosted(|| {
        let book = after(&twelve_prices());
        assert_eq!(
            book.quote(ABC.index),
            shown(level(210, 12), level(205, 101))
        );
        let depth = book.depth(ABC.index);
        let best = |row: Option<LevelRow>| row.and_then(|row| level(row.price, row.size));
        assert_eq!(
            shown(best(depth.bids[0]), best(depth.asks[0])),
            book.quote(ABC.index)
        );
    });
}

#[test]
fn a_price_that_empties_lets_the_eleventh_in() {
    hosted(|| {
        let mut messages = twelve_prices();
        messages.push(ABC.delete(27, 9));
        let before = after(&twelve_prices()).depth(ABC.index);
        let after = after(&messages).depth(ABC.index);
        // the ninth message added the bid at 180, which was the fourth
        assert_eq!(before.bids[3].map(|row| row.price), Some(180));
        assert_eq!(after.bids[3..9], before.bids[4..10]);
        assert_eq!(after.bids[9], rows(&[(110, 2, 1)])[0]);
        assert_eq!(after.asks, before.asks);
    });
}

#[test]
fn price_0_is_a_price_and_a_side_may_stand_alone() {
    hosted(|| {
        let messages = [ABC.add(1, 1, SELL, 0, 5), ABC.add(2, 2, SELL, u32::MAX, 6)];
        let book = after(&messages);
        assert_eq!(
            book.depth(ABC.index),
            levels(&[], &[(0, 5, 1), (u32::MAX, 6, 1)])
        );
    });
}

#[test]
fn refused_it_has_no_row() {
    hosted(|| {
        let mut book = after(&twelve_prices());
        assert_eq!(book.depth(8), no_depth(5));
        assert_eq!(book.apply(&ABC.delete(28, 1)).answer, 7);
        assert_eq!(book.depth(ABC.index), no_depth(8));
        assert_eq!(book.apply(&ABC.clear(1)).answer, 0);
        assert_eq!(book.depth(ABC.index), levels(&[], &[]));
    });
}
