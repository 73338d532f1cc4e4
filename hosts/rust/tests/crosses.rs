//! Crosses in the day's volume, request M-102: each case by `apply`, message by message, and by one
//! `run`.

mod common;

use common::*;
use painterend::{Book, Ended, NYSE};

/// A symbol keeps so many crosses, and so many trades beside them.
const KEPT_CROSSES: u32 = 16;
const KEPT_TRADES: u32 = 128;

/// The largest volume of a message.
const MOST: u32 = u32::MAX;

/// The book after messages that are all done. By `apply` and by `run` it comes to the same.
fn after(messages: &[Vec<u8>]) -> Book {
    after_answers(&messages.iter().map(|one| (&one[..], 0)).collect::<Vec<_>>())
}

/// The same with other answers.
fn after_answers(messages: &[(&[u8], u8)]) -> Book {
    let mut stepped = abc_book();
    for &(message, answer) in messages {
        let passed = stepped.apply(message);
        assert_eq!((passed.answer, passed.at), (answer, message.len()));
    }
    let bytes = messages
        .iter()
        .map(|(one, _)| *one)
        .collect::<Vec<_>>()
        .concat();
    let mut ran = abc_book();
    let (at, answer) = (bytes.len(), 1);
    assert_eq!(ran.run(&bytes), Ended { at, answer });
    assert_eq!(ran.quote(ABC.index), stepped.quote(ABC.index));
    assert_eq!(ran.volume(ABC.index), stepped.volume(ABC.index));
    ran
}

/// A book with both sides, a trade and two crosses: 30 shares, 200 and 1,000.
fn auction() -> Vec<Vec<u8>> {
    vec![
        ABC.add(1, 1001, BUY, 10, 100),
        ABC.add(2, 1002, SELL, 20, 50),
        ABC.execute(3, 1001, 10, 30, 1),
        ABC.cross(4, 900, 200),
        ABC.cross(5, 901, 1000),
    ]
}

/// An order, then 16 crosses of as many shares as their number, 1 to 16.
fn full_list() -> Vec<Vec<u8>> {
    let crosses = (1..=KEPT_CROSSES).map(|cross| ABC.cross(1 + cross, cross, cross));
    [ABC.add(1, 1001, BUY, 10, 100)]
        .into_iter()
        .chain(crosses)
        .collect()
}

/// The last of these messages takes the mark away, and nothing else; the next number is the next.
fn assert_costs_the_mark_alone(messages: &[Vec<u8>]) {
    let (_, before) = messages.split_last().expect("a message");
    let (whole, lost) = (after(before), after(messages));
    let volume = whole.volume(ABC.index);
    assert!(volume.whole);
    assert_eq!(lost.volume(ABC.index), day(volume.shares, false));
    assert_eq!(lost.quote(ABC.index), whole.quote(ABC.index));
    let next = u32::try_from(messages.len()).expect("few messages") + 1;
    let more = [messages, &[ABC.trade(next, 7_000, 4, REGULAR)]].concat();
    assert_eq!(
        after(&more).volume(ABC.index),
        day(volume.shares + 4, false)
    );
}

#[test]
fn the_volume_counts_crosses_beside_trades() {
    hosted(|| {
        let book = after(&auction());
        assert_eq!(book.volume(ABC.index), day(1230, true));
        assert_eq!(book.quote(ABC.index), shown(level(10, 70), level(20, 50)));
    });
}

#[test]
fn an_execution_that_is_not_printed_is_in_its_cross_alone() {
    hosted(|| {
        let unprinted = [ABC.execute(6, 1001, 10, 70, 0), ABC.cross(7, 902, 70)];
        let book = after(&[&auction()[..], &unprinted].concat());
        assert_eq!(book.volume(ABC.index), day(1300, true));
        assert_eq!(book.quote(ABC.index), shown(None, level(20, 50)));
    });
}

#[test]
fn a_correction_replaces_the_volume_of_its_cross() {
    hosted(|| {
        let mut messages = auction();
        for (number, cross, volume, shares) in [
            (6, 900, 250, 1280),
            (7, 901, 0, 280),
            (8, 900, MOST, 30 + u64::from(MOST)),
            (9, 901, 7, 37 + u64::from(MOST)),
            (10, 900, 0, 37),
        ] {
            messages.push(ABC.correct(number, cross, volume));
            let book = after(&messages);
            assert_eq!(book.volume(ABC.index), day(shares, true));
            assert_eq!(book.quote(ABC.index), shown(level(10, 70), level(20, 50)));
        }
    });
}

#[test]
fn a_cross_of_no_shares_is_kept() {
    hosted(|| {
        let mut messages = vec![ABC.cross(1, 0, 0)];
        assert_eq!(after(&messages).volume(ABC.index), day(0, true));
        messages.push(ABC.correct(2, 0, 60));
        assert_eq!(after(&messages).volume(ABC.index), day(60, true));
    });
}

#[test]
fn a_repeated_cross_takes_the_mark_alone() {
    hosted(|| {
        for volume in [200, 0, 5, MOST] {
            assert_costs_the_mark_alone(&[&auction()[..], &[ABC.cross(6, 900, volume)]].concat());
        }
    });
}

#[test]
fn a_correction_of_an_unknown_cross_takes_the_mark_alone() {
    hosted(|| {
        assert_costs_the_mark_alone(&[ABC.correct(1, 0, 0)]);
        // 3 is the trade of the execution
        for cross in [0, 3, 899, 902, MOST] {
            assert_costs_the_mark_alone(&[&auction()[..], &[ABC.correct(6, cross, 5)]].concat());
        }
    });
}

#[test]
fn the_17th_cross_takes_the_mark_alone() {
    hosted(|| {
        let full = full_list();
        assert_eq!(after(&full).volume(ABC.index), day(136, true));
        for cross in [0, 1, 16, 17] {
            let one_more = ABC.cross(KEPT_CROSSES + 2, cross, 9);
            assert_costs_the_mark_alone(&[&full[..], &[one_more]].concat());
        }
    });
}

#[test]
fn each_of_16_crosses_is_corrected() {
    hosted(|| {
        let mut messages = full_list();
        for cross in 1..=KEPT_CROSSES {
            messages.push(ABC.correct(KEPT_CROSSES + 1 + cross, cross, 1000));
            let rest: u32 = (cross + 1..=KEPT_CROSSES).sum();
            let shares = u64::from(1000 * cross + rest);
            assert_eq!(after(&messages).volume(ABC.index), day(shares, true));
        }
    });
}

#[test]
fn the_lists_of_trades_and_crosses_leave_each_other_room() {
    hosted(|| {
        let trades = (1..=KEPT_TRADES).map(|number| ABC.trade(number, number, MOST, REGULAR));
        let crosses = (1..=KEPT_CROSSES).map(|cross| ABC.cross(KEPT_TRADES + cross, cross, MOST));
        let mut messages: Vec<_> = trades.chain(crosses).collect();
        let next = KEPT_TRADES + KEPT_CROSSES + 1;
        let largest = u64::from(MOST) * u64::from(KEPT_TRADES + KEPT_CROSSES);
        assert_eq!(after(&messages).volume(ABC.index), day(largest, true));
        // a cancelled trade makes no room for a cross
        messages.push(ABC.cancel(next, 1));
        let shares = largest - u64::from(MOST);
        assert_eq!(after(&messages).volume(ABC.index), day(shares, true));
        messages.push(ABC.cross(next + 1, 17, 5));
        assert_costs_the_mark_alone(&messages);
    });
}

#[test]
fn a_cross_and_a_trade_may_share_a_number() {
    hosted(|| {
        let mut messages = vec![ABC.trade(1, 900, 40, REGULAR), ABC.cross(2, 900, 200)];
        assert_eq!(after(&messages).volume(ABC.index), day(240, true));
        messages.push(ABC.correct(3, 900, 300));
        assert_eq!(after(&messages).volume(ABC.index), day(340, true));
        messages.push(ABC.cancel(4, 900));
        assert_eq!(after(&messages).volume(ABC.index), day(300, true));
        // the trade went, and the cross is not one
        messages.push(ABC.cancel(5, 900));
        assert_costs_the_mark_alone(&messages);
    });
}

#[test]
fn a_clear_keeps_crosses() {
    hosted(|| {
        let mut messages = [&auction()[..], &[ABC.clear(6)]].concat();
        let book = after(&messages);
        assert_eq!(book.volume(ABC.index), day(1230, true));
        assert_eq!(book.quote(ABC.index), shown(None, None));
        messages.push(ABC.correct(6, 901, 1));
        assert_eq!(after(&messages).volume(ABC.index), day(231, true));
        messages.push(ABC.cross(7, 900, 5));
        assert_eq!(after(&messages).volume(ABC.index), day(231, false));
    });
}

#[test]
fn a_refused_message_keeps_and_corrects_nothing() {
    hosted(|| {
        let auction = auction();
        let done: Vec<(&[u8], u8)> = auction.iter().map(|one| (&one[..], 0)).collect();
        let stranger = Symbol { index: 8 };
        for (whole, refused) in [
            (
                true,
                [
                    (message(111, &[&[0; 24]]), 2),
                    (message(113, &[&[0; 21]]), 2),
                ],
            ),
            (
                true,
                [
                    (with(ABC.cross(6, 902, 5), NANOSECONDS_TOP, 0xFF), 4),
                    (with(ABC.correct(6, 900, 5), NANOSECONDS_TOP, 0xFF), 4),
                ],
            ),
            (
                true,
                [
                    (stranger.cross(1, 902, 5), 5),
                    (stranger.correct(2, 900, 5), 5),
                ],
            ),
            (
                true,
                [(ABC.cross(5, 902, 5), 6), (ABC.correct(5, 900, 5), 6)],
            ),
            (
                false,
                [(ABC.cross(7, 902, 5), 7), (ABC.correct(6, 900, 5), 8)],
            ),
            (
                false,
                [(ABC.correct(7, 900, 5), 7), (ABC.cross(6, 902, 5), 8)],
            ),
        ] {
            let refused = refused.each_ref().map(|(one, answer)| (&one[..], *answer));
            let book = after_answers(&[&done[..], &refused].concat());
            assert_eq!(book.volume(ABC.index), day(1230, whole));
            // 902 was not kept, and 900 has its shares
            let (clear, cross) = (ABC.clear(6), ABC.cross(6, 902, 3));
            let more = [&done[..], &refused, &[(&clear, 0), (&cross, 0)]].concat();
            assert_eq!(after_answers(&more).volume(ABC.index), day(1233, whole));
        }
    });
}

#[test]
fn eight_symbols_keep_16_crosses_each() {
    hosted(|| {
        let symbols: Vec<Symbol> = (0..8).map(|index| Symbol { index }).collect();
        let mut stepped = Book::new(NYSE).expect("a book of NYSE");
        for symbol in &symbols {
            assert_eq!(stepped.register(symbol.index, b"SYMBOL", 2), 0);
        }
        let mut ran = stepped.clone();
        let mut bytes = Vec::new();
        // the same numbers in every symbol, in turn; one more cross in the even ones
        for number in 1..=KEPT_CROSSES + 1 {
            for symbol in &symbols {
                let message = if number <= KEPT_CROSSES || symbol.index % 2 == 0 {
                    symbol.cross(number, number, 100 + symbol.index)
                } else {
                    symbol.correct(number, symbol.index, 0)
                };
                assert_eq!(stepped.apply(&message).answer, 0);
                bytes.extend(message);
            }
        }
        assert_eq!(ran.run(&bytes).at, bytes.len());
        for symbol in &symbols {
            let each = u64::from(100 + symbol.index);
            let wanted = if symbol.index % 2 == 0 {
                day(16 * each, false)
            } else {
                day(15 * each, true)
            };
            for book in [&stepped, &ran] {
                assert_eq!(book.volume(symbol.index), wanted);
            }
        }
    });
}
