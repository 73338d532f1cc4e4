//! Document 01's small day, and every answer that a host can meet.

mod common;

use common::*;
use painterend::{Book, Ended, Passed, Volume, AMERICAN, ARCA, NATIONAL, NYSE, TEXAS};

/// The answer to one whole message. It is passed, whatever the answer, and stops nothing.
fn answer(book: &mut Book, message: &[u8]) -> u8 {
    let passed = book.apply(message);
    assert_eq!((passed.at, passed.stops), (message.len(), false));
    assert_eq!(passed.offset.is_some(), passed.answer == 4);
    passed.answer
}

fn done(book: &mut Book, message: &[u8]) {
    assert_eq!(answer(book, message), 0);
}

/// Cases C to F, with the quote after each.
fn after_f() -> Book {
    let mut book = abc_book();
    let day = [
        (ABC.add(1, 1001, BUY, 1_234_500, 200), level(1_234_500, 200)),
        (ABC.add(2, 1002, BUY, 1_234_500, 50), level(1_234_500, 250)),
        (
            ABC.execute(3, 1001, 1_234_400, 200, 0),
            level(1_234_500, 50),
        ),
        (
            ABC.replace(4, 1002, 1002, BUY, 1_235_000, 70),
            level(1_235_000, 70),
        ),
    ];
    for (message, bid) in day {
        done(&mut book, &message);
        assert_eq!(book.quote(ABC.index), shown(bid, None));
    }
    book
}

/// Case G: a number is skipped.
fn stale_book() -> Book {
    let mut book = after_f();
    assert_eq!(answer(&mut book, &ABC.delete(6, 1002)), 7);
    book
}

/// A stop: nothing is passed.
fn stop(answer: u8) -> Passed {
    let (at, offset, stops) = (0, None, true);
    Passed {
        at,
        answer,
        offset,
        stops,
    }
}

#[test]
fn a_no_bytes_answer_1() {
    hosted(|| {
        let mut book = abc_book();
        assert_eq!(book.apply(&[]), stop(1));
        assert_eq!(book.run(&[]), Ended { at: 0, answer: 1 });
    });
}

#[test]
fn a_cut_message_answers_1_and_nothing_changes() {
    hosted(|| {
        let mut book = after_f();
        let message = ABC.delete(5, 1002);
        for length in 0..message.len() {
            assert_eq!(book.apply(&message[..length]), stop(1));
        }
        assert_eq!(book.quote(ABC.index), shown(level(1_235_000, 70), None));
        done(&mut book, &message);
    });
}

#[test]
fn b_a_size_of_3_answers_2_and_stops() {
    hosted(|| {
        let mut book = abc_book();
        assert_eq!(book.apply(&[3, 0, 100, 0]), stop(2));
        assert_eq!(book.run(&[3, 0, 100, 0]), Ended { at: 0, answer: 2 });
    });
}

#[test]
fn c_to_f_are_quoted() {
    hosted(|| {
        after_f();
    });
}

#[test]
fn both_sides_are_quoted_each_at_its_best() {
    hosted(|| {
        let mut book = abc_book();
        assert_eq!(book.quote(ABC.index), shown(None, None));
        for (number, side, price) in [
            (1, SELL, 30),
            (2, SELL, 20),
            (3, BUY, 5),
            (4, BUY, 10),
            (5, SELL, 20),
        ] {
            done(
                &mut book,
                &ABC.add(number, u64::from(number), side, price, 100),
            );
        }
        assert_eq!(book.quote(ABC.index), shown(level(10, 100), level(20, 200)));
        done(&mut book, &ABC.modify(6, 2, SELL, 19, 7));
        assert_eq!(book.quote(ABC.index), shown(level(10, 100), level(19, 7)));
    });
}

#[test]
fn the_shares_at_a_price_may_exceed_32_bits() {
    hosted(|| {
        let mut book = abc_book();
        for number in 1..=3 {
            done(
                &mut book,
                &ABC.add(
                    number,
                    u64::MAX - u64::from(number),
                    SELL,
                    u32::MAX,
                    u32::MAX,
                ),
            );
        }
        assert_eq!(
            book.quote(ABC.index),
            shown(None, level(u32::MAX, 3 * u64::from(u32::MAX)))
        );
    });
}

#[test]
fn g_a_skipped_number_answers_7_and_then_no_quote_is_given() {
    hosted(|| {
        let book = stale_book();
        assert_eq!(book.quote(ABC.index), no_quote(8));
    });
}

#[test]
fn h_a_message_for_a_stale_symbol_answers_8() {
    hosted(|| {
        let mut book = stale_book();
        assert_eq!(answer(&mut book, &ABC.delete(5, 1002)), 8);
    });
}

#[test]
fn i_j_a_clear_empties_the_book_and_gives_the_next_number() {
    hosted(|| {
        let mut book = stale_book();
        done(&mut book, &ABC.clear(9));
        assert_eq!(book.quote(ABC.index), shown(None, None));
        assert_eq!(answer(&mut book, &ABC.add(8, 1003, BUY, 1, 1)), 6);
        done(&mut book, &ABC.add(9, 1003, BUY, 1, 1));
        assert_eq!(book.quote(ABC.index), shown(level(1, 1), None));
    });
}

#[test]
fn k_an_execution_beyond_what_is_left_answers_9() {
    hosted(|| {
        let mut book = after_f();
        let mut other = book.clone();
        assert_eq!(
            answer(&mut book, &ABC.execute(5, 1002, 1_235_000, 71, 0)),
            9
        );
        assert_eq!(book.quote(ABC.index), no_quote(8));
        done(&mut other, &ABC.execute(5, 1002, 1_235_000, 70, 0));
        assert_eq!(other.quote(ABC.index), shown(None, None));
    });
}

#[test]
fn a_wrong_size_answers_2_an_unknown_type_3() {
    hosted(|| {
        let mut book = abc_book();
        assert_eq!(answer(&mut book, &message(100, &[&[0; 3]])), 2);
        assert_eq!(answer(&mut book, &message(99, &[&[0; 60]])), 3);
        assert_eq!(answer(&mut book, &message(99, &[])), 3);
        done(&mut book, &ABC.add(1, 1, BUY, 1, 1));
    });
}

#[test]
fn a_bad_field_answers_4_with_its_offset() {
    hosted(|| {
        let mut book = abc_book();
        let bad_side = with(ABC.add(1, 1, BUY, 1, 1), SIDE_OF_ADD, b'X');
        let passed = book.apply(&bad_side);
        assert_eq!((passed.answer, passed.offset), (4, Some(SIDE_OF_ADD)));
        assert_eq!((passed.at, passed.stops), (bad_side.len(), false));
    });
}

#[test]
fn a_condition_of_texas_alone_answers_4_elsewhere() {
    hosted(|| {
        for (market, answer) in [
            (NYSE, 4),
            (ARCA, 4),
            (AMERICAN, 4),
            (NATIONAL, 4),
            (TEXAS, 0),
        ] {
            let mut book = Book::new(market).expect("a market");
            assert_eq!(book.register(ABC.index, b"ABC", 4), 0);
            let passed = book.apply(&ABC.trade(1, 1, 100, b"@7  "));
            let offset = (answer == 4).then_some(CONDITIONS_OF_TRADE + 1);
            assert_eq!((passed.answer, passed.offset), (answer, offset));
        }
    });
}

#[test]
fn an_unregistered_symbol_answers_5() {
    hosted(|| {
        let mut book = abc_book();
        let stranger = common::Symbol { index: 8 };
        assert_eq!(answer(&mut book, &stranger.add(1, 1, BUY, 1, 1)), 5);
        assert_eq!(answer(&mut book, &stranger.clear(1)), 5);
        assert_eq!(book.quote(8), no_quote(5));
        let (answer, shares, whole) = (5, 0, false);
        assert_eq!(
            book.volume(8),
            Volume {
                answer,
                shares,
                whole
            }
        );
    });
}

#[test]
fn the_257th_order_answers_10() {
    hosted(|| {
        let mut book = abc_book();
        for number in 1..=256 {
            done(&mut book, &ABC.add(number, u64::from(number), BUY, 10, 1));
        }
        done(&mut book, &ABC.replace(257, 1, 257, BUY, 10, 2));
        assert_eq!(book.quote(ABC.index), shown(level(10, 257), None));
        assert_eq!(answer(&mut book, &ABC.add(258, 258, BUY, 10, 1)), 10);
        assert_eq!(book.quote(ABC.index), no_quote(8));
    });
}

#[test]
fn registering_answers_11_12_and_13() {
    hosted(|| {
        let mut book = abc_book();
        assert_eq!(book.register(ABC.index, b"ABC", 4), 11);
        for name in [
            &b""[..],
            b"TWELVE.BYTES",
            b"A B",
            b"A,B",
            b"\x7F",
            &[0; 300],
        ] {
            assert_eq!(book.register(1, name, 4), 13);
        }
        assert_eq!(book.register(1, b"A", 7), 13);
        for index in 100..107 {
            assert_eq!(book.register(index, b"ELEVEN.BYTE", 6), 0);
        }
        assert_eq!(book.register(1, b"A", 0), 12);
        done(&mut book, &ABC.add(1, 1, BUY, 1, 1));
    });
}

#[test]
fn the_volume_has_the_printed_trades() {
    hosted(|| {
        let mut book = abc_book();
        assert_eq!(book.volume(ABC.index), day(0, true));
        done(&mut book, &ABC.add(1, 1001, BUY, 10, 100));
        done(&mut book, &ABC.execute(2, 1001, 10, 30, 1));
        done(&mut book, &ABC.execute(3, 1001, 10, 5, 0));
        done(&mut book, &ABC.trade(4, 900, 1000, REGULAR));
        assert_eq!(book.volume(ABC.index), day(1030, true));
        done(&mut book, &ABC.cancel(5, 2));
        assert_eq!(book.volume(ABC.index), day(1000, true));
        done(&mut book, &ABC.cancel(6, 2));
        assert_eq!(book.volume(ABC.index), day(1000, false));
        assert_eq!(book.quote(ABC.index), shown(level(10, 65), None));
    });
}

#[test]
fn a_stale_symbol_has_a_volume_that_is_not_whole() {
    hosted(|| {
        let mut book = abc_book();
        done(&mut book, &ABC.trade(1, 1, 500, REGULAR));
        assert_eq!(answer(&mut book, &ABC.trade(3, 3, 1, REGULAR)), 7);
        assert_eq!(book.volume(ABC.index), day(500, false));
        done(&mut book, &ABC.clear(4));
        assert_eq!(book.volume(ABC.index), day(500, false));
    });
}

#[test]
fn a_number_that_names_no_market_gives_no_book() {
    hosted(|| {
        for market in [NYSE, ARCA, AMERICAN, NATIONAL, TEXAS] {
            assert!(Book::new(market).is_some());
        }
        for number in [0, 2, 4, 8, 12, 257, u16::MAX] {
            assert!(Book::new(number).is_none());
        }
    });
}
