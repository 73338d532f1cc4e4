//! What books and their neighbours in memory do to each other, which is nothing, and how large a
//! book is.

mod common;

use std::hint::black_box;
use std::mem::{align_of, size_of};

use common::{abc_book, day, hosted, level, no_quote, shown, ABC, BUY, REGULAR};
use painterend::sys::{self, State};
use painterend::NYSE;

/// The number of the header, read anew.
fn header_bytes() -> usize {
    let header = include_str!("../../painterend.h");
    let (_, number) = header
        .split_once("#define PAINTEREND_BOOK_BYTES ")
        .expect("the header's number");
    let digits = number.split(|byte: char| !byte.is_ascii_digit()).next();
    digits
        .and_then(|digits| digits.parse().ok())
        .expect("digits")
}

#[test]
fn a_state_is_as_large_as_the_header_says() {
    assert_eq!(size_of::<State>(), header_bytes());
    assert_eq!(align_of::<State>(), 8);
}

#[test]
fn two_books_go_their_own_ways() {
    hosted(|| {
        let (mut one, mut other) = (abc_book(), abc_book());
        assert_eq!(one.apply(&ABC.add(1, 1001, BUY, 10, 100)).answer, 0);
        assert_eq!(other.quote(ABC.index), shown(None, None));
        assert_eq!(other.apply(&ABC.trade(1, 1, 50, REGULAR)).answer, 0);
        assert_eq!(one.quote(ABC.index), shown(level(10, 100), None));
        assert_eq!(one.volume(ABC.index), day(0, true));
        assert_eq!(other.volume(ABC.index), day(50, true));
        drop(one);
        assert_eq!(other.quote(ABC.index), shown(None, None));
    });
}

#[test]
fn a_clone_goes_its_own_way() {
    hosted(|| {
        let mut book = abc_book();
        assert_eq!(book.apply(&ABC.add(1, 1001, BUY, 10, 100)).answer, 0);
        let mut clone = book.clone();
        assert_eq!(clone.run(&ABC.delete(3, 1001)).at, 25);
        assert_eq!(clone.quote(ABC.index), no_quote(8));
        assert_eq!(clone.register(8, b"DEF", 0), 0);
        assert_eq!(book.quote(ABC.index), shown(level(10, 100), None));
        assert_eq!(book.quote(8), no_quote(5));
        assert_eq!(book.apply(&ABC.delete(2, 1001)).answer, 0);
        assert_eq!(book.quote(ABC.index), shown(None, None));
    });
}

#[test]
fn a_question_changes_nothing() {
    hosted(|| {
        let mut book = abc_book();
        for number in 1..=10 {
            assert_eq!(
                book.apply(&ABC.add(number, u64::from(number), BUY, 10, 1))
                    .answer,
                0
            );
            for index in [ABC.index, 0, u32::MAX] {
                assert_eq!(book.quote(index), book.quote(index));
                assert_eq!(book.volume(index), book.volume(index));
            }
        }
        assert_eq!(book.quote(ABC.index), shown(level(10, 10), None));
    });
}

const GUARD: usize = 4096;
const MARK: u8 = 0x5A;

/// A state between bytes that no call may touch.
#[repr(C)]
struct Guarded {
    before: [u8; GUARD],
    state: State,
    after: [u8; GUARD],
}

impl Guarded {
    fn new() -> Box<Guarded> {
        let state = *sys::new(NYSE).expect("a state of NYSE");
        let (before, after) = ([MARK; GUARD], [MARK; GUARD]);
        Box::new(Guarded {
            before,
            state,
            after,
        })
    }

    /// Read where the compiler can't know what a call did.
    fn assert_intact(&self) {
        let guarded = black_box(self);
        assert!(guarded
            .before
            .iter()
            .chain(&guarded.after)
            .all(|&byte| byte == MARK));
    }
}

#[test]
fn the_neighbours_of_a_lent_state_stay() {
    hosted(|| {
        assert_eq!(size_of::<Guarded>(), header_bytes() + 2 * GUARD);
        let mut guarded = Guarded::new();
        for index in 0..9 {
            sys::register(&mut guarded.state, index, b"SYMBOL", 2);
            guarded.assert_intact();
        }
        // the last symbol's places filled to the brim, and beyond: 256 orders, 128 trades, 16 crosses
        let last = common::Symbol { index: 7 };
        for number in 1..=260 {
            sys::apply(
                &mut guarded.state,
                &last.add(number, u64::from(number), BUY, 10, 1),
            );
            guarded.assert_intact();
        }
        sys::run(&mut guarded.state, &last.clear(1));
        guarded.assert_intact();
        let trades: Vec<u8> = (1..=140)
            .flat_map(|number| last.trade(number, number, 1, REGULAR))
            .collect();
        sys::run(&mut guarded.state, &trades);
        guarded.assert_intact();
        assert_eq!(sys::volume(&guarded.state, 7), day(128, false));
        for number in 141..=160 {
            sys::apply(&mut guarded.state, &last.cross(number, number, 10));
            guarded.assert_intact();
        }
        assert_eq!(sys::volume(&guarded.state, 7), day(128 + 160, false));
        let corrections: Vec<u8> = (161..=180)
            .flat_map(|number| last.correct(number, number - 20, u32::MAX))
            .collect();
        sys::run(&mut guarded.state, &corrections);
        guarded.assert_intact();
        let largest = 16 * u64::from(u32::MAX);
        assert_eq!(sys::volume(&guarded.state, 7), day(128 + largest, false));
        assert_eq!(sys::quote(&guarded.state, 7), shown(None, None));
        guarded.assert_intact();
    });
}
