//! Crosses and corrections that are refused, and those that come behind a clear or a refusal.

use super::{crosses, told, told_after};
use crate::make::messages::*;
use crate::named::Cases;

/// A symbol that is not registered.
const OTHER: u32 = 8;

/// The first nanosecond that is too many.
const TOO_LATE: u32 = 1_000_000_000;

pub fn add_to(cases: &mut Cases) {
    told(
        cases,
        "a-cross-refused-with-4-and-5",
        &[
            at(TOO_LATE, cross(1, 1, 1000, 5)),
            on(OTHER, cross(1, 1, 1000, 5)),
            cross(1, 1, 1000, 5),
            at(TOO_LATE, cross(2, 1, 1000, 5)),
            on(OTHER, cross(2, 1, 1000, 5)),
            cross(2, 2, 1000, 6),
        ],
    );
    told(
        cases,
        "a-correction-refused-with-4-and-5",
        &[
            cross(1, 1, 1000, 5),
            at(TOO_LATE, correction(2, 1, 9)),
            on(OTHER, correction(2, 1, 9)),
            at(TOO_LATE, correction(2, 2, 9)),
            on(OTHER, correction(2, 2, 9)),
            correction(2, 1, 6),
        ],
    );
    numbers(cases);
    clears(cases);
    without_the_mark(cases);
}

fn numbers(cases: &mut Cases) {
    told(
        cases,
        "a-cross-refused-with-6-and-7",
        &[
            cross(1, 1, 1000, 5),
            cross(1, 1, 1000, 5),
            cross(1, 2, 1000, 6),
            cross(2, 2, 1000, 6),
            cross(4, 3, 1000, 7),
            cross(3, 3, 1000, 7),
            clear(3),
            correction(3, 3, 1),
            cross(4, 3, 1000, 8),
        ],
    );
    told(
        cases,
        "a-correction-refused-with-6-and-7",
        &[
            cross(1, 1, 1000, 5),
            correction(1, 1, 6),
            correction(0, 2, 6),
            correction(2, 1, 7),
            correction(4, 1, 8),
            correction(3, 1, 9),
            clear(3),
            correction(3, 1, 10),
        ],
    );
    told(
        cases,
        "crosses-of-a-stale-symbol",
        &[
            cross(1, 1, 1000, 5),
            retail(3),
            cross(2, 2, 1000, 6),
            correction(2, 1, 7),
            clear(2),
            cross(2, 2, 1000, 6),
            correction(3, 1, 7),
        ],
    );
    told(
        cases,
        "crosses-of-a-symbol-that-a-misfit-made-stale",
        &[
            cross(1, 1, 1000, 5),
            delete(2, 9),
            cross(2, 2, 1000, 6),
            correction(2, 1, 7),
            clear(2),
            correction(2, 1, 8),
            cross(3, 2, 1000, 6),
        ],
    );
    told(
        cases,
        "crosses-at-the-last-number",
        &[
            clear(u32::MAX - 1),
            cross(u32::MAX - 1, 1, 1000, 5),
            correction(u32::MAX, 1, 6),
            cross(0, 2, 1000, 7),
            correction(u32::MAX, 1, 8),
            clear(0),
            correction(0, 1, 9),
        ],
    );
}

fn clears(cases: &mut Cases) {
    told(
        cases,
        "crosses-stay-at-a-clear",
        &[
            cross(1, 1, 1000, 5),
            clear(2),
            cross(2, 2, 1000, 6),
            correction(3, 1, 7),
            clear(4),
            clear(9),
            correction(9, 2, 8),
            cross(10, 1, 1000, 9),
            cross(11, 3, 1000, 10),
        ],
    );
    told(
        cases,
        "a-repeated-cross-behind-a-clear",
        &[cross(1, 1, 1000, 5), clear(2), cross(2, 1, 1000, 5)],
    );
    told_after(
        cases,
        "16-crosses-and-a-clear",
        &crosses(1, 16),
        &[
            clear(17),
            correction(17, 16, 17),
            cross(18, 17, 1000, 50),
            clear(1),
            cross(1, 18, 1000, 60),
            correction(2, 1, 2),
        ],
    );
}

fn without_the_mark(cases: &mut Cases) {
    told(
        cases,
        "still-keeping-crosses-without-the-mark",
        &[
            cancel(1, 9),
            cross(2, 1, 1000, 5),
            cross(3, 2, 1000, 6),
            correction(4, 1, 7),
            correction(5, 9, 1),
            cross(6, 2, 1000, 8),
            retail(9),
            clear(7),
            cross(7, 3, 1000, 9),
            trade(8, 1, 10, 1),
            correction(9, 3, 0),
            cancel(10, 1),
        ],
    );
    told_after(
        cases,
        "16-crosses-without-the-mark",
        &[vec![correction(1, 1, 5)], crosses(2, 16)].concat(),
        &[cross(18, 17, 1000, 17), correction(19, 16, 20)],
    );
}
