//! Corners of numbers and of fit.

use super::Cases;
use crate::make::messages::*;
use crate::wire::Message;

const LAST: u32 = u32::MAX;

fn one() -> Message {
    add(1, 1, BUY, 1000, 10)
}

pub fn add_to(cases: &mut Cases) {
    numbers(cases);
    stale(cases);
    clears(cases);
    fits(cases);
}

fn numbers(cases: &mut Cases) {
    cases.both(
        "the-last-number-and-past-it",
        &[
            clear(LAST - 1),
            add(LAST - 1, 1, BUY, 1000, 10),
            add(LAST, 2, BUY, 1000, 20),
            add(LAST, 3, BUY, 1000, 40),
            add(0, 3, BUY, 1000, 40),
            add(1, 3, BUY, 1000, 40),
            imbalance(LAST),
            retail(0),
            clear(0),
            add(0, 3, BUY, 1000, 80),
            add(1, 4, BUY, 1000, 1),
        ],
    );
    cases.both(
        "clears-past-the-last-number",
        &[clear(LAST), retail(LAST), clear(LAST), retail(LAST)],
    );
    cases.both("number-0-at-the-start", &[retail(0), retail(1), retail(0)]);
    cases.both("number-2-at-the-start", &[retail(2), retail(1), clear(1)]);
    cases.both("the-same-number-twice", &[one(), one(), retail(2)]);
    cases.both(
        "a-far-gap",
        &[retail(1), retail(LAST), clear(LAST), retail(LAST)],
    );
    cases.both(
        "no-refusal-uses-a-number",
        &[
            one(),
            on(9, retail(2)),
            at(LAST, retail(2)),
            retail(1),
            retail(2),
            retail(4),
        ],
    );
}

fn stale(cases: &mut Cases) {
    cases.both(
        "stale-before-the-number",
        &[
            one(),
            retail(3),
            retail(1),
            retail(2),
            retail(3),
            retail(4),
            retail(0),
            add(2, 1, BUY, 1000, 10),
            clear(2),
            retail(2),
        ],
    );
    cases.both(
        "bad-field-of-a-stale-symbol",
        &[retail(2), add(1, 1, 0, 1, 1), at(LAST, clear(1)), retail(1)],
    );
    cases.both(
        "a-clear-with-a-bad-field-is-a-lost-one",
        &[one(), at(1_000_000_000, clear(2)), add(2, 2, BUY, 1000, 5)],
    );
}

fn clears(cases: &mut Cases) {
    for next in [0, 1, 2, 3, 100, LAST] {
        cases.both(
            &format!("clear-to-{next}-after-one-add"),
            &[one(), clear(next), add(next, 1, SELL, 7, 7), retail(2)],
        );
    }
    cases.both("a-clear-at-the-start", &[clear(1), one(), clear(2)]);
    cases.both("two-clears", &[one(), clear(9), clear(2), retail(2)]);
    cases.both(
        "a-clear-leaves-the-trades",
        &[
            one(),
            print_execute(2, 1, 5, 1000, 4),
            clear(3),
            trade(3, 6, 9, 1),
            cancel(4, 5),
        ],
    );
    cases.both(
        "a-cleared-order-is-gone",
        &[one(), clear(2), delete(2, 1), clear(2), one()],
    );
}

fn fits(cases: &mut Cases) {
    let misfits = [
        ("add-of-a-live-order", add(2, 1, SELL, 1, 1)),
        ("modify-of-no-order", modify(2, 2, BUY, 1000, 1)),
        ("modify-to-the-other-side", modify(2, 1, SELL, 1000, 1)),
        ("delete-of-no-order", delete(2, 2)),
        ("execute-of-no-order", execute(2, 2, 1000, 1)),
        ("execute-of-one-too-many", execute(2, 1, 1000, 11)),
        ("execute-of-all-too-many", execute(2, 1, 1000, LAST)),
        ("replace-of-no-order", replace(2, 2, 3, BUY, 1000, 1)),
        (
            "replace-of-no-order-by-a-live-one",
            replace(2, 2, 1, BUY, 1, 1),
        ),
        (
            "replace-to-the-other-side",
            replace(2, 1, 2, SELL, 1000, 10),
        ),
        (
            "replace-by-itself-on-the-other-side",
            replace(2, 1, 1, SELL, 1000, 10),
        ),
    ];
    for (name, message) in misfits {
        cases.both(name, &[one(), message, retail(2), retail(3)]);
    }
    cases.both(
        "an-order-number-is-used-again",
        &[
            one(),
            delete(2, 1),
            add(3, 1, SELL, 2000, 5),
            execute(4, 1, 1, 5),
            add(5, 1, BUY, 7, 7),
            replace(6, 1, 2, BUY, 8, 8),
            add(7, 1, BUY, 9, 9),
        ],
    );
    cases.both(
        "execute-all-that-is-left",
        &[one(), execute(2, 1, 5, 4), execute(3, 1, 5, 6), one_at(4)],
    );
    cases.both(
        "modify-price-and-volume",
        &[
            one(),
            modify(2, 1, BUY, 1001, 10),
            modify(3, 1, BUY, 1001, 5),
            modify(4, 1, BUY, 900, LAST),
        ],
    );
    cases.both(
        "replace-by-another-live-number",
        &[
            one(),
            add(2, 2, BUY, 999, 5),
            replace(3, 1, 2, BUY, 1001, 3),
            retail(3),
            clear(3),
        ],
    );
}

fn one_at(number: u32) -> Message {
    Message { number, ..one() }
}
