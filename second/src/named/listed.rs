//! The cases of the day without a letter, but for those of a full book, and the errors that come
//! easily.

use super::Cases;
use crate::make::messages::*;

pub fn add_to(cases: &mut Cases) {
    two_faults(cases);
    cases.both("price-5-at-scale-4", &[add(1, 1, BUY, 5, 10)]);
    cases.calls_on_abc("second-86399-and-86400", |calls| {
        let bytes = feed(&[add(1, 1, BUY, 5, 10)]);
        for second in [0, 34_200, 86_399, 86_400, u32::MAX] {
            calls.line(125, 1, second, 111, &bytes);
        }
    });
    easy_errors(cases);
}

fn two_faults(cases: &mut Cases) {
    cases.both(
        "bad-side-and-unknown-symbol",
        &[
            on(8, add(1, 1, b'X', 1000, 10)),
            on(8, add(1, 1, BUY, 1000, 10)),
        ],
    );
    cases.both(
        "unknown-symbol-and-gap",
        &[
            on(8, add(5, 1, BUY, 1000, 10)),
            add(1, 1, BUY, 1000, 10),
            on(8, add(0, 1, BUY, 1000, 10)),
        ],
    );
    cases.both(
        "gap-and-misfit",
        &[add(1, 1, BUY, 1000, 10), add(3, 1, BUY, 1000, 10)],
    );
    cases.both(
        "low-and-misfit",
        &[add(1, 1, BUY, 1000, 10), delete(1, 99), delete(0, 99)],
    );
}

fn easy_errors(cases: &mut Cases) {
    cases.both(
        "shares-go-at-the-order-s-own-price",
        &[
            add(1, 1, BUY, 1000, 100),
            add(2, 2, BUY, 900, 100),
            execute(3, 1, 900, 40),
            execute(4, 2, 1000, 40),
            execute(5, 1, 0, 60),
        ],
    );
    cases.both(
        "odd-lots-sum-exactly",
        &[
            add(1, 1, BUY, 1000, 199),
            add(2, 2, BUY, 1000, 1),
            add(3, 3, BUY, 1000, 50),
            add(4, 4, BUY, 1000, 99),
            add(5, 5, SELL, 1001, 1),
            add(6, 6, SELL, 1001, 149),
        ],
    );
    cases.both(
        "every-other-type-uses-a-number",
        &[
            add(1, 1, BUY, 1000, 10),
            imbalance(2),
            status(3),
            trade(4, 1, 10, 1),
            cross(5, 1, 1000, 10),
            cancel(6, 1),
            correction(7, 1, 20),
            retail(8),
            add(9, 2, SELL, 1001, 10),
        ],
    );
    for (name, other) in [("105", imbalance(2)), ("34", status(2))] {
        cases.both(
            &format!("no-gap-after-a-{name}"),
            &[add(1, 1, BUY, 1000, 10), other, add(3, 2, BUY, 1000, 10)],
        );
        cases.both(
            &format!("the-number-of-a-{name}-is-used"),
            &[add(1, 1, BUY, 1000, 10), other, add(2, 2, BUY, 1000, 10)],
        );
    }
    cases.both(
        "replace-by-the-same-number",
        &[
            add(1, 1, BUY, 1000, 10),
            replace(2, 1, 1, BUY, 1001, 20),
            delete(3, 1),
        ],
    );
    cases.both(
        "a-failed-cancel-leaves-the-book",
        &[
            add(1, 1, BUY, 1000, 10),
            cancel(2, 77),
            add(3, 2, BUY, 1000, 10),
        ],
    );
}
