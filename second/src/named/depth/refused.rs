//! Depths of no symbol and of a stale one.

use super::ladder::ten;
use super::many::full_book;
use super::{ask, run, step};
use crate::make::messages::*;
use crate::named::Cases;

const NONE: u32 = 8;

pub fn add_to(cases: &mut Cases) {
    cases.calls("a-depth-that-is-refused", |calls| {
        // It is not registered: 5.
        ask(calls);
        calls.register(ABC, 4, b"ABC");
        ask(calls);
        run(calls, &ten());
        calls.quote(NONE);
        calls.depth(NONE);
        // A gap, a misfit and one order too many: 8 until the clear.
        step(calls, &[retail(37), retail(36), clear(1)]);
        run(calls, &ten());
        step(calls, &[delete(36, 99), add(36, 98, BUY, 1, 1), clear(1)]);
        run(calls, &full_book());
        step(calls, &[add(257, 99, BUY, 1, 1), clear(5)]);
        calls.depth(NONE);
    });
}
