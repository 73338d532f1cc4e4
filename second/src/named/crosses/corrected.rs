//! Corrections, of crosses that are kept and of others.

use super::{crosses, told, told_after};
use crate::make::messages::*;
use crate::named::Cases;
use crate::wire::Message;

pub fn add_to(cases: &mut Cases) {
    told(
        cases,
        "a-correction-twice",
        &[
            cross(1, 1, 1000, 5),
            correction(2, 1, 9),
            correction(3, 1, 3),
            correction(4, 1, 3),
        ],
    );
    told(
        cases,
        "a-correction-to-0-keeps-the-cross",
        &[
            cross(1, 1, 1000, 5),
            correction(2, 1, 0),
            cross(3, 1, 1000, 7),
            correction(4, 1, 9),
        ],
    );
    told(
        cases,
        "a-correction-after-one-to-0",
        &[
            cross(1, 1, 1000, 5),
            correction(2, 1, 0),
            correction(3, 1, 9),
            correction(4, 1, 0),
            correction(5, 1, u32::MAX),
        ],
    );
    told(
        cases,
        "a-cross-of-0-is-kept",
        &[
            cross(1, 1, 1000, 0),
            correction(2, 1, 8),
            cross(3, 2, 1000, 0),
            cross(4, 2, 1000, 4),
            correction(5, 2, 16),
        ],
    );
    told(
        cases,
        "a-correction-of-no-cross",
        &[
            correction(1, 1, 5),
            cross(2, 1, 1000, 6),
            correction(3, 1, 7),
        ],
    );
    told(
        cases,
        "a-correction-of-no-cross-to-no-shares",
        &[
            cross(1, 1, 1000, 5),
            correction(2, 2, 0),
            correction(3, 1, 0),
        ],
    );
    full_lists(cases);
}

fn full_lists(cases: &mut Cases) {
    told_after(
        cases,
        "a-correction-in-a-full-list",
        &crosses(1, 16),
        &[
            correction(17, 1, 100),
            correction(18, 16, 100),
            correction(19, 8, 100),
            cross(20, 17, 1000, 17),
        ],
    );
    told_after(
        cases,
        "a-correction-of-no-cross-in-a-full-list",
        &crosses(1, 16),
        &[correction(17, 17, 100), correction(18, 9, 0)],
    );
    let each: Vec<Message> = (1..=16)
        .map(|place| correction(16 + place, place, 100))
        .collect();
    told_after(
        cases,
        "a-correction-of-each-of-16-crosses",
        &crosses(1, 16),
        &each,
    );
}
