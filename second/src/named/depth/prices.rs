//! Prices at the edges, prices that cross, and what stands at a price.

use super::{adds, told, told_and_fed};
use crate::make::messages::*;
use crate::named::Cases;

const LARGEST: u32 = u32::MAX;

pub fn add_to(cases: &mut Cases) {
    edges(cases);
    crossed(cases);
    told(
        cases,
        "odd-lots-at-a-level",
        &adds(
            1,
            &[
                (9, BUY, 998, 99),
                (2, SELL, 1_002, 51),
                (4, BUY, 1_000, 50),
                (1, SELL, 1_001, 149),
                (7, BUY, 1_000, 99),
                (3, SELL, 1_002, 99),
                (8, SELL, 1_003, 100),
                (6, BUY, 999, 1),
                (12, BUY, 998, 100),
                (11, SELL, 1_001, 2),
                (10, BUY, 1_000, 1),
                (5, SELL, 1_002, 49),
            ],
        ),
        &[execute(13, 8, 1_003, 1), execute(14, 4, 1_000, 1)],
    );
}

fn edges(cases: &mut Cases) {
    let orders = [
        (0, BUY, 0, 10),
        (u64::MAX, SELL, LARGEST, 20),
        (5, BUY, LARGEST, 30),
        (4, SELL, 0, 40),
        (6, BUY, 1, 50),
        (3, SELL, LARGEST - 1, 60),
        (2, BUY, 0, 70),
        (7, SELL, 0, 80),
        (1, SELL, LARGEST, 90),
        (8, BUY, LARGEST, LARGEST),
    ];
    told(cases, "prices-0-and-all-ones", &[], &adds(1, &orders));
}

fn crossed(cases: &mut Cases) {
    told(
        cases,
        "a-price-on-both-sides",
        &adds(
            1,
            &[
                (4, SELL, 1_500, 1),
                (1, BUY, 1_500, 10),
                (6, SELL, 1_501, 2),
                (2, SELL, 1_500, 4),
                (8, BUY, 1_499, 20),
                (3, BUY, 1_500, 40),
                (7, SELL, 1_500, 8),
                (5, SELL, 1_499, 16),
            ],
        ),
        &[delete(9, 1), delete(10, 3), delete(11, 2)],
    );
    told_and_fed(
        cases,
        "a-crossed-depth",
        &adds(
            1,
            &[
                (7, BUY, 1_980, 1),
                (2, SELL, 1_010, 2),
                (9, BUY, 2_000, 4),
                (4, SELL, 1_995, 8),
                (1, SELL, 1_000, 16),
                (8, BUY, 1_990, 32),
                (3, SELL, 1_000, 64),
                (6, BUY, 1_990, 128),
                (5, SELL, 1_000, 256),
                (11, BUY, 1_005, 512),
                (10, SELL, 2_005, 1_024),
            ],
        ),
        &[],
    );
}
