//! Kept crosses and what they add to the day's volume: request M-102. Few of these cases have a page,
//! since the program prints no volume.

mod beside;
mod corrected;
mod refused;
mod room;
mod symbols;

use super::record::{told, told_after};
use super::Cases;
use crate::make::messages::*;
use crate::wire::{Body, Message};

/// Crosses from that number on, cross 1 with volume 1, cross 2 with volume 2 and so on.
fn crosses(from: u32, count: u32) -> Vec<Message> {
    (1..=count)
        .map(|place| cross(from + place - 1, place, 1000, place))
        .collect()
}

/// The same cross of another type.
fn of_type(cross_type: u8, mut message: Message) -> Message {
    if let Body::Cross {
        cross_type: own, ..
    } = &mut message.body
    {
        *own = cross_type;
    }
    message
}

pub fn add_to(cases: &mut Cases) {
    told(
        cases,
        "crosses-count",
        &[
            cross(1, 1, 1000, 500),
            trade(2, 1, 5, 1),
            correction(3, 1, 400),
            cross(4, 2, 1000, 60),
            cancel(5, 1),
            correction(6, 2, 70),
        ],
    );
    told(
        cases,
        "crosses-of-any-type-and-price-count",
        &[
            of_type(b'E', cross(1, 1, 0, 1)),
            of_type(b'5', cross(2, 2, u32::MAX, 2)),
            of_type(b'6', cross(3, 3, 1000, 4)),
            of_type(0, cross(4, 4, 1000, 8)),
            of_type(0xFF, cross(5, 5, 1000, 16)),
        ],
    );
    told(
        cases,
        "an-auction-counts-once",
        &[
            add(1, 1, BUY, 1000, 100),
            add(2, 2, SELL, 1000, 60),
            add(3, 3, SELL, 1000, 40),
            execute(4, 1, 1000, 100),
            execute(5, 2, 1000, 60),
            execute(6, 3, 1000, 40),
            cross(7, 1, 1000, 100),
        ],
    );
    numbers(cases);
    room::add_to(cases);
    corrected::add_to(cases);
    beside::add_to(cases);
    refused::add_to(cases);
    symbols::add_to(cases);
}

fn numbers(cases: &mut Cases) {
    told(
        cases,
        "a-repeated-cross",
        &[
            cross(1, 1, 1000, 5),
            cross(2, 1, 1000, 5),
            cross(3, 1, 1000, 6),
            correction(4, 1, 7),
        ],
    );
    told(
        cases,
        "a-repeated-cross-of-another-volume",
        &[cross(1, 1, 1000, 5), cross(2, 1, 1001, 6), retail(3)],
    );
    told(
        cases,
        "cross-numbers-0-and-all-ones",
        &[
            cross(1, 0, 1000, 5),
            cross(2, u32::MAX, 1000, 6),
            correction(3, 0, 7),
            correction(4, u32::MAX, 9),
            cross(5, u32::MAX, 1000, 9),
            cross(6, 0, 1000, 7),
        ],
    );
    for (name, number) in [("0", 0), ("all-ones", u32::MAX)] {
        told(
            cases,
            &format!("a-correction-of-no-cross-{name}"),
            &[
                cross(1, 1, 1000, 5),
                correction(2, number, 6),
                cross(3, number, 1000, 7),
            ],
        );
    }
    let falling: Vec<Message> = (1..=16)
        .map(|number| cross(number, 17 - number, 1000, number))
        .collect();
    told_after(
        cases,
        "crosses-in-falling-order",
        &falling,
        &[
            correction(17, 16, 101),
            correction(18, 1, 116),
            correction(19, 8, 109),
            cross(20, 9, 1000, 1),
        ],
    );
}
