//! Levels that change: twelve prices a side, of which some lose their orders.

use super::ladder::twelve;
use super::told;
use crate::make::messages::*;
use crate::named::Cases;
use crate::wire::Message;

const LARGEST: u32 = u32::MAX;

pub fn add_to(cases: &mut Cases) {
    let ways: [(&str, Vec<Message>); 4] = [
        ("delete", deletes()),
        ("execution", executions()),
        ("modify", modifies()),
        ("replace", replaces()),
    ];
    for (way, messages) in ways {
        let name = format!("an-emptied-level-lets-the-eleventh-in-by-{way}");
        told(cases, &name, &twelve(), &messages);
    }
}

/// Of two bids at a price both; of the best asks both; the twelfth bid comes in; at last there are
/// fewer than ten.
fn deletes() -> Vec<Message> {
    vec![
        delete(43, 30),
        delete(44, 3),
        delete(45, 25),
        delete(46, 20),
        delete(47, 2),
        delete(48, 32),
    ]
}

/// Parts and then the rest, at prices that are not the orders'.
fn executions() -> Vec<Message> {
    vec![
        execute(43, 30, 1_234_500, 1),
        execute(44, 3, 1_235_000, 50),
        execute(45, 30, 100, 74),
        execute(46, 27, 1_235_100, LARGEST - 1),
        execute(47, 19, 1_236_000, 1),
        execute(48, 27, 1_235_100, 1),
    ]
}

/// To a level that is there, past the last one, to a level of its own, to another volume alone, and back.
fn modifies() -> Vec<Message> {
    vec![
        modify(43, 12, BUY, 1_234_500, 100),
        modify(44, 1, SELL, LARGEST, 251),
        modify(45, 30, BUY, 1_234_905, 75),
        modify(46, 25, SELL, 1_235_100, LARGEST),
        modify(47, 12, BUY, 1_234_499, 100),
    ]
}

/// By itself and by another number, to a level that is there, past the last one, and to a level of its own.
fn replaces() -> Vec<Message> {
    vec![
        replace(43, 12, 12, BUY, 1_234_500, 101),
        replace(44, 1, 51, SELL, LARGEST, 252),
        replace(45, 30, 52, BUY, 1_234_905, 76),
        replace(46, 25, 53, SELL, 1_235_100, LARGEST),
        replace(47, 7, 1, SELL, 1_235_050, 18),
    ]
}
