//! Levels that all orders of a full book stand at, or only the first or the last that was added.

use crate::make::messages::*;
use crate::named::Cases;
use crate::wire::Message;

pub fn add_to(cases: &mut Cases) {
    for (sides, side, better) in [("buys", BUY, 1001), ("sells", SELL, 999)] {
        cases.both(
            &format!("256-largest-{sides}-at-one-price"),
            &orders(|number| add(number, u64::from(number), side, 1000, u32::MAX)),
        );
        for (name, best) in [("first", 1), ("last", 256)] {
            let mut messages = orders(|number| {
                let price = if number == best { better } else { 1000 };
                add(number, u64::from(number), side, price, number)
            });
            // The other 255 stand at one price.
            messages.push(delete(257, u64::from(best)));
            cases.both(&format!("the-{name}-of-256-{sides}-is-the-best"), &messages);
        }
    }
}

/// The adds with the numbers 1 to 256.
fn orders(made: impl Fn(u32) -> Message) -> Vec<Message> {
    (1..=256).map(made).collect()
}
