//! Depths: request M-106. Orders mostly come in an order that is neither that of their prices nor that
//! of their numbers.

mod changes;
mod ladder;
mod many;
mod prices;
mod refused;
mod symbols;

use super::Cases;
use crate::make::call_list::CallList;
use crate::make::messages::*;
use crate::wire::Message;

/// An order to be added: number, side, price, volume.
type Put = (u64, u8, u32, u32);

pub fn add_to(cases: &mut Cases) {
    ladder::add_to(cases);
    prices::add_to(cases);
    changes::add_to(cases);
    many::add_to(cases);
    refused::add_to(cases);
    symbols::add_to(cases);
}

/// The adds of these orders, from that number on.
fn adds(from: u32, orders: &[Put]) -> Vec<Message> {
    (from..)
        .zip(orders)
        .map(|(number, (order, side, price, volume))| add(number, *order, *side, *price, *volume))
        .collect()
}

/// Some messages in a run, then a step for each other one.
fn told(cases: &mut Cases, name: &str, before: &[Message], messages: &[Message]) {
    cases.calls_on_abc(name, |calls| {
        run(calls, before);
        step(calls, messages);
    });
}

/// The same, and all of it as a feed, whose last levels are printed.
fn told_and_fed(cases: &mut Cases, name: &str, before: &[Message], messages: &[Message]) {
    cases.feed(name, &[before, messages].concat());
    told(cases, name, before, messages);
}

/// A run with the quote and the depth after it.
fn run(calls: &mut CallList, messages: &[Message]) {
    calls.run_messages(messages);
    ask(calls);
}

/// A step for each message, with the quote and the depth after it.
fn step(calls: &mut CallList, messages: &[Message]) {
    for message in messages {
        calls.step_messages(&[*message]);
        ask(calls);
    }
}

fn ask(calls: &mut CallList) {
    calls.quote(ABC);
    calls.depth(ABC);
}
