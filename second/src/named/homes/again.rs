//! Orders that go and come again under the same number beside others of their family.

use super::{miss, named, roomful, unused, Named, FAMILY, ROOM};
use crate::book::LIVE_ORDERS;
use crate::make::messages::{BUY, SELL};
use crate::named::script::Script;

/// More often than a symbol has places.
const OFTEN: u32 = ROOM + 6;

pub fn scripts() -> Vec<Named> {
    let mut scripts = vec![named("one-order-again-and-again-beside-two", |script| {
        let family = FAMILY.members(1..4);
        script.fill(&family);
        go_and_come(script, family[1], 8);
        script.find_all();
    })];
    for (name, place) in [
        ("the-first-order", 0),
        ("a-middle-order", LIVE_ORDERS / 2),
        ("the-last-order", LIVE_ORDERS - 1),
    ] {
        scripts.push(named(
            &format!("{name}-of-a-full-family-again-and-again"),
            |script| {
                script.fill(&roomful(FAMILY));
                go_and_come(script, roomful(FAMILY)[place], OFTEN);
                script.find_all();
                script.add(roomful(FAMILY)[place], BUY, 7);
                script.clear();
                script.fill(&roomful(FAMILY));
            },
        ));
    }
    scripts.push(named("ever-new-orders-of-a-full-family", ever_new));
    scripts.push(named("two-orders-take-turns-in-one-place", take_turns));
    scripts
}

/// The order is deleted and added that often, with other shares each time.
fn go_and_come(script: &mut Script, order: u64, times: u32) {
    for time in 1..=times {
        script.delete(order);
        script.add(order, if time % 3 == 0 { SELL } else { BUY }, 100 + time);
    }
}

/// The oldest order goes and one that never was live comes.
fn ever_new(script: &mut Script) {
    let first = roomful(FAMILY);
    script.fill(&first);
    let newcomers: Vec<u64> = (0..OFTEN).map(|count| unused(FAMILY, count)).collect();
    let leavers = first.iter().chain(&newcomers);
    for (time, (new, old)) in (1..).zip(newcomers.iter().zip(leavers)) {
        script.delete(*old);
        script.add(*new, BUY, time);
        if time % 20 == 0 {
            script.find_all();
        }
    }
    miss(script, first[0]);
}

/// One comes when the other goes: after each turn only one of them is live.
fn take_turns(script: &mut Script) {
    let family = roomful(FAMILY);
    script.fill(&family[..LIVE_ORDERS - 1]);
    let pair = [family[LIVE_ORDERS - 1], unused(FAMILY, 0)];
    script.add(pair[1], BUY, 100);
    for turn in 0..OFTEN {
        let [comes, goes] = if turn % 2 == 0 {
            pair
        } else {
            [pair[1], pair[0]]
        };
        script.delete(goes);
        script.add(comes, BUY, 101 + turn);
    }
    script.find_all();
    script.modify(pair[1], 300);
    script.execute(pair[1], 100);
    miss(script, pair[0]);
}
