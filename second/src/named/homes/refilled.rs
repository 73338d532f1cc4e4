//! Books that are filled again after a clear or after executions.

use super::emptied::scattered;
use super::{miss, named, roomful, Named, FAMILY, NEXT_FAMILY, ROOM};
use crate::book::LIVE_ORDERS;
use crate::make::messages::BUY;
use crate::named::script::Script;

pub fn scripts() -> Vec<Named> {
    vec![
        named("a-full-family-cleared-and-another-one", |script| {
            script.fill(&roomful(FAMILY));
            script.clear();
            script.fill(&roomful(NEXT_FAMILY));
            script.find_all();
            miss(script, roomful(FAMILY)[0]);
        }),
        named("a-full-family-cleared-and-the-same-one", |script| {
            script.fill(&roomful(FAMILY));
            script.clear();
            script.fill(&backwards());
            script.find_all();
            script.add(roomful(FAMILY)[0], BUY, 500);
            script.clear();
            script.fill(&roomful(FAMILY)[..2]);
        }),
        named("a-full-family-cleared-thrice", cleared_thrice),
        named("a-full-family-executed-here-and-there", executed),
        named("a-stale-family-cleared-and-filled", stale),
        named("a-family-stale-by-a-gap-cleared-and-filled", gap),
    ]
}

/// A full book of the family, the last order first.
fn backwards() -> Vec<u64> {
    roomful(FAMILY).into_iter().rev().collect()
}

/// One family, another, and the first again, with some orders gone before each clear.
fn cleared_thrice(script: &mut Script) {
    for family in [FAMILY, NEXT_FAMILY, FAMILY] {
        let orders = roomful(family);
        script.fill(&orders);
        script.empty(&orders[10..20]);
        script.find_all();
        script.clear();
        script.add(orders[15], BUY, 100);
        script.delete(orders[15]);
    }
    script.fill(&backwards());
    script.find_all();
    miss(script, roomful(NEXT_FAMILY)[0]);
}

/// All orders are executed in part and then to the last share; then the book is filled twice more.
fn executed(script: &mut Script) {
    let orders = roomful(FAMILY);
    script.fill(&orders);
    // The first order has one share, which a part would use up.
    for place in scattered().into_iter().filter(|place| *place > 0) {
        script.execute(orders[place], 1);
    }
    for place in scattered().into_iter().rev() {
        script.execute_all(orders[place]);
        if place % 8 == 0 {
            script.find_all();
        }
    }
    script.fill(&backwards());
    for place in scattered() {
        script.execute_all(orders[place]);
    }
    script.fill(&orders);
    script.find_all();
    script.execute(orders[LIVE_ORDERS - 1], ROOM + 1);
    script.clear();
    script.fill(&orders[..2]);
}

/// Stale by one add too many; while it is stale no order goes.
fn stale(script: &mut Script) {
    let orders = roomful(FAMILY);
    script.fill(&orders);
    script.add(super::unused(FAMILY, 0), BUY, 500);
    script.empty(&orders[..10]);
    script.clear();
    script.fill(&orders);
    script.find_all();
    script.add(orders[0], BUY, 500);
    script.clear();
    script.fill(&backwards());
    script.find_all();
    script.replace(orders[0], orders[1], 500);
    script.clear();
    script.fill(&roomful(NEXT_FAMILY));
    script.find_all();
}

fn gap(script: &mut Script) {
    script.fill(&roomful(FAMILY));
    script.lose_one();
    script.delete(roomful(FAMILY)[0]);
    script.clear();
    script.fill(&roomful(FAMILY));
    script.find_all();
}
