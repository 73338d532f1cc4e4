//! Replaces, which take an order away and put another one where it finds room.

use super::emptied::scattered;
use super::{miss, named, roomful, unused, Named, FAMILY, NEXT_FAMILY, ROOM};
use crate::book::LIVE_ORDERS;
use crate::make::messages::BUY;
use crate::named::script::Script;

pub fn scripts() -> Vec<Named> {
    let mut scripts = Vec::new();
    for (name, live) in [
        ("a-full-family", LIVE_ORDERS),
        ("a-family-less-one", LIVE_ORDERS - 1),
    ] {
        let orders = &roomful(FAMILY)[..live];
        scripts.push(named(&format!("{name}-replaced-one-by-one"), |script| {
            one_by_one(script, orders);
        }));
        scripts.push(named(
            &format!("{name}-and-a-chain-of-replaces"),
            |script| {
                chain(script, orders);
            },
        ));
        scripts.push(named(
            &format!("{name}-replaced-by-the-same-numbers"),
            |script| {
                by_the_same(script, orders);
            },
        ));
    }
    scripts.push(named("a-full-family-replaced-by-another", by_another));
    scripts.push(named("replaces-to-another-home-and-back", there_and_back));
    scripts.extend(of_a_replaced_order());
    scripts
}

/// Each order by the next unused number, in an order that is not that of the places.
fn one_by_one(script: &mut Script, orders: &[u64]) {
    script.fill(orders);
    let places = scattered()
        .into_iter()
        .filter(|place| *place < orders.len());
    for (count, place) in (0..).zip(places) {
        script.replace(orders[place], unused(FAMILY, count), 100 + count);
        if count % 16 == 15 {
            script.find_all();
        }
    }
    script.find_all();
    miss(script, orders[orders.len() - 1]);
}

/// One order by the next unused number, that one by the next, more often than there are places.
fn chain(script: &mut Script, orders: &[u64]) {
    script.fill(orders);
    let mut last = orders[LIVE_ORDERS / 2];
    for count in 0..ROOM + 6 {
        script.replace(last, unused(FAMILY, count), 100 + count);
        last = unused(FAMILY, count);
    }
    script.find_all();
    script.execute_all(last);
    script.add(orders[LIVE_ORDERS / 2], BUY, 300);
    script.find_all();
    miss(script, last);
}

fn by_the_same(script: &mut Script, orders: &[u64]) {
    script.fill(orders);
    for place in scattered() {
        if let Some(order) = orders.get(place) {
            script.replace(*order, *order, 100 + place as u32);
        }
    }
    script.find_all();
    script.empty(orders);
    miss(script, orders[0]);
}

/// A full book changes to another family, order by order, and back in another order.
fn by_another(script: &mut Script) {
    let [one, other] = [FAMILY, NEXT_FAMILY].map(roomful);
    script.fill(&one);
    for place in 0..LIVE_ORDERS {
        script.replace(one[place], other[place], 100);
    }
    script.find_all();
    for place in scattered() {
        script.replace(other[place], one[place], 200);
    }
    script.find_all();
    miss(script, other[0]);
}

/// The old number of a replace is added again, and goes and comes by replaces too.
fn there_and_back(script: &mut Script) {
    let orders = &roomful(FAMILY)[..LIVE_ORDERS / 2];
    let others = roomful(NEXT_FAMILY);
    script.fill(orders);
    for (old, new) in orders.iter().zip(&others) {
        script.replace(*old, *new, 100);
        script.add(*old, BUY, 200);
    }
    script.find_all();
    for (old, new) in orders.iter().zip(&others[LIVE_ORDERS / 2..]) {
        script.replace(*old, *new, 300);
        script.delete(*new);
        script.add(*old, BUY, 400);
    }
    script.find_all();
    script.replace(others[0], orders[0], 500);
    script.clear();
    script.fill(&others[..2]);
}

/// After a replace the old number is not live and the new one is. Each change of the old one is
/// refused, in a small book; in a full one a delete stands for all.
fn of_a_replaced_order() -> Vec<Named> {
    let mut scripts = Vec::new();
    for (book, live, changes) in [
        ("three", 3, &CHANGES[..]),
        ("a-roomful", LIVE_ORDERS, &CHANGES[..1]),
    ] {
        for (home, new) in [
            ("of-its-family", unused(FAMILY, 0)),
            ("of-another", unused(NEXT_FAMILY, 0)),
        ] {
            for (name, change) in changes {
                let name = format!("{name}-replaced-among-{book}-by-one-{home}");
                scripts.push(named(&name, |script| {
                    let old = roomful(FAMILY)[1];
                    script.fill(&roomful(FAMILY)[..live]);
                    script.replace(old, new, 100);
                    script.find(&[new]);
                    change(script, old);
                    script.delete(new);
                    script.clear();
                    script.add(old, BUY, 10);
                }));
            }
        }
    }
    scripts
}

/// A change of an order that was replaced.
type Change = fn(&mut Script, u64);

const CHANGES: [(&str, Change); 3] = [
    ("a-delete-of-an-order", Script::delete),
    ("an-execute-of-an-order", |script, order| {
        script.execute(order, 1);
    }),
    ("a-replace-of-an-order", |script, order| {
        script.replace(order, order, 1);
    }),
];
