//! Numbers at the edges of what 64 bits hold, and rows of numbers.

use super::emptied::{every_second, scattered};
use super::{miss, named, roomful, Named, FAMILY, ROOM};
use crate::book::LIVE_ORDERS;
use crate::make::families::Family;
use crate::make::messages::{BUY, SELL};
use crate::named::script::Script;

/// The second and the third are of one family.
const EDGES: [u64; 4] = [0, 1, 1 << 32, u64::MAX];

/// Places of the four, none of them first twice.
const TURNS: [[usize; 4]; 4] = [[0, 1, 2, 3], [3, 2, 1, 0], [1, 3, 0, 2], [2, 0, 3, 1]];

pub fn scripts() -> Vec<Named> {
    let mut scripts = Vec::new();
    for (name, end) in ENDS {
        scripts.push(named(&format!("orders-at-the-edges-{name}"), |script| {
            for coming in TURNS {
                for going in TURNS {
                    come_and_go(script, coming, going, end);
                }
            }
            come_and_stay(script);
        }));
    }
    scripts.push(named("orders-at-the-edges-once", |script| {
        come_and_go(script, TURNS[0], TURNS[2], Script::delete);
        come_and_go(script, TURNS[3], TURNS[1], Script::execute_all);
        come_and_stay(script);
    }));
    scripts.push(named(
        "orders-at-the-edges-in-a-full-family",
        edges_in_a_full_book,
    ));
    for (name, change) in OF_ORDER_0 {
        scripts.push(named(&format!("{name}-in-an-empty-book"), |script| {
            refused(script, change);
        }));
        for (state, first) in [("after-it-went", 0), ("after-another-went", 1)] {
            scripts.push(named(&format!("{name}-{state}"), |script| {
                script.fill(&FAMILY_OF_0.members(first..4));
                script.delete(FAMILY_OF_0.member(first));
                refused(script, change);
            }));
        }
    }
    scripts.push(named("an-add-of-order-0-after-another-went", add_of_0));
    for (name, number) in ROWS {
        scripts.push(named(name, |script| two_rows(script, number)));
    }
    scripts
}

/// How an order goes.
type End = fn(&mut Script, u64);

const ENDS: [(&str, End); 3] = [
    ("deleted", Script::delete),
    ("executed", Script::execute_all),
    ("replaced", |script, order| {
        script.replace(order, order ^ (1 << 40), 9);
        script.delete(order ^ (1 << 40));
    }),
];

fn come_and_go(script: &mut Script, coming: [usize; 4], going: [usize; 4], end: End) {
    for (place, volume) in coming.into_iter().zip(1..) {
        let side = if place % 2 == 0 { BUY } else { SELL };
        script.add(EDGES[place], side, 10 * volume);
    }
    script.find_all();
    for place in going {
        script.modify(EDGES[place], 20 + place as u32);
        script.execute(EDGES[place], 3);
        end(script, EDGES[place]);
        script.find_all();
    }
}

/// The four come once more, and two of them go.
fn come_and_stay(script: &mut Script) {
    script.fill(&EDGES);
    script.find_all();
    script.empty(&EDGES[1..3]);
    script.find_all();
}

/// The four take the places of others of the family, and those come back.
fn edges_in_a_full_book(script: &mut Script) {
    let family = roomful(FAMILY);
    script.fill(&family);
    let [middle, last] = [LIVE_ORDERS / 2, LIVE_ORDERS - 1];
    let others = [0, middle - 1, middle, last].map(|place| family[place]);
    for (old, new) in others.into_iter().zip(EDGES) {
        script.replace(old, new, 200);
    }
    script.find_all();
    for (old, new) in others.into_iter().zip(EDGES) {
        script.delete(new);
        script.add(old, SELL, 300);
    }
    script.find_all();
    miss(script, 0);
}

/// The family that order 0 is a member of. When one of its others went, a search for 0 goes past an
/// empty place.
const FAMILY_OF_0: Family = Family::of_sum(0);

/// A change of order 0 where it is not live: an empty place must not be taken for it.
type Change = fn(&mut Script);

const OF_ORDER_0: [(&str, Change); 4] = [
    ("a-modify-of-order-0", |script| script.modify(0, 1)),
    ("a-delete-of-order-0", |script| script.delete(0)),
    ("an-execute-of-order-0", |script| script.execute(0, 1)),
    ("a-replace-of-order-0", |script| script.replace(0, 1, 1)),
];

fn refused(script: &mut Script, change: Change) {
    change(script);
    script.add(0, BUY, 10);
    script.clear();
    script.add(0, BUY, 20);
    script.modify(0, 30);
}

/// Order 0 is not live before, and then it is.
fn add_of_0(script: &mut Script) {
    script.fill(&FAMILY_OF_0.members(1..4));
    script.delete(FAMILY_OF_0.member(1));
    script.add(0, SELL, 10);
    script.modify(0, 20);
    script.find_all();
    script.delete(0);
    script.find_all();
    miss(script, 0);
}

/// The numbers of a row, by their count from 1 on.
type Row = fn(u64) -> u64;

const ROWS: [(&str, Row); 5] = [
    ("consecutive-numbers", |count| count),
    ("multiples-of-the-room", |count| u64::from(ROOM) * count),
    ("multiples-of-eight-rooms", |count| {
        8 * u64::from(ROOM) * count
    }),
    ("numbers-of-other-high-halves", |count| (count << 32) | 5),
    ("consecutive-numbers-to-the-last", |count| {
        u64::MAX - 2 * u64::from(ROOM) + count
    }),
];

/// A book of a row's first numbers, one of the next ones, and one of both.
fn two_rows(script: &mut Script, number: Row) {
    let row: Vec<u64> = (1..=u64::from(2 * ROOM)).map(number).collect();
    let (first, next) = row.split_at(LIVE_ORDERS);
    script.fill(first);
    script.find_all();
    for place in every_second() {
        script.delete(first[place]);
        script.add(next[place], BUY, 100);
    }
    script.find_all();
    for place in scattered() {
        script.delete(next[place]);
    }
    script.fill(&row[LIVE_ORDERS / 2..][..LIVE_ORDERS]);
    script.find_all();
    miss(script, first[0]);
    script.fill(&next[1..]);
}
