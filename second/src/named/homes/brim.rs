//! What is done and what is refused in a book of one family, full or with one free place.

use super::{named, roomful, unused, Named, FAMILY};
use crate::book::LIVE_ORDERS;
use crate::make::messages::SELL;
use crate::named::script::Script;

/// Which order of the full book is deleted first.
const STATES: [(&str, Option<usize>); 4] = [
    ("a-full-family", None),
    ("a-family-without-its-first", Some(0)),
    ("a-family-without-its-middle", Some(LIVE_ORDERS / 2)),
    ("a-family-without-its-last", Some(LIVE_ORDERS - 1)),
];

/// Something that is tried with the live orders, the least number first.
type Try = fn(&mut Script, live: &[u64]);

const TRIES: [(&str, Try); 6] = [
    ("two-more-adds", |script, _| {
        script.add(unused(FAMILY, 0), SELL, 500);
        script.find(&[unused(FAMILY, 0)]);
        script.add(unused(FAMILY, 1), SELL, 501);
    }),
    ("an-add-of-the-last", |script, live| {
        script.add(last(live), SELL, 500);
    }),
    ("a-replace-of-the-first-by-the-last", |script, live| {
        replace_and_find(script, live[0], last(live));
    }),
    ("a-replace-of-the-first-by-itself", |script, live| {
        replace_and_find(script, live[0], live[0]);
    }),
    ("a-replace-of-the-first-by-an-unused-one", |script, live| {
        replace_and_find(script, live[0], unused(FAMILY, 0));
    }),
    ("a-replace-of-the-first-by-0", |script, live| {
        replace_and_find(script, live[0], 0);
    }),
];

pub fn scripts() -> Vec<Named> {
    let mut scripts = Vec::new();
    for (state, free) in STATES {
        for (name, attempt) in TRIES {
            scripts.push(named(&format!("{state}-and-{name}"), |script| {
                script.fill(&roomful(FAMILY));
                if let Some(place) = free {
                    script.delete(roomful(FAMILY)[place]);
                }
                script.find_all();
                let live = script.live();
                attempt(script, &live);
                go_on(script, &live);
            }));
        }
    }
    scripts
}

fn replace_and_find(script: &mut Script, old: u64, new: u64) {
    script.replace(old, new, 500);
    script.find(&[new]);
}

/// Two of the orders that were live are found, unless the symbol is stale. The first can be deleted
/// unless it was replaced, and is added again. After a clear all that were live come again.
fn go_on(script: &mut Script, live: &[u64]) {
    script.find(&[live[LIVE_ORDERS / 2], last(live)]);
    script.delete(live[0]);
    script.add(live[0], SELL, 7);
    script.clear();
    script.fill(live);
    script.find_all();
}

fn last(live: &[u64]) -> u64 {
    live[live.len() - 1]
}
