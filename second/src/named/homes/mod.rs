//! Books of order numbers that have one home, or few: request M-101. A search that begins at the
//! home and goes round a symbol's places must find what any other search finds.

mod again;
mod bits;
mod brim;
mod emptied;
mod mingled;
mod numbers;
mod refilled;
mod replaced;

use super::script::Script;
use super::Cases;
use crate::book::LIVE_ORDERS;
use crate::make::families::Family;
use crate::make::messages::BUY;

/// A script and its name.
type Named = (String, Script);

/// The family of most cases, and the one of the next sum.
const FAMILY: Family = Family::of_sum(1_000);
const NEXT_FAMILY: Family = Family::of_sum(1_001);

/// The room of a book, as a count of messages or members.
const ROOM: u32 = LIVE_ORDERS as u32;

pub fn add_to(cases: &mut Cases) {
    for (name, script) in scripts() {
        cases.script(&name, &script);
    }
}

fn scripts() -> Vec<Named> {
    [
        emptied::scripts(),
        brim::scripts(),
        again::scripts(),
        mingled::scripts(),
        numbers::scripts(),
        bits::scripts(),
        refilled::scripts(),
        replaced::scripts(),
    ]
    .into_iter()
    .flatten()
    .collect()
}

fn named(name: &str, make: impl FnOnce(&mut Script)) -> Named {
    let mut script = Script::new();
    make(&mut script);
    (name.to_string(), script)
}

/// Shows that an order is not live: its deletion is refused. After a clear it can be added.
fn miss(script: &mut Script, order: u64) {
    script.delete(order);
    script.clear();
    script.add(order, BUY, 70);
    script.find_all();
}

/// As many members of a family as a book has room for.
fn roomful(family: Family) -> Vec<u64> {
    family.members(1..ROOM + 1)
}

/// A member of a family that is in none of its roomfuls, one for each count.
fn unused(family: Family, count: u32) -> u64 {
    family.member(ROOM + 1 + count)
}

#[cfg(test)]
mod tests {
    use super::{roomful, scripts, unused, FAMILY, LIVE_ORDERS, NEXT_FAMILY, ROOM};
    use crate::answer::number;
    use crate::make::families::Family;
    use crate::make::messages::ABC;
    use crate::named::script::Script;
    use crate::program::new_reader;
    use std::collections::HashSet;

    /// How many orders are to be live where the most are.
    fn meant(name: &str) -> usize {
        match name {
            "every-home-in-turn" => 4,
            "one-order-again-and-again-beside-two" => 3,
            "orders-at-the-edges-in-a-full-family" => LIVE_ORDERS,
            _ if name.starts_with("orders-at-the-edges") => 4,
            _ if name.ends_with("order-0-after-it-went") => 4,
            _ if name.ends_with("order-0-after-another-went") => 3,
            _ if name.ends_with("order-0-in-an-empty-book") => 1,
            _ if name.contains("-among-three-") => 3,
            _ if name.starts_with("numbers-that-differ-in") => 15 * LIVE_ORDERS / 16 + 1,
            _ if name.starts_with("a-family-less-one") => LIVE_ORDERS - 1,
            _ => LIVE_ORDERS,
        }
    }

    /// How often a symbol may get stale, and how many messages may find it stale: the others are to
    /// be done.
    fn refused(name: &str) -> (usize, usize) {
        match name {
            "a-stale-family-cleared-and-filled" => (3, 10),
            _ => (1, 6),
        }
    }

    /// What each message is answered, and how many orders are live after it.
    fn told(script: &Script) -> Vec<(u8, usize)> {
        let mut reader = new_reader();
        let apply = |message| {
            let answer = number(&reader.apply(&message));
            let abc = reader.symbol(ABC).expect("the program registers it");
            (answer, abc.book.orders().len())
        };
        script.messages().into_iter().map(apply).collect()
    }

    #[test]
    fn the_books_that_are_to_be_full_are_full() {
        for (name, script) in scripts() {
            let most = told(&script).into_iter().map(|(_, live)| live).max();
            assert_eq!(most, Some(meant(&name)), "{name}");
        }
    }

    #[test]
    fn messages_are_done_but_for_few() {
        for (name, script) in scripts() {
            let (getting_stale, stale) = refused(&name);
            let answers: Vec<u8> = told(&script)
                .into_iter()
                .map(|(answer, _)| answer)
                .collect();
            let count = |refusals: &[u8]| answers.iter().filter(|it| refusals.contains(it)).count();
            assert!(count(&[7, 9, 10]) <= getting_stale, "{name}");
            assert!(count(&[8]) <= stale, "{name}");
            assert_eq!(count(&[0, 7, 8, 9, 10]), answers.len(), "{name}");
        }
    }

    #[test]
    fn a_roomful_and_the_unused_are_of_one_family() {
        for family in [FAMILY, NEXT_FAMILY] {
            let mut orders = roomful(family);
            assert_eq!(orders.len(), LIVE_ORDERS);
            orders.extend((0..ROOM + 6).map(|count| unused(family, count)));
            let different: HashSet<_> = orders.iter().collect();
            assert_eq!(different.len(), orders.len());
            for order in orders {
                assert_eq!(Family::of_order(order), family);
            }
        }
    }
}
