//! Two families in one book: their orders stand in each other's way.

use super::emptied::{every_second, from_the_middle, scattered};
use super::{miss, named, Named, FAMILY, NEXT_FAMILY, ROOM};
use crate::book::LIVE_ORDERS;
use crate::make::families::Family;
use crate::make::messages::{BUY, SELL};
use crate::named::script::Script;

/// Sums that lie close or as far apart as a symbol has places, and two more whose homes are neighbours
/// and the same where homes are spread by the golden ratio.
const OTHERS: [(&str, Family); 5] = [
    ("next-sums", NEXT_FAMILY),
    ("sums-89-apart", Family::of_sum(1_089)),
    ("sums-255-apart", Family::of_sum(1_255)),
    ("sums-256-apart", Family::of_sum(1_256)),
    ("sums-377-apart", Family::of_sum(1_377)),
];

/// An eighth of a full book: when so many went, those that are left are found.
const EIGHTH: usize = LIVE_ORDERS / 8;

pub fn scripts() -> Vec<Named> {
    OTHERS
        .into_iter()
        .map(|(sums, other)| {
            named(&format!("two-families-of-{sums}"), |script| {
                fill_and_empty(script, &by_turns(FAMILY, other));
            })
        })
        .chain([
            named("a-family-with-and-without-a-carry", |script| {
                fill_and_empty(script, &across_the_carry());
            }),
            named("two-families-one-after-the-other", one_after_the_other),
            named("every-home-in-turn", every_home),
        ])
        .chain(replaced_by_a_live_one())
        .collect()
}

/// The members of two families by turns, as many as a book has room for.
fn by_turns(one: Family, other: Family) -> Vec<u64> {
    (1..=ROOM / 2)
        .flat_map(|high| [one.member(high), other.member(high)])
        .collect()
}

/// Members of one family whose sums have 32 bits and 33 by turns: one home where the carry is lost.
fn across_the_carry() -> Vec<u64> {
    (1..=ROOM / 2)
        .flat_map(|high| [FAMILY.member(high), FAMILY.member(2_000 + high)])
        .collect()
}

/// The book is filled three times, each time in another order, and emptied in yet others.
fn fill_and_empty(script: &mut Script, orders: &[u64]) {
    let at = |places: Vec<usize>| places.into_iter().map(|place| orders[place]);
    let fillings = [
        orders.to_vec(),
        at(every_second()).collect(),
        at(scattered()).collect(),
    ];
    let emptyings = [
        at(every_second()).collect::<Vec<_>>(),
        at(scattered()).collect(),
        at(from_the_middle()).collect(),
    ];
    for (filling, emptying) in fillings.iter().zip(&emptyings) {
        script.fill(filling);
        for (turn, order) in (1..).zip(emptying) {
            script.delete(*order);
            if turn % EIGHTH == 0 {
                script.find_all();
            }
        }
    }
    script.fill(orders);
    script.add(orders[LIVE_ORDERS - 1], BUY, 500);
    script.clear();
    script.fill(&orders[..2]);
}

/// One family goes and the other comes, until the book has changed hands; then back.
fn one_after_the_other(script: &mut Script) {
    let [one, other] = [FAMILY, NEXT_FAMILY].map(super::roomful);
    script.fill(&one);
    for (leaving, coming) in [(&one, &other), (&other, &one)] {
        for (old, new) in leaving.chunks(EIGHTH).zip(coming.chunks(EIGHTH)) {
            script.empty(old);
            script.fill(new);
            script.find_all();
        }
    }
    miss(script, other[0]);
}

/// Four members of each of twice as many families as a symbol has places. So many sums that follow
/// each other reach every place where homes are spread: also the last one, and a search from it goes
/// on at the first.
fn every_home(script: &mut Script) {
    for sum in 2_000..2_000 + 2 * ROOM {
        let members = Family::of_sum(sum).members(1..5);
        script.fill(&members);
        script.delete(members[1]);
        script.find_all();
        script.add(members[1], SELL, 50);
        script.delete(members[0]);
        script.find_all();
        script.empty(&[members[3], members[1], members[2]]);
    }
    miss(script, Family::of_sum(2_000).member(1));
}

/// The first order is of one family, the last of the other. The new number of a replace is looked
/// for from its own home, and found.
fn replaced_by_a_live_one() -> Vec<Named> {
    let mut scripts = Vec::new();
    for (sums, other) in &OTHERS[..2] {
        let orders = by_turns(FAMILY, *other);
        let [first, last] = [orders[0], orders[LIVE_ORDERS - 1]];
        let middle = &orders[LIVE_ORDERS / 2..][..1];
        for (book, leaving) in [("full", &[][..]), ("less-one", middle)] {
            for (replace, old, new) in [
                ("the-first-by-the-last", first, last),
                ("the-last-by-the-first", last, first),
            ] {
                let name = format!("two-families-of-{sums}-{book}-and-a-replace-of-{replace}");
                scripts.push(named(&name, |script| {
                    script.fill(&orders);
                    script.empty(leaving);
                    script.find_all();
                    script.replace(old, new, 500);
                    script.clear();
                    script.fill(&orders);
                    script.find_all();
                }));
            }
        }
    }
    scripts
}
