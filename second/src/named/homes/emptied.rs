//! Full books of one family that are emptied one order at a time, in several orders.

use super::{miss, named, roomful, Named, FAMILY, ROOM};
use crate::book::LIVE_ORDERS;
use crate::make::families::Family;
use crate::named::script::Script;

/// All orders that are left are found after one deletion in so many.
type Rate = usize;

/// After every fourth deletion: after each one, a file of 256 would be too long for the probe.
const OFTEN: Rate = 4;

pub fn scripts() -> Vec<Named> {
    let mut scripts: Vec<Named> = emptyings()
        .into_iter()
        .map(|(name, places, rate)| {
            named(&format!("a-full-family-emptied-{name}"), |script| {
                empty(script, &roomful(FAMILY), &places, rate);
            })
        })
        .collect();
    scripts.push(named("a-full-family-of-the-largest-sums", |script| {
        empty(script, &largest(), &scattered(), 8);
    }));
    scripts
}

/// In which order the places of a full book are emptied.
fn emptyings() -> [(&'static str, Vec<usize>, Rate); 5] {
    [
        ("from-the-first-on", (0..LIVE_ORDERS).collect(), OFTEN),
        ("from-the-last-on", (0..LIVE_ORDERS).rev().collect(), OFTEN),
        ("from-the-middle-outwards", from_the_middle(), OFTEN),
        ("every-second-first", every_second(), 8),
        ("here-and-there", scattered(), 8),
    ]
}

pub fn from_the_middle() -> Vec<usize> {
    let middle = LIVE_ORDERS / 2;
    (0..middle)
        .flat_map(|far| [middle + far, middle - 1 - far])
        .collect()
}

pub fn every_second() -> Vec<usize> {
    let odd = (1..LIVE_ORDERS).step_by(2);
    odd.chain((0..LIVE_ORDERS).step_by(2)).collect()
}

/// Each place once, and never two neighbours one after the other.
pub fn scattered() -> Vec<usize> {
    (0..LIVE_ORDERS)
        .map(|turn| turn * 157 % LIVE_ORDERS)
        .collect()
}

/// Members of a family, as many as a book has room for: one half is near the largest, and so is the
/// other; the sum has 33 bits.
fn largest() -> Vec<u64> {
    let least = u32::MAX - (ROOM - 1);
    let family = Family::of_sum(least.wrapping_add(u32::MAX));
    let below_the_largest = family.members(least..u32::MAX);
    [below_the_largest, vec![family.member(u32::MAX)]].concat()
}

/// Fills the book and empties it. Then its first order is gone, and the book can be filled again.
fn empty(script: &mut Script, orders: &[u64], places: &[usize], rate: Rate) {
    script.fill(orders);
    script.find_all();
    for (turn, place) in (1..).zip(places) {
        script.delete(orders[*place]);
        if turn % rate == 0 {
            script.find_all();
        }
    }
    miss(script, orders[0]);
    script.fill(&orders[1..]);
    script.find_all();
}

#[cfg(test)]
mod tests {
    use super::{emptyings, largest, LIVE_ORDERS};
    use crate::make::families::Family;

    #[test]
    fn every_place_is_emptied_once() {
        for (name, mut places, _) in emptyings() {
            places.sort_unstable();
            assert_eq!(places, (0..LIVE_ORDERS).collect::<Vec<_>>(), "{name}");
        }
    }

    #[test]
    fn the_middle_comes_first_and_the_ends_last() {
        let places = super::from_the_middle();
        assert_eq!(places[..4], [128, 127, 129, 126]);
        assert_eq!(places[LIVE_ORDERS - 2..], [255, 0]);
        assert_eq!(super::every_second()[..3], [1, 3, 5]);
        assert_eq!(super::scattered()[..4], [0, 157, 58, 215]);
    }

    #[test]
    fn the_largest_sums_fill_a_book() {
        let orders = largest();
        assert_eq!(orders.len(), LIVE_ORDERS);
        assert_eq!(orders[0], 0xFFFF_FF00_FFFF_FFFF);
        assert_eq!(orders[LIVE_ORDERS - 1], 0xFFFF_FFFF_FFFF_FF00);
        for order in orders {
            assert_eq!(Family::of_order(order), Family::of_sum(0xFFFF_FEFF));
        }
    }
}
