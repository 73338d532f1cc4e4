//! Families of order numbers. Since request M-101 a search may begin at a home place that goes by
//! the sum of a number's two halves; then all members of a family have one home.

use std::ops::Range;

use super::random::Random;
use crate::book::LIVE_ORDERS;

/// The order numbers whose halves of 32 bits have this sum, where its carry is lost.
#[derive(Clone, Copy, PartialEq, Eq, Hash, Debug)]
pub struct Family {
    sum: u32,
}

impl Family {
    pub const fn of_sum(sum: u32) -> Family {
        Family { sum }
    }

    /// The family that an order number belongs to.
    #[cfg(test)]
    pub fn of_order(order: u64) -> Family {
        Family::of_sum(((order >> 32) as u32).wrapping_add(order as u32))
    }

    /// The member with that high half.
    pub fn member(self, high: u32) -> u64 {
        u64::from(high) << 32 | u64::from(self.sum.wrapping_sub(high))
    }

    /// The members with these high halves.
    pub fn members(self, highs: Range<u32>) -> Vec<u64> {
        highs.map(|high| self.member(high)).collect()
    }
}

/// Order numbers to draw from, mostly members of a few families. They are some more than a book has
/// room for, so that numbers come again.
#[derive(Clone, Debug)]
pub struct Pool {
    orders: Vec<u64>,
}

impl Pool {
    /// Two to four families, some with homes that are likely near each other. At times order 0 and
    /// the last one are there too.
    pub fn drawn(random: &mut Random) -> Pool {
        let families = 2 + random.below(3);
        let spare = random.pick(&[6, 16, 36]);
        let members = ((LIVE_ORDERS + spare) / families + 1) as u32;
        let (any, bit) = (1_000 + random.u32_below(1_000_000), high_bit(random));
        // The sum 0 is order 0's.
        let sum = random.pick(&[0, any, any, any]);
        let start = random.pick(&[0, 0, bit]);
        let mut orders = Vec::new();
        for apart in distances(families, random) {
            // Moved as far as the sum, the high halves leave the low ones as in the first family.
            let moved = start.wrapping_add(apart);
            let first = random.pick(&[start, moved, moved]);
            orders.extend(Family::of_sum(sum + apart).members(first..first + members));
        }
        if random.one_in(2) {
            orders.extend([0, u64::MAX]);
        }
        Pool { orders }
    }

    /// Numbers that follow each other, as an exchange gives them.
    pub fn of_an_exchange(random: &mut Random) -> Pool {
        let first = random.u64() >> random.pick(&[1, 16, 32, 56]);
        let count = 3 * LIVE_ORDERS as u64;
        Pool {
            orders: (first..first + count).collect(),
        }
    }

    pub fn order(&self, random: &mut Random) -> u64 {
        random.pick(&self.orders)
    }
}

/// How far the sums of so many families are from the first one's, no two the same. Sums that are 89,
/// 144 or 377 apart are close where homes are spread by the golden ratio.
fn distances(families: usize, random: &mut Random) -> Vec<u32> {
    let mut distances = vec![0];
    while distances.len() < families {
        let (far, bit) = (random.u32_below(1_000_000), high_bit(random));
        let apart = random.pick(&[1, 2, 89, 144, 255, 256, 377, 2_048, far, bit, bit, bit]);
        if !distances.contains(&apart) {
            distances.push(apart);
        }
    }
    distances
}

/// A high half that is one of the bits 40 to 63 of a number.
fn high_bit(random: &mut Random) -> u32 {
    1 << (8 + random.below(24))
}

#[cfg(test)]
mod tests {
    use super::{Family, Pool, Random};
    use crate::book::LIVE_ORDERS;
    use std::collections::HashSet;

    const LARGEST_HALF: u64 = u32::MAX as u64;

    #[test]
    fn the_halves_of_a_member_have_its_family_s_sum() {
        for (sum, highs) in [
            (0, 0..100),
            (1, 0..2),
            (1_000, 0..2_000),
            (u32::MAX, u32::MAX - 99..u32::MAX),
            (u32::MAX - 256, u32::MAX - 255..u32::MAX),
        ] {
            let members = Family::of_sum(sum).members(highs.clone());
            for (high, member) in highs.clone().zip(&members) {
                assert_eq!(member >> 32, u64::from(high), "{sum}");
                let carried = (member >> 32) + (member & LARGEST_HALF);
                assert_eq!(carried & LARGEST_HALF, u64::from(sum), "{high}");
                assert_eq!(Family::of_order(*member), Family::of_sum(sum), "{high}");
            }
            let different: HashSet<_> = members.iter().collect();
            assert_eq!(different.len(), highs.len(), "{sum}");
        }
    }

    #[test]
    fn members_by_hand() {
        assert_eq!(Family::of_sum(1).members(0..2), [1, 1 << 32]);
        let two = Family::of_sum(1_000).members(1..3);
        assert_eq!(two, [0x0000_0001_0000_03E7, 0x0000_0002_0000_03E6]);
        assert_eq!(Family::of_sum(0).members(0..2), [0, 0x0000_0001_FFFF_FFFF]);
        assert_eq!(Family::of_order(u64::MAX), Family::of_sum(0xFFFF_FFFE));
    }

    /// A pool and all that it has, by the seed.
    fn pools() -> impl Iterator<Item = (u64, HashSet<u64>)> {
        (0..100).map(|seed| {
            let mut random = Random::new(seed, "pool");
            let pool = Pool::drawn(&mut random);
            let drawn = (0..2_000).map(|_| pool.order(&mut random)).collect();
            (seed, drawn)
        })
    }

    #[test]
    fn a_pool_has_few_families_and_more_orders_than_a_book() {
        for (seed, mut orders) in pools() {
            assert!(orders.len() < 2 * LIVE_ORDERS, "{seed}");
            orders.retain(|order| ![0, u64::MAX].contains(order));
            assert!(orders.len() > LIVE_ORDERS, "{seed}");
            let families: HashSet<_> = orders.iter().map(|it| Family::of_order(*it)).collect();
            assert!((2..=4).contains(&families.len()), "{seed}");
        }
    }

    #[test]
    fn an_exchange_s_numbers_follow_each_other() {
        for seed in 0..100 {
            let orders = Pool::of_an_exchange(&mut Random::new(seed, "pool")).orders;
            assert!(orders.len() > LIVE_ORDERS, "{seed}");
            assert!(orders.windows(2).all(|two| two[1] == two[0] + 1), "{seed}");
        }
    }

    /// In many pools, though not in all, are order 0, the last one, a sum that carries, and numbers
    /// that differ from another one in a single bit from the 40th on.
    #[test]
    fn pools_reach_the_edges_of_a_number() {
        let carries = |it: &u64| (it >> 32) + (it & LARGEST_HALF) > LARGEST_HALF;
        let mut counts = [0; 4];
        for (_, orders) in pools() {
            let differs_high = |it: &u64| (40..64).any(|bit| orders.contains(&(it ^ 1 << bit)));
            let found = [
                orders.contains(&0),
                orders.contains(&u64::MAX),
                orders.iter().filter(|it| **it < u64::MAX).any(carries),
                orders.iter().any(differs_high),
            ];
            for (count, found) in counts.iter_mut().zip(found) {
                *count += usize::from(found);
            }
        }
        assert!(counts.iter().all(|it| (25..=80).contains(it)), "{counts:?}");
    }
}
