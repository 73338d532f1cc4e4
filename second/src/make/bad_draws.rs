//! Bad values drawn for the fields that have a rule.

use super::bad_fields::{spoiled, Bad};
use super::draw::Draw;
use super::random::Random;
use crate::wire::conditions::CONDITIONS;
use crate::wire::message::NANOSECONDS_PER_SECOND;
use crate::wire::Message;

/// Bad values in any of the fields that the type has rules for, so in several of them too;
/// in the nanoseconds at times, and where no other was drawn.
pub fn with_bad_fields(message: Message, draw: &mut Draw) -> Message {
    let own = [
        Bad::Volume,
        Bad::Flag(draw.random.pick(&[2, 3, 0x30, 0x31, 0x80, 0xFF])),
        Bad::Side(draw.random.pick(&[0, b'A', b'b', b's', b' ', 0xFF])),
    ];
    let mut drawn = some_of(own, &mut draw.random);
    if draw.random.one_in(2) {
        let conditions = bad_conditions(draw);
        drawn.extend(some_of(conditions, &mut draw.random));
    }
    let bad = spoiled(message, &drawn);
    if bad == message || draw.random.one_in(5) {
        spoiled(bad, &[Bad::Nanoseconds(bad_nanoseconds(&mut draw.random))])
    } else {
        bad
    }
}

/// One bad condition or more, and no other bad field. A type without conditions is left as it is.
pub fn with_bad_conditions(message: Message, draw: &mut Draw) -> Message {
    let conditions = bad_conditions(draw);
    let one = draw.random.pick(&conditions);
    let mut drawn = vec![one];
    if draw.random.one_in(3) {
        drawn.extend(some_of(conditions, &mut draw.random));
    }
    spoiled(message, &drawn)
}

fn bad_conditions(draw: &mut Draw) -> [Bad; CONDITIONS] {
    std::array::from_fn(|position| Bad::Condition(position, draw.bad_code(position)))
}

/// Each of the values or not.
fn some_of<const N: usize>(values: [Bad; N], random: &mut Random) -> Vec<Bad> {
    values.into_iter().filter(|_| random.one_in(2)).collect()
}

pub fn bad_nanoseconds(random: &mut Random) -> u32 {
    random.pick(&[
        NANOSECONDS_PER_SECOND,
        NANOSECONDS_PER_SECOND + 1,
        0x8000_0000,
        u32::MAX,
    ])
}

#[cfg(test)]
mod tests {
    use super::{with_bad_fields, NANOSECONDS_PER_SECOND};
    use crate::make::draw::Draw;
    use crate::make::messages::{execute, modify, trade, BUY};
    use crate::make::random::Random;
    use crate::wire::{Body, Market, Message};
    use std::collections::HashSet;

    /// Which fields of the messages are bad, the nanoseconds first.
    fn drawn(message: Message, market: Market, own: impl Fn(Body) -> Vec<bool>) -> usize {
        let mut draw = Draw {
            random: Random::new(1, "bad fields"),
            edges: false,
            market,
            pool: None,
        };
        let mut drawn = HashSet::new();
        for _ in 0..10_000 {
            let bad = with_bad_fields(message, &mut draw);
            let mut fields = own(bad.body);
            fields.push(bad.nanoseconds >= NANOSECONDS_PER_SECOND);
            assert!(fields.contains(&true), "no field is bad: {bad:?}");
            drawn.insert(fields);
        }
        drawn.len()
    }

    /// A 101 has four fields with a rule, so 15 sets of bad ones.
    #[test]
    fn every_set_of_bad_fields_is_drawn() {
        let sets = drawn(
            modify(1, 1, BUY, 1000, 10),
            Market::Nyse,
            |body| match body {
                Body::Modify {
                    volume,
                    position,
                    side,
                    ..
                } => vec![volume == 0, position > 1, side != BUY],
                _ => panic!("the type has changed: {body:?}"),
            },
        );
        assert_eq!(sets, 15);
    }

    /// A 103 and a 110 have three such fields and four conditions, so 127 sets.
    #[test]
    fn every_set_of_bad_conditions_is_drawn() {
        for market in Market::ALL {
            for message in [execute(1, 1, 1000, 10), trade(1, 1, 10, 1)] {
                let sets = drawn(message, market, |body| match body {
                    Body::Execute {
                        volume,
                        printable,
                        conditions,
                        ..
                    }
                    | Body::Trade {
                        volume,
                        printable,
                        conditions,
                        ..
                    } => {
                        let bad = |place: usize| !market.lists(place, conditions[place]);
                        let others = [volume == 0, printable > 1];
                        others.into_iter().chain((0..4).map(bad)).collect()
                    }
                    _ => panic!("the type has changed: {body:?}"),
                });
                assert_eq!(sets, 127, "{market:?}");
            }
        }
    }
}
