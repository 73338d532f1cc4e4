//! The field rules, and where each checked field stands: document 01, "Message layouts", and
//! request M-107 for the conditions.

use super::conditions::{Market, CONDITIONS};
use super::message::{Body, Message, NANOSECONDS_PER_SECOND};
use crate::answer::Refusal;

/// The offset of a field that is bad; none of one that is good.
type BadField = Option<usize>;

impl Message {
    /// Answers 4 to a field that is bad on this market. Of several the first is the one with the
    /// lowest offset, in whatever order the rules stand: request M-111.
    pub fn check(&self, market: Market) -> Result<(), Refusal> {
        let own = self.body.bad_fields(market).into_iter();
        let bad = own.chain([self.bad_nanoseconds()]).flatten();
        match bad.min() {
            Some(offset) => Err(Refusal::Field { offset }),
            None => Ok(()),
        }
    }

    /// In form S the seconds stand before the nanoseconds.
    fn bad_nanoseconds(&self) -> BadField {
        let offset = if self.body.seconds().is_some() { 8 } else { 4 };
        (self.nanoseconds >= NANOSECONDS_PER_SECOND).then_some(offset)
    }
}

impl Body {
    /// The fields of the table's last column that have a rule.
    fn bad_fields(&self, market: Market) -> [BadField; 3] {
        match *self {
            Body::Add { volume, side, .. } => [bad_volume(28, volume), bad_side(32, side), None],
            Body::Modify {
                volume,
                position,
                side,
                ..
            } => [
                bad_volume(28, volume),
                bad_flag(32, position),
                bad_side(33, side),
            ],
            Body::Execute {
                volume,
                printable,
                conditions,
                ..
            } => [
                bad_volume(32, volume),
                bad_flag(36, printable),
                bad_condition(38, &conditions, market),
            ],
            Body::Replace { volume, side, .. } => {
                [bad_volume(36, volume), bad_side(40, side), None]
            }
            Body::Trade {
                volume,
                printable,
                conditions,
                ..
            } => [
                bad_volume(24, volume),
                bad_flag(28, printable),
                bad_condition(29, &conditions, market),
            ],
            _ => [None; 3],
        }
    }
}

fn bad_volume(offset: usize, volume: u32) -> BadField {
    (volume == 0).then_some(offset)
}

/// A position or printable byte.
fn bad_flag(offset: usize, flag: u8) -> BadField {
    (flag > 1).then_some(offset)
}

fn bad_side(offset: usize, side: u8) -> BadField {
    (side != b'B' && side != b'S').then_some(offset)
}

/// The first bad one of the conditions that start at this offset.
fn bad_condition(offset: usize, conditions: &[u8; CONDITIONS], market: Market) -> BadField {
    market
        .unlisted(conditions)
        .map(|position| offset + position)
}
