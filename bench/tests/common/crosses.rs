//! What crosses and corrections find in the record of their symbol, worked out from the messages
//! that second's reader has done.

use std::collections::{BTreeMap, BTreeSet};

use bench::ordinary::KEPT_CROSSES;
use second::wire::{Body, Message};

#[derive(Clone, Copy, PartialEq, Eq, PartialOrd, Ord, Debug)]
pub enum Met {
    /// A cross with a number of its own, and a place for it or none.
    New,
    TooMany,
    /// A cross whose number is kept, with places free and without.
    Repeated,
    RepeatedWhenFull,
    /// A correction of a cross that is kept, with places free and without, and of none.
    Corrected,
    CorrectedWhenFull,
    CorrectedNone,
}

pub const MET: [Met; 7] = [
    Met::New,
    Met::TooMany,
    Met::Repeated,
    Met::RepeatedWhenFull,
    Met::Corrected,
    Met::CorrectedWhenFull,
    Met::CorrectedNone,
];

/// The numbers of the crosses that each symbol keeps.
#[derive(Default)]
pub struct Kept {
    crosses: BTreeMap<u32, BTreeSet<u32>>,
}

impl Kept {
    /// What a message met, of those that were done.
    pub fn met_by(&mut self, message: &Message) -> Option<Met> {
        let kept = self.crosses.entry(message.index).or_default();
        let is_full = kept.len() == KEPT_CROSSES;
        match message.body {
            Body::Cross { cross, .. } => Some(match (kept.contains(&cross), is_full) {
                (true, true) => Met::RepeatedWhenFull,
                (true, false) => Met::Repeated,
                (false, true) => Met::TooMany,
                (false, false) => {
                    kept.insert(cross);
                    Met::New
                }
            }),
            Body::Correction { cross, .. } => Some(match (kept.contains(&cross), is_full) {
                (true, true) => Met::CorrectedWhenFull,
                (true, false) => Met::Corrected,
                (false, _) => Met::CorrectedNone,
            }),
            _ => None,
        }
    }
}
