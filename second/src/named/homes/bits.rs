//! Numbers that differ in one high bit alone: a search must compare every bit.

use super::{named, Named, FAMILY, ROOM};
use crate::book::LIVE_ORDERS;
use crate::make::messages::BUY;
use crate::named::script::Script;

pub fn scripts() -> Vec<Named> {
    vec![
        named("numbers-that-differ-in-the-highest-bit", |script| {
            beside(script, 63);
        }),
        named("numbers-that-differ-in-one-high-bit", |script| {
            for bit in [40, 48, 56, 62] {
                script.clear();
                beside(script, bit);
            }
        }),
    ]
}

/// Members of a family, and numbers that differ from some of them in that bit. The bit moves the home
/// too: of the members there are twice as many, so that a search for the others goes past them.
fn beside(script: &mut Script, bit: u32) {
    let members = FAMILY.members(1..5 * ROOM / 8 + 1);
    let others: Vec<u64> = members.iter().map(|order| order ^ 1 << bit).collect();
    let (live, unused) = others.split_at(5 * LIVE_ORDERS / 16);
    script.fill(&[&members, live].concat());
    for other in unused {
        script.add(*other, BUY, 500);
        script.delete(*other);
    }
    for (member, other) in members.iter().zip(live) {
        script.delete(*member);
        script.find(&[*other]);
        script.add(*member, BUY, 600);
    }
    script.find_all();
}
