//! Crosses of a source and their corrections: request M-102.

use super::Source;
use crate::record::Cross;
use crate::wire::Body;

impl Source {
    /// One in ten repeats the number of a cross that is kept, and often its volume.
    pub fn cross_body(&mut self, index: u32) -> Body {
        let kept = self.crosses(index).to_vec();
        if kept.is_empty() || !self.draw.random.one_in(10) {
            return self.new_cross_body(index);
        }
        let Cross { number, volume } = self.draw.random.pick(&kept);
        let other = self.draw.cross_volume();
        let volume = self.draw.random.pick(&[volume, other]);
        self.cross_of(number, volume)
    }

    /// Its number is not that of a cross that is kept. At times it is a kept trade's.
    pub fn new_cross_body(&mut self, index: u32) -> Body {
        let cross = self.unused_cross(index);
        let volume = self.draw.cross_volume();
        self.cross_of(cross, volume)
    }

    /// One in ten is of any number or of a kept trade's, the others of a cross that is kept; where none
    /// is, one comes.
    pub fn correction_body(&mut self, index: u32) -> Body {
        let kept = self.kept_crosses(index);
        let cross = if self.draw.random.one_in(10) {
            let trades = self.kept(index);
            self.any_or_kept(&trades)
        } else if kept.is_empty() {
            return self.new_cross_body(index);
        } else {
            self.draw.random.pick(&kept)
        };
        let volume = self.draw.cross_volume();
        Body::Correction { cross, volume }
    }

    /// Any number, or one of those that are kept in the other list.
    pub fn any_or_kept(&mut self, others: &[u32]) -> u32 {
        let id = self.draw.id();
        if others.is_empty() || self.draw.random.one_in(2) {
            return id;
        }
        self.draw.random.pick(others)
    }

    fn cross_of(&mut self, cross: u32, volume: u32) -> Body {
        Body::Cross {
            cross,
            price: self.draw.price(b'S'),
            volume,
            cross_type: self.draw.letter(),
        }
    }

    fn unused_cross(&mut self, index: u32) -> u32 {
        let (kept, trades) = (self.kept_crosses(index), self.kept(index));
        loop {
            let (id, any) = (self.draw.id(), self.draw.random.u32());
            let other = self.any_or_kept(&trades);
            let cross = self.draw.random.pick(&[id, id, any, other]);
            if !kept.contains(&cross) {
                return cross;
            }
        }
    }
}
