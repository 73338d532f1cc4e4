//! Values of fields, ordinary ones or those at the edge of what the field can hold.

use super::families::Pool;
use super::messages::{BUY, SELL};
use super::random::Random;
use crate::line::LAST_SECOND;
use crate::wire::message::NANOSECONDS_PER_SECOND;
use crate::wire::Market;

const EDGES: [u32; 8] = [
    0,
    1,
    2,
    0x7FFF_FFFF,
    0x8000_0000,
    0x8000_0001,
    u32::MAX - 1,
    u32::MAX,
];

/// Order numbers that differ in one half only.
const ORDER_EDGES: [u64; 8] = [
    0,
    1,
    1 << 32,
    1 << 63,
    (1 << 32) | 1,
    0xFFFF_FFFF,
    u64::MAX - 1,
    u64::MAX,
];

/// Conditions of other positions and other feeds, and bytes that look like them.
const NEAR: &[u8] = b"@CFO567TUZIVl1R49MQPW \0";

#[derive(Clone)]
pub struct Draw {
    pub random: Random,
    /// Whether fields are mostly at their edges.
    pub edges: bool,
    /// The market whose conditions are drawn.
    pub market: Market,
    /// The order numbers that are drawn, where they are to be of few families or of an exchange.
    pub pool: Option<Pool>,
}

impl Draw {
    /// Whether this value is to be one at the edge.
    fn at_edge(&mut self) -> bool {
        self.edges && !self.random.one_in(4)
    }

    pub fn side(&mut self) -> u8 {
        self.random.pick(&[BUY, SELL])
    }

    pub fn flag(&mut self) -> u8 {
        self.random.pick(&[0, 1, 1])
    }

    /// Few prices, so that orders meet at a level; at times the sides cross.
    pub fn price(&mut self, side: u8) -> u32 {
        if self.at_edge() {
            return self.random.pick(&EDGES);
        }
        let start = if side == BUY { 1_234_000 } else { 1_234_500 };
        start + self.random.u32_below(7) * 100
    }

    /// Never 0: round lots, odd lots, and one share.
    pub fn volume(&mut self) -> u32 {
        if self.at_edge() {
            return self.random.pick(&EDGES).max(1);
        }
        match self.random.below(4) {
            0 => (self.random.u32_below(9) + 1) * 100,
            1 => self.random.u32_below(99) + 1,
            2 => 1,
            _ => self.random.u32_below(5_000) + 1,
        }
    }

    /// The volume of a cross, which may be 0.
    pub fn cross_volume(&mut self) -> u32 {
        if self.random.one_in(5) {
            0
        } else {
            self.volume()
        }
    }

    /// One that may be live or used: low halves meet often.
    pub fn order(&mut self) -> u64 {
        if let Some(pool) = &self.pool {
            return pool.order(&mut self.random);
        }
        if self.at_edge() {
            return self.random.pick(&ORDER_EDGES);
        }
        let low = u64::from(self.random.u32_below(90));
        match self.random.below(4) {
            0 => low | (u64::from(self.random.u32_below(4)) << 32),
            1 => low << 32,
            _ => low,
        }
    }

    /// A trade or cross number.
    pub fn id(&mut self) -> u32 {
        if self.at_edge() {
            return self.random.pick(&EDGES);
        }
        let bound = self.random.pick(&[40, 1_000, 100_000]);
        self.random.u32_below(bound)
    }

    pub fn seconds(&mut self) -> u32 {
        if self.at_edge() {
            return self.random.pick(&EDGES);
        }
        1_747_000_000 + self.random.u32_below(LAST_SECOND + 1)
    }

    pub fn nanoseconds(&mut self) -> u32 {
        match self.random.below(6) {
            0 => 0,
            1 => NANOSECONDS_PER_SECOND - 1,
            2 => self.random.u32_below(1_000),
            _ => self.random.u32_below(NANOSECONDS_PER_SECOND),
        }
    }

    pub fn firm(&mut self) -> [u8; 5] {
        match self.random.below(4) {
            0 => *b"     ",
            1 => self.random.array(),
            _ => *b"FIRM1",
        }
    }

    /// Codes that the market lists, each position by itself.
    pub fn conditions(&mut self) -> [u8; 4] {
        std::array::from_fn(|position| self.code_of(self.market, position))
    }

    /// A code that the market does not list for that position, often one that another market lists.
    pub fn bad_code(&mut self, position: usize) -> u8 {
        loop {
            let market = self.random.pick(&Market::ALL);
            let other = self.code_of(market, position);
            let (any, near) = (self.random.byte(), self.random.pick(NEAR));
            let code = self.random.pick(&[any, near, other, other]);
            if !self.market.lists(position, code) {
                return code;
            }
        }
    }

    fn code_of(&mut self, market: Market, position: usize) -> u8 {
        let codes: Vec<u8> = market.codes(position).collect();
        self.random.pick(&codes)
    }

    /// A cross type or indicator.
    pub fn letter(&mut self) -> u8 {
        if self.random.one_in(3) {
            self.random.byte()
        } else {
            self.random.pick(b"EO56ABC ")
        }
    }
}
