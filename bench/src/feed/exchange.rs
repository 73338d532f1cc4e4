//! What the symbols of an exchange share: time, and the numbers of orders, trades and crosses, which
//! rise in small steps whatever symbol they go to. Random values come from here too.

use second::make::random::Random;

const NANOSECONDS_PER_SECOND: u64 = 1_000_000_000;
/// Half past nine of a day, in seconds since 1970.
const OPENING: u64 = 1_747_056_600;
/// A million messages take about a minute.
const LONGEST_WAIT: u64 = 120_000;

/// Prices of a side that orders stand at, a cent apart at four decimals.
const PRICES: u32 = 60;
pub const CENT: u32 = 100;

pub struct Exchange {
    pub random: Random,
    nanoseconds: u64,
    orders: u64,
    trades: u32,
    crosses: u32,
}

impl Exchange {
    pub fn new(seed: u64) -> Exchange {
        Exchange {
            random: Random::new(seed, "opening"),
            nanoseconds: 0,
            orders: 1_000_000,
            trades: 0,
            crosses: 0,
        }
    }

    /// Lets some time pass.
    pub fn wait(&mut self) {
        self.nanoseconds += self.random.u64() % LONGEST_WAIT;
    }

    pub fn seconds(&self) -> u32 {
        (OPENING + self.nanoseconds / NANOSECONDS_PER_SECOND) as u32
    }

    pub fn nanoseconds(&self) -> u32 {
        (self.nanoseconds % NANOSECONDS_PER_SECOND) as u32
    }

    /// The number of a new order. Numbers between go to orders that the feed does not show.
    pub fn order(&mut self) -> u64 {
        self.orders += 1 + self.random.u64() % 3;
        self.orders
    }

    pub fn trade(&mut self) -> u32 {
        self.trades += 1;
        self.trades
    }

    pub fn cross(&mut self) -> u32 {
        self.crosses += 1;
        self.crosses
    }

    pub fn side(&mut self) -> u8 {
        self.random.pick(b"BS")
    }

    /// Below the middle to buy, above it to sell: an order that waits does not cross another.
    pub fn price(&mut self, middle: u32, side: u8) -> u32 {
        let away = CENT * (1 + self.random.u32_below(PRICES));
        if side == b'B' {
            middle - away
        } else {
            middle + away
        }
    }

    /// Round lots, and at times an odd one.
    pub fn volume(&mut self) -> u32 {
        if self.random.one_in(10) {
            1 + self.random.u32_below(99)
        } else {
            100 * (1 + self.random.u32_below(10))
        }
    }

    /// One in ten is not printed.
    pub fn printable(&mut self) -> u8 {
        u8::from(!self.random.one_in(10))
    }

    /// Conditions that NYSE lists, regular ones most often.
    pub fn conditions(&mut self) -> [u8; 4] {
        self.random
            .pick(&[*b"@   ", *b"@   ", *b"@F  ", *b"@  I", *b"@F I", *b"@ T "])
    }
}
