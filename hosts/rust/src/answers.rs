//! What the calls hand back, in plain types.

/// The prices of a side that a depth shows.
pub const LEVELS: usize = 10;

/// What became of one message.
#[derive(Clone, Copy, Debug, PartialEq, Eq)]
pub struct Passed {
    /// Where the next message starts, counted from the bytes passed.
    pub at: usize,
    /// 0 to 10.
    pub answer: u8,
    /// With answer 4: where in its message the first bad field starts.
    pub offset: Option<usize>,
    /// Nothing more can be passed here: the bytes end, or the message's size is below 4.
    pub stops: bool,
}

/// Where a run ended.
#[derive(Clone, Copy, Debug, PartialEq, Eq)]
pub struct Ended {
    /// The first byte that was not passed. With answer 1 the bytes from there on open the next part
    /// of a file.
    pub at: usize,
    /// 1 at the end of the bytes, 2 at a message's size below 4.
    pub answer: u8,
}

/// The best price of a side, with the sum of the shares there.
#[derive(Clone, Copy, Debug, PartialEq, Eq)]
pub struct Level {
    pub price: u32,
    pub size: u64,
}

/// The quote of a symbol. Refused, it has neither side.
#[derive(Clone, Copy, Debug, PartialEq, Eq)]
pub struct Quote {
    /// 0, 5 or 8.
    pub answer: u8,
    pub bid: Option<Level>,
    pub ask: Option<Level>,
}

/// A price of a side, with the sum of the shares and the number of live orders there.
#[derive(Clone, Copy, Debug, PartialEq, Eq)]
pub struct LevelRow {
    pub price: u32,
    pub size: u64,
    pub orders: u32,
}

/// The best prices of each side of a symbol, best first; a row that is not needed is none, and none
/// stands before one that is. Refused, it has no row.
#[derive(Clone, Copy, Debug, PartialEq, Eq)]
pub struct Depth {
    /// 0, 5 or 8.
    pub answer: u8,
    pub bids: [Option<LevelRow>; LEVELS],
    pub asks: [Option<LevelRow>; LEVELS],
}

/// The day's volume of a symbol, also of a stale one.
#[derive(Clone, Copy, Debug, PartialEq, Eq)]
pub struct Volume {
    /// 0 or 5.
    pub answer: u8,
    /// The sum over the kept trades and the kept crosses.
    pub shares: u64,
    /// Whether these are all the trades and crosses of the day, as far as losses show.
    pub whole: bool,
}
