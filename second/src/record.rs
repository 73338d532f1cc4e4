//! The kept trades and crosses of one symbol: document 01, "The trade record", and request M-102.

/// A symbol keeps this many trades.
pub const KEPT_TRADES: usize = 128;
/// A symbol keeps this many crosses.
pub const KEPT_CROSSES: usize = 16;

#[derive(Clone, Copy, PartialEq, Eq, Debug)]
pub struct Trade {
    pub number: u32,
    pub price: u32,
    pub volume: u32,
}

/// Its number is a cross number: a trade may have the same.
#[derive(Clone, Copy, PartialEq, Eq, Debug)]
pub struct Cross {
    pub number: u32,
    pub volume: u32,
}

/// Trades, crosses, and the mark that none of the day is missing among them.
#[derive(Clone)]
pub struct Record {
    trades: Vec<Trade>,
    crosses: Vec<Cross>,
    whole: bool,
}

impl Record {
    pub fn new() -> Record {
        Record {
            trades: Vec::new(),
            crosses: Vec::new(),
            whole: true,
        }
    }

    /// Keeps a printable trade. One too many, or one whose number is kept, costs the mark instead.
    pub fn keep(&mut self, trade: Trade) {
        if self.trades.len() >= KEPT_TRADES || self.find(trade.number).is_some() {
            self.whole = false;
            return;
        }
        self.trades.push(trade);
    }

    /// Takes a trade away. One that is not kept costs the mark instead.
    pub fn cancel(&mut self, number: u32) {
        match self.find(number) {
            Some(place) => {
                self.trades.swap_remove(place);
            }
            None => self.whole = false,
        }
    }

    /// Keeps a cross, of no shares too. One too many, or one whose number is kept, costs the mark
    /// instead.
    pub fn keep_cross(&mut self, cross: Cross) {
        let is_kept = self.crosses.iter().any(|kept| kept.number == cross.number);
        if self.crosses.len() >= KEPT_CROSSES || is_kept {
            self.whole = false;
            return;
        }
        self.crosses.push(cross);
    }

    /// Gives a cross another volume; it stays kept when that is 0. One that is not kept costs the
    /// mark instead.
    pub fn correct(&mut self, number: u32, volume: u32) {
        let mut crosses = self.crosses.iter_mut();
        match crosses.find(|kept| kept.number == number) {
            Some(kept) => kept.volume = volume,
            None => self.whole = false,
        }
    }

    pub fn lose_mark(&mut self) {
        self.whole = false;
    }

    pub fn is_whole(&self) -> bool {
        self.whole
    }

    /// The day's volume: that of the trades and that of the crosses.
    pub fn volume(&self) -> u64 {
        let trades = self.trades.iter().map(|trade| trade.volume);
        let crosses = self.crosses.iter().map(|cross| cross.volume);
        trades.chain(crosses).map(u64::from).sum()
    }

    /// The kept trades, in no order that matters.
    pub fn trades(&self) -> &[Trade] {
        &self.trades
    }

    /// The kept crosses, in no order that matters.
    pub fn crosses(&self) -> &[Cross] {
        &self.crosses
    }

    fn find(&self, number: u32) -> Option<usize> {
        self.trades.iter().position(|trade| trade.number == number)
    }
}
