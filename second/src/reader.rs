//! The state of all symbols and the calls on it: document 01, "Numbers answered".

use crate::answer::Refusal;
use crate::book::Quote;
use crate::depth::Depth;
use crate::symbol::Symbol;
use crate::wire::{read, Market, Message};

/// A reader has room for this many symbols.
pub(crate) const SYMBOLS: usize = 8;
/// The largest price scale.
const LARGEST_SCALE: u8 = 6;
/// The longest name.
const LONGEST_NAME: usize = 11;

#[derive(Clone)]
pub struct Reader {
    market: Market,
    symbols: Vec<Symbol>,
}

impl Reader {
    /// A new state. It stays its market's: request M-107.
    pub fn new(market: Market) -> Reader {
        Reader {
            market,
            symbols: Vec::new(),
        }
    }

    pub fn market(&self) -> Market {
        self.market
    }

    /// The checks: scale and name (13), index (11), places (12).
    pub fn register(&mut self, index: u32, scale: u8, name: &[u8]) -> Result<(), Refusal> {
        if scale > LARGEST_SCALE || !is_name(name) {
            return Err(Refusal::Name);
        }
        if self.symbol(index).is_some() {
            return Err(Refusal::Taken);
        }
        if self.symbols.len() >= SYMBOLS {
            return Err(Refusal::NinthSymbol);
        }
        self.symbols.push(Symbol::new(index, scale, name));
        Ok(())
    }

    pub(crate) fn symbol(&self, index: u32) -> Option<&Symbol> {
        self.symbols.iter().find(|symbol| symbol.index == index)
    }

    #[cfg(test)]
    pub(crate) fn symbols(&self) -> &[Symbol] {
        &self.symbols
    }

    /// Applies the message at `at`, and hands back the position of the next one with the message
    /// that was done.
    pub fn step(&mut self, stream: &[u8], at: usize) -> (usize, Result<Message, Refusal>) {
        let (next, message) = read(self.market, stream, at);
        let done = message.and_then(|message| self.apply(&message).map(|()| message));
        (next, done)
    }

    /// Applies messages until none has its extent at the position, and hands back that position
    /// with the answer there, 1 or 2.
    pub fn run(&mut self, stream: &[u8], start: usize) -> (usize, Refusal) {
        let mut at = start;
        loop {
            match self.step(stream, at) {
                (next, Err(refusal)) if next == at => return (at, refusal),
                (next, _) => at = next,
            }
        }
    }

    /// The quote of a symbol; refused with 5, then with 8.
    pub fn quote(&self, index: u32) -> Result<Quote, Refusal> {
        Ok(self.shown(index)?.book.quote())
    }

    /// The ten best levels of each side of a symbol; refused as a quote is.
    pub fn depth(&self, index: u32) -> Result<Depth, Refusal> {
        Ok(Depth::of(self.shown(index)?.book.orders()))
    }

    /// A symbol whose book may be shown.
    fn shown(&self, index: u32) -> Result<&Symbol, Refusal> {
        let symbol = self.symbol(index).ok_or(Refusal::Symbol)?;
        if symbol.is_stale() {
            return Err(Refusal::Stale);
        }
        Ok(symbol)
    }

    /// The day's volume and whether the record is whole, also of a stale symbol.
    pub fn volume(&self, index: u32) -> Result<(u64, bool), Refusal> {
        let symbol = self.symbol(index).ok_or(Refusal::Symbol)?;
        Ok((symbol.record.volume(), symbol.record.is_whole()))
    }

    /// Applies a message that was read, or that a maker of feeds knows to be good.
    pub(crate) fn apply(&mut self, message: &Message) -> Result<(), Refusal> {
        self.symbols
            .iter_mut()
            .find(|symbol| symbol.index == message.index)
            .ok_or(Refusal::Symbol)?
            .apply(message)
    }
}

fn is_name(name: &[u8]) -> bool {
    (1..=LONGEST_NAME).contains(&name.len())
        && name
            .iter()
            .all(|&byte| (0x21..=0x7E).contains(&byte) && byte != b',')
}
