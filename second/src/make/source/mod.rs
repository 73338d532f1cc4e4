//! A source of messages that a reader of all of them applies: it keeps a reader of its own, so that
//! modifies, deletes, executions and replaces meet live orders, and cancels and corrections what is
//! kept.

mod bodies;
mod crosses;

use super::draw::Draw;
use super::random::Random;
use crate::answer::Refusal;
use crate::book::{Order, Side, LIVE_ORDERS};
use crate::line::line_text;
use crate::reader::Reader;
use crate::record::Cross;
use crate::wire::{Body, Market, Message};

/// How many live orders books are to have.
pub const DEPTHS: [usize; 5] = [2, 8, 30, 120, LIVE_ORDERS];

#[derive(Clone)]
pub struct Source {
    pub draw: Draw,
    reader: Reader,
    indices: Vec<u32>,
    /// How many live orders a symbol is to have.
    depth: usize,
    /// One message in so many is a clear.
    pub clears: usize,
}

impl Source {
    /// A source of that market's messages, with no symbol yet.
    pub fn new(random: Random, market: Market) -> Source {
        Source {
            draw: Draw {
                random,
                edges: false,
                market,
                pool: None,
            },
            reader: Reader::new(market),
            indices: Vec::new(),
            depth: 8,
            clears: 150,
        }
    }

    /// One more symbol; the first has most of the messages.
    pub fn register(&mut self, index: u32, scale: u8, name: &[u8]) -> Result<(), Refusal> {
        self.reader.register(index, scale, name)?;
        self.indices.push(index);
        Ok(())
    }

    pub fn indices(&self) -> &[u32] {
        &self.indices
    }

    /// The numbers of the trades that are kept.
    pub fn kept(&self, index: u32) -> Vec<u32> {
        let symbol = self.reader.symbol(index);
        let trades = symbol.map_or(&[][..], |symbol| symbol.record.trades());
        trades.iter().map(|trade| trade.number).collect()
    }

    /// The numbers of the crosses that are kept.
    pub fn kept_crosses(&self, index: u32) -> Vec<u32> {
        let crosses = self.crosses(index).iter();
        crosses.map(|cross| cross.number).collect()
    }

    fn crosses(&self, index: u32) -> &[Cross] {
        let symbol = self.reader.symbol(index);
        symbol.map_or(&[], |symbol| symbol.record.crosses())
    }

    /// The next message of any symbol; it is applied here.
    pub fn next(&mut self) -> Message {
        let index = self.index();
        self.next_of(index)
    }

    /// The next message of a symbol; it is applied here. A book that is to be full is cleared less
    /// often until it is, or a clear would mostly come first.
    pub fn next_of(&mut self, index: u32) -> Message {
        let used_up = self.expected(index) > u64::from(u32::MAX);
        let filling = self.depth == LIVE_ORDERS && !self.is_deep(index);
        let clears = match (used_up, filling) {
            (true, _) => 5,
            (false, true) => 4 * self.clears,
            (false, false) => self.clears,
        };
        let message = if self.draw.random.one_in(clears) {
            self.clear_sample(index)
        } else {
            self.sample(index)
        };
        self.apply(message)
    }

    /// An add of a symbol in its turn; it is applied here.
    pub fn next_add(&mut self, index: u32) -> Message {
        let body = self.add_body(index);
        self.next_with(index, body)
    }

    /// A cross of a symbol in its turn, with a number that is not kept; it is applied here.
    pub fn next_cross(&mut self, index: u32) -> Message {
        let body = self.new_cross_body(index);
        self.next_with(index, body)
    }

    fn next_with(&mut self, index: u32, body: Body) -> Message {
        let number = self.number(index);
        let message = self.message(index, number, body);
        self.apply(message)
    }

    /// A clear of a symbol; it is applied here.
    pub fn clear(&mut self, index: u32) -> Message {
        let message = self.clear_sample(index);
        self.apply(message)
    }

    /// A numbered message made elsewhere; it is applied here if it fits.
    pub fn apply(&mut self, message: Message) -> Message {
        let _ = self.reader.apply(&message);
        message
    }

    pub fn index(&mut self) -> u32 {
        if self.draw.random.one_in(5) {
            self.draw.random.pick(&self.indices)
        } else {
            self.indices[0]
        }
    }

    pub fn live(&self, index: u32) -> &[Order] {
        let symbol = self.reader.symbol(index);
        symbol.map_or(&[], |symbol| symbol.book.orders())
    }

    pub fn expected(&self, index: u32) -> u64 {
        let symbol = self.reader.symbol(index);
        symbol.map_or(1, |symbol| symbol.expected())
    }

    /// The length of a message's line; 0 when it has none.
    pub fn line_length(&self, message: &Message, sequence: u32, second: u32) -> usize {
        line_text(&self.reader, message, sequence, second).map_or(0, |text| text.len())
    }

    /// Whether the book of a symbol is as deep as it is to be.
    pub fn is_deep(&self, index: u32) -> bool {
        self.live(index).len() >= self.depth
    }

    /// From now on books of about that many orders.
    pub fn aim_at(&mut self, depth: usize) {
        self.depth = depth;
    }

    /// A message that fits now, not applied. Past the last number it has one that was used.
    pub fn sample(&mut self, index: u32) -> Message {
        let number = self.number(index);
        let body = self.body(index);
        self.message(index, number, body)
    }

    /// A sample that is a 103 or a 110.
    pub fn trade_sample(&mut self, index: u32) -> Message {
        let number = self.number(index);
        let body = self.execute_or_trade(index);
        self.message(index, number, body)
    }

    fn number(&mut self, index: u32) -> u32 {
        u32::try_from(self.expected(index))
            .unwrap_or_else(|_| self.draw.random.pick(&[u32::MAX, 0, 1, 77]))
    }

    pub fn message(&mut self, index: u32, number: u32, body: Body) -> Message {
        Message {
            nanoseconds: self.draw.nanoseconds(),
            index,
            number,
            body,
        }
    }

    /// A clear, not applied. It gives the expected number, one near it, or one at an edge.
    pub fn clear_sample(&mut self, index: u32) -> Message {
        let expected = self.expected(index) as u32;
        let near = self.draw.random.u32_below(5);
        let next = if self.draw.edges {
            self.draw
                .random
                .pick(&[u32::MAX - near, u32::MAX - near, 0, 1, expected])
        } else {
            self.draw
                .random
                .pick(&[expected, expected, expected.saturating_add(near), 1, 0])
        };
        self.depth = self.draw.random.pick(&DEPTHS);
        let seconds = self.draw.seconds();
        self.message(index, next, Body::Clear { seconds })
    }
}

pub fn side_byte(side: Side) -> u8 {
    match side {
        Side::Buy => b'B',
        Side::Sell => b'S',
    }
}

#[cfg(test)]
mod tests {
    use super::{Random, Source};
    use crate::reader::Reader;
    use crate::wire::{Body, Market};
    use std::collections::HashSet;

    /// A reader of the same market applies all, and every code comes in a 103 and in a 110.
    #[test]
    fn a_source_draws_every_code_of_its_market() {
        for market in Market::ALL {
            let mut source = Source::new(Random::new(5, "codes"), market);
            let mut reader = Reader::new(market);
            assert_eq!(source.register(7, 4, b"ABC"), Ok(()));
            assert_eq!(reader.register(7, 4, b"ABC"), Ok(()));
            let mut drawn = HashSet::new();
            for _ in 0..2_000 {
                let message = source.next();
                assert_eq!(reader.apply(&message), Ok(()), "{message:?}");
                assert_eq!(message.check(market), Ok(()), "{message:?}");
                if let Body::Execute { conditions, .. } | Body::Trade { conditions, .. } =
                    message.body
                {
                    let codes = conditions.into_iter().enumerate();
                    drawn.extend(codes.map(|(position, code)| (message.kind(), position, code)));
                }
            }
            let listed: usize = (0..4).map(|position| market.codes(position).count()).sum();
            assert_eq!(drawn.len(), 2 * listed, "{market:?}");
        }
    }
}
