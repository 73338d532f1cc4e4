//! The messages: most are done, and each answer that a run passes over comes.

use crate::answer::Refusal;
use crate::book::LIVE_ORDERS;
use crate::make::bad_draws::with_bad_conditions;
use crate::make::damage::{damaged, sent};
use crate::make::families::Pool;
use crate::make::noise::noise;
use crate::make::random::Random;
use crate::make::registers::{self, Asked};
use crate::make::source::Source;
use crate::make::strays::stray;
use crate::reader::{Reader, SYMBOLS};
use crate::record::{KEPT_CROSSES, KEPT_TRADES};
use crate::wire::write::to_bytes;
use crate::wire::{Body, Market, Message};

/// A book that lacks no more orders than these is filled and overfilled.
const NEARLY: usize = 16;

pub struct Maker {
    pub source: Source,
    /// What a reader of the messages so far holds.
    reader: Reader,
    pub symbols: Vec<Asked>,
    /// The adds of the books that are full at the start.
    pub full: Vec<Vec<u8>>,
    pub messages: Vec<Vec<u8>>,
}

impl Maker {
    /// Eight symbols. Their order numbers are of few families, as an exchange gives them, or low.
    pub fn new(random: Random) -> Maker {
        let mut maker = Maker {
            source: Source::new(random, Market::Nyse),
            reader: Reader::new(Market::Nyse),
            symbols: Vec::new(),
            full: Vec::new(),
            messages: Vec::new(),
        };
        while maker.symbols.len() < SYMBOLS {
            let asked = registers::good(maker.random());
            maker.register(asked);
        }
        let random = maker.random();
        maker.source.draw.pool = match random.below(3) {
            0 => Some(Pool::drawn(random)),
            1 => Some(Pool::of_an_exchange(random)),
            _ => None,
        };
        maker.source.clears = 50;
        maker
    }

    /// So many messages, at times behind those that fill some books. At times they begin with as many
    /// as fill a record, or nearly so, and at times with as many crosses as there are places for.
    pub fn make(&mut self, count: usize) {
        let books = self.random().pick(&[0, 1, 2, 2, SYMBOLS]);
        for place in 0..books {
            self.fill_book(self.source.indices()[place]);
        }
        if self.random().one_in(3) {
            self.fill_record(self.source.indices()[0]);
        }
        if self.random().one_in(3) {
            let place = self.random().pick(&[0, SYMBOLS - 1]);
            self.fill_crosses(self.source.indices()[place]);
        }
        while self.messages.len() < count {
            self.turn();
        }
        self.messages.truncate(count);
    }

    fn random(&mut self) -> &mut Random {
        &mut self.source.draw.random
    }

    fn register(&mut self, (index, scale, name): Asked) {
        if self.source.register(index, scale, &name).is_ok() {
            let _ = self.reader.register(index, scale, &name);
            self.symbols.push((index, scale, name));
        }
    }

    /// One more message, or a few.
    fn turn(&mut self) {
        self.source.draw.edges = self.random().one_in(4);
        let index = self.index();
        if self.is_stale(index) && self.random().one_in(2) {
            return self.clear(index);
        }
        match self.random().below(200) {
            0..=3 => self.lose(index),
            4..=8 => self.repeat(),
            9..=14 => {
                let message = stray(&mut self.source, index);
                self.send(&message);
            }
            15..=23 => self.leave(index),
            24..=43 => {
                let bytes = self.damaged(index);
                self.push(bytes);
            }
            44..=49 => self.overfill_book(),
            50..=53 => self.go_and_come(index),
            54..=78 => self.trade(index),
            79..=95 => self.auction(index),
            _ => {
                let message = self.source.next_of(index);
                self.send(&message);
            }
        }
    }

    /// Half of the messages are the first symbol's, so that its book and its record fill up.
    fn index(&mut self) -> u32 {
        if self.random().one_in(2) {
            return self.source.index();
        }
        let place = self.random().below(SYMBOLS);
        self.source.indices()[place]
    }

    fn is_stale(&self, index: u32) -> bool {
        self.reader.quote(index) == Err(Refusal::Stale)
    }

    fn push(&mut self, bytes: Vec<u8>) {
        self.reader.run(&bytes, 0);
        self.messages.push(bytes);
    }

    fn send(&mut self, message: &Message) {
        let bytes = sent(message, self.random());
        self.push(bytes);
    }

    /// The symbol's next message, with that body.
    fn message(&mut self, index: u32, body: Body) -> Message {
        Message {
            body,
            ..self.source.sample(index)
        }
    }

    /// The symbol's next message, with a body that fits.
    fn apply(&mut self, index: u32, body: Body) {
        let message = self.message(index, body);
        self.source.apply(message);
        self.send(&message);
    }

    fn clear(&mut self, index: u32) {
        let message = self.source.clear(index);
        self.send(&message);
    }

    /// The symbol's next message is not sent; a clear always is.
    fn lose(&mut self, index: u32) {
        let message = self.source.next_of(index);
        if let Body::Clear { .. } = message.body {
            self.send(&message);
        }
    }

    /// The last message comes again.
    fn repeat(&mut self) {
        if let Some(last) = self.messages.last().cloned() {
            self.push(last);
        }
    }

    /// A message that would fit, of a symbol that is not registered.
    fn leave(&mut self, index: u32) {
        let message = self.source.sample(index);
        let index = self.other_index();
        self.send(&Message { index, ..message });
    }

    fn other_index(&mut self) -> u32 {
        loop {
            let (index, ..) = registers::good(self.random());
            if !self.source.indices().contains(&index) {
                return index;
            }
        }
    }

    /// A message with a fault, behind which the next one is found. The source does not know of it.
    fn damaged(&mut self, index: u32) -> Vec<u8> {
        let message = self.source.sample(index);
        let trade = self.source.trade_sample(index);
        let draw = &mut self.source.draw;
        match draw.random.below(8) {
            0 => to_bytes(&with_bad_conditions(trade, draw)),
            1 => noise(draw),
            _ => damaged(&message, draw),
        }
    }

    /// An order goes, and another one comes under its number.
    fn go_and_come(&mut self, index: u32) {
        let Some(live) = self.source.live(index).last().copied() else {
            return;
        };
        let number = live.number;
        self.apply(index, Body::Delete { order: number });
        let mut body = self.source.add_body(index);
        if let Body::Add { order, .. } = &mut body {
            *order = number;
        }
        self.apply(index, body);
    }

    /// A printed trade or a cancel; at times the number of the trade is kept already or at an edge.
    fn trade(&mut self, index: u32) {
        if self.random().one_in(3) {
            let body = self.source.cancel_body(index);
            return self.apply(index, body);
        }
        let mut numbers = self.source.kept(index);
        if numbers.is_empty() || self.random().one_in(2) {
            numbers = vec![0, u32::MAX];
        }
        let mut body = self.source.printed_trade_body();
        if let Body::Trade { trade, .. } = &mut body {
            if self.random().one_in(2) {
                *trade = self.random().pick(&numbers);
            }
        }
        self.apply(index, body);
    }

    /// Printed trades until the record is full or nearly so, and some more trades and cancels.
    fn fill_record(&mut self, index: u32) {
        let free = self.random().below(3);
        for _ in self.source.kept(index).len()..KEPT_TRADES - free {
            let body = self.source.printed_trade_body();
            self.apply(index, body);
        }
        for _ in 0..5 {
            self.trade(index);
        }
    }

    /// A cross or a correction; at times the number of the cross is at an edge.
    fn auction(&mut self, index: u32) {
        let mut body = if self.random().one_in(2) {
            self.source.cross_body(index)
        } else {
            self.source.correction_body(index)
        };
        if let Body::Cross { cross, .. } | Body::Correction { cross, .. } = &mut body {
            if self.random().one_in(10) {
                *cross = self.random().pick(&[0, u32::MAX]);
            }
        }
        self.apply(index, body);
    }

    /// Crosses until all are kept or nearly so, and some more crosses and corrections.
    fn fill_crosses(&mut self, index: u32) {
        let free = self.random().below(3);
        for _ in self.source.kept_crosses(index).len()..KEPT_CROSSES - free {
            let body = self.source.new_cross_body(index);
            self.apply(index, body);
        }
        for _ in 0..5 {
            self.auction(index);
        }
    }

    /// As many adds as fill a new book. A list has hardly more messages: they are not among them.
    fn fill_book(&mut self, index: u32) {
        let adds = (0..LIVE_ORDERS).map(|_| self.source.next_add(index));
        let bytes: Vec<u8> = adds.flat_map(|message| to_bytes(&message)).collect();
        self.reader.run(&bytes, 0);
        self.full.push(bytes);
    }

    /// A symbol with a full book, or nearly so.
    fn nearly_full(&self) -> Option<u32> {
        let mut indices = self.source.indices().iter().copied();
        indices.find(|index| {
            let live = self.source.live(*index).len();
            live + NEARLY >= LIVE_ORDERS && !self.is_stale(*index)
        })
    }

    /// The last adds of a full book, a replace in it, and one add too many, which the source does not
    /// apply.
    fn overfill_book(&mut self) {
        let Some(index) = self.nearly_full() else {
            return;
        };
        for _ in self.source.live(index).len()..LIVE_ORDERS {
            let body = self.source.add_body(index);
            self.apply(index, body);
        }
        if let Some(live) = self.source.live(index).last().copied() {
            let new_order = self.source.unused_order(index);
            let replace = self.source.replace_body(live, new_order, live.price);
            self.apply(index, replace);
        }
        let body = self.source.add_body(index);
        let message = self.message(index, body);
        self.send(&message);
    }
}
