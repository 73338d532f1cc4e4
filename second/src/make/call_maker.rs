//! A list of calls in the making, with what the probe holds after it.

use super::bad_draws::{with_bad_conditions, with_bad_fields};
use super::call_list::CallList;
use super::damage::{damaged, derailed, sent};
use super::noise::noise;
use super::random::Random;
use super::registers;
use super::source::Source;
use super::strays::stray;
use crate::answer::Refusal;
use crate::reader::Reader;
use crate::wire::write::to_bytes;
use crate::wire::Market;

pub struct Maker {
    pub source: Source,
    /// What the probe holds after the calls so far.
    pub probe: Reader,
    pub list: CallList,
    /// Whether a new state is mostly one of any market; of NYSE otherwise.
    pub any_market: bool,
}

impl Maker {
    /// Starts as the probe does, in a new state of NYSE.
    pub fn new(random: Random) -> Maker {
        Maker {
            source: Source::new(random, Market::Nyse),
            probe: Reader::new(Market::Nyse),
            list: CallList::new(),
            any_market: false,
        }
    }

    pub fn random(&mut self) -> &mut Random {
        &mut self.source.draw.random
    }

    pub fn new_state(&mut self) {
        let market = if self.any_market && !self.random().one_in(6) {
            let market = self.random().pick(&Market::ALL);
            self.list.new_market(market);
            market
        } else {
            self.list.new_state();
            Market::Nyse
        };
        self.probe = Reader::new(market);
        self.source = Source::new(self.random().clone(), market);
    }

    pub fn register(&mut self, (index, scale, name): registers::Asked) {
        self.list.register(index, scale, &name);
        let _ = self.probe.register(index, scale, &name);
        let _ = self.source.register(index, scale, &name);
    }

    /// At times a clear of a symbol that is stale.
    pub fn clear_stale(&mut self) -> bool {
        let index = self.any_index();
        if self.probe.quote(index) != Err(Refusal::Stale) || !self.random().one_in(4) {
            return false;
        }
        let message = self.source.clear(index);
        self.step(&to_bytes(&message));
        true
    }

    /// An index that is registered, or at times one that is not.
    pub fn any_index(&mut self) -> u32 {
        if self.random().one_in(12) {
            self.random().pick(&[7, 0, 3, u32::MAX, 0x0001_0007])
        } else {
            self.source.index()
        }
    }

    /// The next message of the source, to be delivered.
    pub fn next_message(&mut self) -> Vec<u8> {
        let message = self.source.next();
        sent(&message, self.random())
    }

    /// A message that most likely is refused. The source does not know of it.
    pub fn faulty_message(&mut self) -> Vec<u8> {
        let index = self.source.index();
        if self.random().one_in(8) {
            let message = self.source.trade_sample(index);
            return to_bytes(&with_bad_conditions(message, &mut self.source.draw));
        }
        let message = match self.random().below(3) {
            0 => stray(&mut self.source, index),
            _ => self.source.sample(index),
        };
        let draw = &mut self.source.draw;
        match draw.random.below(6) {
            0 | 1 => damaged(&message, draw),
            2 => derailed(&message, &mut draw.random),
            3 => noise(draw),
            4 => to_bytes(&with_bad_fields(message, draw)),
            _ => to_bytes(&message),
        }
    }

    pub fn step(&mut self, bytes: &[u8]) {
        let (at, bytes) = self.placed(bytes);
        self.step_at(at, &bytes);
    }

    pub fn run(&mut self, bytes: &[u8]) {
        let (at, bytes) = self.placed(bytes);
        self.run_at(at, &bytes);
    }

    pub fn step_at(&mut self, at: usize, bytes: &[u8]) {
        let _ = self.probe.step(bytes, at);
        self.list.step(at, bytes);
    }

    pub fn run_at(&mut self, at: usize, bytes: &[u8]) {
        self.probe.run(bytes, at);
        self.list.run(at, bytes);
    }

    pub fn read(&mut self, bytes: &[u8]) {
        let (at, bytes) = self.placed(bytes);
        self.list.read(at, &bytes);
    }

    /// The bytes at some position with others around them; at times the position is past the end.
    fn placed(&mut self, bytes: &[u8]) -> (usize, Vec<u8>) {
        let random = self.random();
        let (before, after) = match random.below(6) {
            0 => (random.below(50), random.below(6)),
            1 => (random.below(4), 0),
            _ => (0, 0),
        };
        let mut placed = random.bytes(before);
        placed.extend(bytes);
        placed.extend(random.bytes(after));
        let past = placed.len() + random.below(5);
        match random.below(60) {
            0 => (past, placed),
            1 => (65_535, placed),
            _ => (before, placed),
        }
    }
}
