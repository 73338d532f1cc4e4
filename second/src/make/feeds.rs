//! Feeds of every kind, from a seed.

use super::bad_draws::with_bad_conditions;
use super::damage::{damaged, derailed, sent};
use super::ends;
use super::messages::ABC;
use super::noise::noise;
use super::random::Random;
use super::source::{Source, DEPTHS};
use super::strays::stray;
use crate::answer::Refusal;
use crate::book::LIVE_ORDERS;
use crate::program::new_reader;
use crate::reader::Reader;
use crate::record::KEPT_CROSSES;
use crate::wire::write::to_bytes;
use crate::wire::{Body, Market, Message};

#[derive(Clone, Copy, PartialEq, Eq, Debug)]
pub enum FeedKind {
    Valid,
    Lossy,
    Misfit,
    Damaged,
    Noise,
    Edges,
    Cut,
    Mixed,
}

/// The kinds by name.
pub const FEED_KINDS: [(&str, FeedKind); 8] = [
    ("valid", FeedKind::Valid),
    ("lossy", FeedKind::Lossy),
    ("misfit", FeedKind::Misfit),
    ("damaged", FeedKind::Damaged),
    ("noise", FeedKind::Noise),
    ("edges", FeedKind::Edges),
    ("cut", FeedKind::Cut),
    ("mixed", FeedKind::Mixed),
];

/// A feed of `count` messages of NYSE, the program's market. Only index 7 is registered where the
/// program reads it. One feed in five, of misfits two, begins with the adds of a full book, and one in
/// five with 17 crosses; these are not counted.
pub fn feed(seed: u64, kind: FeedKind, count: usize) -> Vec<u8> {
    let mut maker = Maker::new(Random::new(seed, &format!("feed {kind:?}")), kind);
    let mut now = kind;
    for _ in 0..count {
        if kind == FeedKind::Mixed && (now == kind || maker.random().one_in(25)) {
            now = maker.random().pick(&FEED_KINDS[..7]).1;
        }
        let bytes = maker.next(now);
        maker.push(&bytes);
    }
    if matches!(kind, FeedKind::Cut | FeedKind::Mixed) {
        ends::push_end(&mut maker.source.draw.random, &mut maker.bytes);
    }
    maker.bytes
}

struct Maker {
    source: Source,
    /// What the program holds after the bytes so far, as long as it finds the messages in them.
    program: Reader,
    bytes: Vec<u8>,
}

impl Maker {
    fn new(random: Random, kind: FeedKind) -> Maker {
        let mut source = Source::new(random, Market::Nyse);
        for index in [ABC, 8, 0, u32::MAX, 0x0700_0000] {
            let _ = source.register(index, 4, b"ABC");
        }
        // The first message that does not fit a full book is the last that finds it full.
        let depth = if kind == FeedKind::Misfit && source.draw.random.one_in(4) {
            LIVE_ORDERS
        } else {
            source.draw.random.pick(&DEPTHS)
        };
        source.aim_at(depth);
        let mut maker = Maker {
            source,
            program: new_reader(),
            bytes: Vec::new(),
        };
        if depth == LIVE_ORDERS {
            maker.fill();
        }
        if maker.random().one_in(5) {
            maker.fill_crosses();
        }
        maker
    }

    /// Adds until the book of ABC is full: in a short feed it would not get so far.
    fn fill(&mut self) {
        for _ in 0..LIVE_ORDERS {
            let message = self.source.next_add(ABC);
            let bytes = self.sent(message);
            self.push(&bytes);
        }
    }

    /// One cross more than ABC keeps: it is done too.
    fn fill_crosses(&mut self) {
        for _ in 0..=KEPT_CROSSES {
            let message = self.source.next_cross(ABC);
            let bytes = self.sent(message);
            self.push(&bytes);
        }
    }

    fn random(&mut self) -> &mut Random {
        &mut self.source.draw.random
    }

    fn push(&mut self, bytes: &[u8]) {
        self.program.run(bytes, 0);
        self.bytes.extend(bytes);
    }

    /// The bytes of one more message.
    fn next(&mut self, kind: FeedKind) -> Vec<u8> {
        self.source.draw.edges = kind == FeedKind::Edges;
        self.source.clears = if kind == FeedKind::Edges { 40 } else { 150 };
        if self.program.quote(ABC) == Err(Refusal::Stale) && self.random().one_in(9) {
            let message = self.source.clear(ABC);
            return self.sent(message);
        }
        let message = match kind {
            FeedKind::Damaged => return self.maybe_damaged(),
            FeedKind::Noise if !self.random().one_in(8) => return noise(&mut self.source.draw),
            FeedKind::Cut if self.random().one_in(8) => {
                return ends::filler(&mut self.source.draw.random, self.bytes.len())
            }
            FeedKind::Lossy => self.delivered(),
            FeedKind::Misfit => self.maybe_stray(8),
            FeedKind::Edges => self.maybe_stray(40),
            FeedKind::Valid | FeedKind::Noise | FeedKind::Cut | FeedKind::Mixed => {
                self.source.next()
            }
        };
        self.sent(message)
    }

    fn sent(&mut self, message: Message) -> Vec<u8> {
        sent(&message, self.random())
    }

    /// The next message that is not lost; a clear never is.
    fn delivered(&mut self) -> Message {
        let mut message = self.source.next();
        if self.random().one_in(25) {
            for _ in 0..=self.random().below(3) {
                if matches!(message.body, Body::Clear { .. }) {
                    break;
                }
                message = self.source.next();
            }
        }
        message
    }

    /// A message in its turn or a stray, one in so many once the book is as deep as it is to be. Before
    /// that strays are so rare that a book can get full.
    fn maybe_stray(&mut self, rate: usize) -> Message {
        let index = self.source.index();
        let rate = if self.source.is_deep(index) {
            rate
        } else {
            600
        };
        if self.random().one_in(rate) {
            stray(&mut self.source, index)
        } else {
            self.source.next_of(index)
        }
    }

    /// A 103 or 110 that the source applies and no reader of its market does.
    fn lost_for_its_conditions(&mut self) -> Vec<u8> {
        let index = self.source.index();
        let message = self.source.trade_sample(index);
        self.source.apply(message);
        to_bytes(&with_bad_conditions(message, &mut self.source.draw))
    }

    fn maybe_damaged(&mut self) -> Vec<u8> {
        if self.random().one_in(40) {
            return self.lost_for_its_conditions();
        }
        let message = self.source.next();
        let draw = &mut self.source.draw;
        match draw.random.below(600) {
            0 => derailed(&message, &mut draw.random),
            1..=50 => damaged(&message, draw),
            _ => sent(&message, &mut draw.random),
        }
    }
}

#[cfg(test)]
mod tests {
    use super::{feed, FeedKind, ABC, FEED_KINDS, KEPT_CROSSES, LIVE_ORDERS};
    use crate::answer::{number, Refusal};
    use crate::program::new_reader;
    use crate::symbol::Symbol;
    use crate::wire::message::TYPES;
    use crate::wire::{extent, Body, Message};

    type Answer = Result<Message, Refusal>;

    #[test]
    fn a_seed_gives_one_feed_and_every_type() {
        for (name, kind) in FEED_KINDS {
            let bytes = feed(1, kind, 2000);
            assert!(bytes == feed(1, kind, 2000), "{name} differs");
            assert!(bytes != feed(2, kind, 2000), "{name} does not differ");
            let mut types = Vec::new();
            let mut at = 0;
            while let Ok(size) = extent(&bytes, at) {
                types.push(u16::from_le_bytes([bytes[at + 2], bytes[at + 3]]));
                at += size;
            }
            if name != "damaged" && name != "mixed" {
                for kind in TYPES {
                    assert!(types.contains(&kind), "{name} has no {kind}");
                }
            }
        }
    }

    /// As many short feeds as are compared, of as many messages.
    fn short_feeds(kind: FeedKind) -> Vec<Vec<u8>> {
        let shorter = (1..=20).map(|seed| feed(seed, kind, 20));
        let longer = (21..=40).map(|seed| feed(seed, kind, 150));
        shorter.chain(longer).collect()
    }

    /// What is answered where ABC has the property.
    fn answers_when(bytes: &[u8], property: impl Fn(&Symbol) -> bool) -> Vec<Answer> {
        let mut program = new_reader();
        let mut answers = Vec::new();
        let mut at = 0;
        loop {
            let abc = program.symbol(ABC).expect("the program registers it");
            let is_told = property(abc);
            let (next, done) = program.step(bytes, at);
            if next == at {
                return answers;
            }
            if is_told {
                answers.push(done);
            }
            at = next;
        }
    }

    /// What is answered where the book of ABC is full.
    fn answers_when_full(bytes: &[u8]) -> Vec<u8> {
        let is_full = |abc: &Symbol| abc.book.orders().len() == LIVE_ORDERS;
        let answers = answers_when(bytes, is_full);
        answers.iter().map(number).collect()
    }

    /// Whether a cross of ABC is done where 16 are kept.
    fn crosses_past_16(bytes: &[u8]) -> bool {
        let is_full = |abc: &Symbol| abc.record.crosses().len() == KEPT_CROSSES;
        let answers = answers_when(bytes, is_full);
        answers
            .iter()
            .flatten()
            .any(|message| message.index == ABC && matches!(message.body, Body::Cross { .. }))
    }

    #[test]
    fn short_feeds_have_more_crosses_than_are_kept() {
        for kind in [FeedKind::Valid, FeedKind::Misfit, FeedKind::Mixed] {
            let feeds = short_feeds(kind);
            let count = feeds.iter().filter(|bytes| crosses_past_16(bytes)).count();
            assert!(count >= 3, "{kind:?}: {count}");
        }
    }

    /// Those of 20 messages too, which are fewer than fill a book.
    #[test]
    fn short_feeds_of_every_kind_meet_full_books() {
        for (name, kind) in FEED_KINDS {
            let feeds = short_feeds(kind);
            for (length, feeds) in [("shorter", &feeds[..20]), ("longer", &feeds[20..])] {
                let full = |bytes: &&Vec<u8>| answers_when_full(bytes).contains(&0);
                let count = feeds.iter().filter(full).count();
                assert!(count >= 2, "{name} {length}: {count}");
            }
        }
    }

    /// One add too many, and messages that do not fit.
    #[test]
    fn short_feeds_of_misfits_overfill_books() {
        let feeds = short_feeds(FeedKind::Misfit);
        let answers: Vec<u8> = feeds
            .iter()
            .flat_map(|bytes| answers_when_full(bytes))
            .collect();
        for answer in [9, 10] {
            let count = answers.iter().filter(|it| **it == answer).count();
            assert!(count >= 3, "{answer}: {count}");
        }
    }
}
