//! The ordinary reader answers as second's reader does, message by message, on feeds of every kind.

mod common;

use std::collections::hash_map::RandomState;
use std::collections::{BTreeMap, BTreeSet};
use std::hash::{BuildHasher, BuildHasherDefault};

use bench::feed::{feed, REGISTERED};
use bench::ordinary::{number, Answer, Level, Multiplying, Quote, Reader, Refused};
use bench::LIVE_DEPTHS;
use common::crosses::{Kept, Met, MET};
use common::new_second;
use common::records::record_feed;
use second::answer::Refusal;
use second::make::feeds::{feed as made_feed, FEED_KINDS};

/// Those of the symbols of second's feeds that are registered, and one that is not.
const MADE: [u32; 4] = [7, 8, u32::MAX, 0x0700_0000];
const OTHER: u32 = 0;

/// What feeds were worth.
#[derive(Default)]
struct Seen {
    /// The numbers that were answered.
    answers: BTreeSet<u8>,
    /// How often a cross or a correction met what, and whether the record had its mark until then.
    crosses: BTreeMap<(Met, bool), usize>,
}

impl Seen {
    /// Each of these came so often where the record had its mark, or had it no more.
    fn assert_met(&self, all: &[Met], whole: bool, least: usize) {
        for met in all {
            let count = self.crosses.get(&(*met, whole)).copied().unwrap_or(0);
            assert!(count >= least, "{met:?}, whole {whole}: {count} times");
        }
    }
}

/// Steps through a feed with both readers and collects what they meet.
fn compare<S: BuildHasher + Default>(indices: &[u32], bytes: &[u8], seen: &mut Seen) {
    let mut ordinary = Reader::<S>::new(indices);
    let mut second = new_second(indices);
    let mut kept = Kept::default();
    let mut whole: BTreeSet<u32> = indices.iter().copied().collect();
    let mut at = 0;
    loop {
        let (next, answer) = second.step(bytes, at);
        let expected = answer.as_ref().err().map_or(0, |refusal| refusal.number());
        seen.answers.insert(expected);
        if let Ok(message) = answer {
            if let Some(met) = kept.met_by(&message) {
                let was_whole = whole.contains(&message.index);
                *seen.crosses.entry((met, was_whole)).or_default() += 1;
            }
        }
        whole.retain(|index| second.volume(*index).is_ok_and(|(_, is_whole)| is_whole));
        if next == at {
            let (stop, refused) = ordinary.run(&bytes[at..]);
            assert_eq!((stop, refused as u8), (0, expected), "the end, at {at}");
            return;
        }
        assert_eq!(
            number(&ordinary.apply(&bytes[at..next])),
            expected,
            "at {at}"
        );
        for index in indices.iter().chain([&OTHER]) {
            assert_eq!(
                said(ordinary.quote(*index).map(levels)),
                said_by_second(second.quote(*index).map(second_levels)),
                "the quote of {index} after {at}"
            );
            assert_eq!(
                said(ordinary.volume(*index)),
                said_by_second(second.volume(*index)),
                "the volume of {index} after {at}"
            );
        }
        at = next;
    }
}

type Levels = [Option<(u32, u64)>; 2];

fn levels(quote: Quote) -> Levels {
    let level = |Level { price, size }| (price, size);
    [quote.bid.map(level), quote.ask.map(level)]
}

fn second_levels(quote: second::book::Quote) -> Levels {
    let level = |level: second::book::Level| (level.price, level.size);
    [quote.bid.map(level), quote.ask.map(level)]
}

fn said<T>(answer: Answer<T>) -> Result<T, u8> {
    answer.map_err(|refused| refused as u8)
}

fn said_by_second<T>(answer: Result<T, Refusal>) -> Result<T, u8> {
    answer.map_err(Refusal::number)
}

fn compare_made<S: BuildHasher + Default>() {
    let mut seen = Seen::default();
    for (_, kind) in FEED_KINDS {
        for seed in 1..=20 {
            compare::<S>(&MADE, &made_feed(seed, kind, 1_000), &mut seen);
        }
    }
    assert_eq!(seen.answers, (0..=Refused::Full as u8).collect());
    seen.assert_met(&MET, false, 150);
    // a 16th cross is soon followed by a 17th, so that the rest is left to `compare_records`
    let with_mark = [
        Met::New,
        Met::TooMany,
        Met::Repeated,
        Met::Corrected,
        Met::CorrectedNone,
    ];
    seen.assert_met(&with_mark, true, 20);
}

/// Whatever a cross or a correction can meet, with the mark and without.
fn compare_records<S: BuildHasher + Default>() {
    let mut seen = Seen::default();
    for seed in 1..=400 {
        compare::<S>(&MADE, &record_feed(seed, MADE[0]), &mut seen);
    }
    seen.assert_met(&MET, true, 10);
    seen.assert_met(&MET, false, 30);
}

#[test]
fn on_feeds_of_every_kind() {
    compare_made::<RandomState>();
}

#[test]
fn on_feeds_of_every_kind_with_the_multiplying_hasher() {
    compare_made::<BuildHasherDefault<Multiplying>>();
}

#[test]
fn on_records_of_few_numbers() {
    compare_records::<RandomState>();
}

#[test]
fn on_records_of_few_numbers_with_the_multiplying_hasher() {
    compare_records::<BuildHasherDefault<Multiplying>>();
}

#[test]
fn on_the_timed_feeds() {
    for depth in LIVE_DEPTHS {
        let bytes = feed(2, depth, &REGISTERED, 50_000);
        compare::<RandomState>(&REGISTERED, &bytes, &mut Seen::default());
    }
}

/// A run is its steps.
#[test]
fn in_one_run() {
    for (name, kind) in FEED_KINDS {
        let bytes = made_feed(21, kind, 5_000);
        let mut ordinary = Reader::<RandomState>::new(&MADE);
        let mut second = new_second(&MADE);
        let (at, refused) = ordinary.run(&bytes);
        let (second_at, refusal) = second.run(&bytes, 0);
        assert_eq!(
            (at, refused as u8),
            (second_at, refusal.number()),
            "the end of {name}"
        );
        for index in MADE {
            assert_eq!(
                said(ordinary.quote(index).map(levels)),
                said_by_second(second.quote(index).map(second_levels)),
                "{name}"
            );
            assert_eq!(
                said(ordinary.volume(index)),
                said_by_second(second.volume(index)),
                "{name}"
            );
        }
    }
}
