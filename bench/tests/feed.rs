//! What the made feed is worth.

mod common;

use std::collections::BTreeMap;

use bench::feed::{feed, occurrences, REGISTERED, TYPES};
use bench::ordinary::KEPT_CROSSES;
use bench::{LIVE_DEPTHS, SEED};
use common::crosses::{Kept, Met};
use common::new_second;

/// As many as are timed.
const COUNT: usize = 1_000_000;

/// How often a feed answers 0 and how often 5; nothing else comes.
fn answers(indices: &[u32], bytes: &[u8]) -> [usize; 2] {
    let mut reader = new_second(indices);
    let mut counts = [0; 2];
    let mut at = 0;
    while at < bytes.len() {
        let (next, answer) = reader.step(bytes, at);
        match answer.map_err(|refusal| refusal.number()) {
            Ok(_) => counts[0] += 1,
            Err(5) => counts[1] += 1,
            Err(other) => panic!("{other} at {at}"),
        }
        at = next;
    }
    counts
}

/// The feed of the runs and that of the programs.
#[test]
fn it_is_done_but_for_one_in_a_hundred() {
    for depth in LIVE_DEPTHS {
        for indices in [&REGISTERED[..], &REGISTERED[..1]] {
            let [done, unregistered] = answers(indices, &feed(SEED, depth, indices, COUNT));
            assert_eq!(done + unregistered, COUNT);
            assert!((COUNT / 120..COUNT / 80).contains(&unregistered));
        }
    }
}

#[test]
fn a_seed_gives_one_feed() {
    for depth in LIVE_DEPTHS {
        let bytes = feed(1, depth, &REGISTERED, 5_000);
        assert!(bytes == feed(1, depth, &REGISTERED, 5_000));
        assert!(bytes != feed(2, depth, &REGISTERED, 5_000));
        assert!(feed(1, depth, &REGISTERED, 10_000).starts_with(&bytes));
    }
}

#[test]
fn a_third_are_adds_and_every_type_occurs() {
    for depth in LIVE_DEPTHS {
        let counts = occurrences(&feed(SEED, depth, &REGISTERED, COUNT));
        assert_eq!(counts.iter().sum::<usize>(), COUNT);
        for ((kind, name), count) in TYPES.iter().zip(counts) {
            assert!(count > 0, "no {kind}, {name}");
        }
        let adds = counts[0] as f64 / COUNT as f64;
        assert!((0.31..0.36).contains(&adds), "{adds} are adds");
    }
}

/// How often the crosses and corrections of a feed meet what.
fn crosses_met(indices: &[u32], bytes: &[u8]) -> BTreeMap<Met, usize> {
    let mut reader = new_second(indices);
    let mut kept = Kept::default();
    let mut counts = BTreeMap::new();
    let mut at = 0;
    while at < bytes.len() {
        let (next, answer) = reader.step(bytes, at);
        if let Some(met) = answer.ok().and_then(|message| kept.met_by(&message)) {
            *counts.entry(met).or_default() += 1;
        }
        at = next;
    }
    counts
}

/// Eight crosses and four corrections in a thousand messages. Each symbol keeps its first 16 crosses
/// and no other, and nine corrections in ten are of these.
#[test]
fn corrections_are_mostly_of_kept_crosses() {
    for depth in LIVE_DEPTHS {
        for indices in [&REGISTERED[..], &REGISTERED[..1]] {
            let met = crosses_met(indices, &feed(SEED, depth, indices, COUNT));
            let count = |what| met.get(&what).copied().unwrap_or(0);
            assert_eq!(count(Met::New), KEPT_CROSSES * indices.len());
            assert_eq!(count(Met::Repeated) + count(Met::RepeatedWhenFull), 0);
            let crosses = count(Met::New) + count(Met::TooMany);
            let changes = count(Met::Corrected) + count(Met::CorrectedWhenFull);
            let corrections = changes + count(Met::CorrectedNone);
            let in_a_thousand = |count: usize| 1_000.0 * count as f64 / COUNT as f64;
            assert!((7.5..8.5).contains(&in_a_thousand(crosses)), "{crosses}");
            assert!(
                (3.6..4.4).contains(&in_a_thousand(corrections)),
                "{corrections}"
            );
            assert!(
                (0.88..0.92).contains(&(changes as f64 / corrections as f64)),
                "{changes}"
            );
        }
    }
}
