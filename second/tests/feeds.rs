//! What the made feeds are worth: request M-107 must not make them stale at their first trade.

use std::collections::HashSet;

use second::answer::Refusal;
use second::make::feeds::{feed, FeedKind};
use second::program::new_reader;
use second::wire::{Body, Message};

/// What a reader of the program's state answers to each message of a feed.
fn answers(bytes: &[u8]) -> Vec<Result<Message, Refusal>> {
    let mut reader = new_reader();
    let mut at = 0;
    let mut answers = Vec::new();
    loop {
        match reader.step(bytes, at) {
            (next, _) if next == at => return answers,
            (next, answer) => {
                answers.push(answer);
                at = next;
            }
        }
    }
}

/// A feed may begin with the 256 adds of a full book, and with 17 crosses.
#[test]
fn a_valid_feed_is_refused_for_other_symbols_alone() {
    for seed in 1..=40 {
        let answers = answers(&feed(seed, FeedKind::Valid, 150));
        assert!([150, 167, 406, 423].contains(&answers.len()), "{seed}");
        let refused = answers.iter().filter_map(|answer| answer.err());
        let others: Vec<_> = refused
            .filter(|refusal| *refusal != Refusal::Symbol)
            .collect();
        assert_eq!(others, [], "{seed}");
    }
}

/// Type, position and code of every applied condition: NYSE lists twelve codes.
#[test]
fn every_code_of_nyse_is_applied_in_short_valid_feeds() {
    let mut codes = HashSet::new();
    for seed in 1..=40 {
        for message in answers(&feed(seed, FeedKind::Valid, 150))
            .into_iter()
            .flatten()
        {
            if let Body::Execute { conditions, .. } | Body::Trade { conditions, .. } = message.body
            {
                for (position, code) in conditions.into_iter().enumerate() {
                    codes.insert((message.kind(), position, code));
                }
            }
        }
    }
    assert_eq!(codes.len(), 2 * 12);
}

/// Offsets that only a condition has: 29 to 31, 38, 39 and 41. Others begin at 32 and 40 too.
#[test]
fn damage_and_noise_reach_every_condition() {
    for kind in [FeedKind::Damaged, FeedKind::Noise] {
        let mut offsets = HashSet::new();
        for seed in 1..=40 {
            let answers = answers(&feed(seed, kind, 150));
            let refused = answers.into_iter().filter_map(Result::err);
            offsets.extend(refused.filter_map(|refusal| match refusal {
                Refusal::Field { offset } => Some(offset),
                _ => None,
            }));
        }
        for offset in [29, 30, 31, 38, 39, 41] {
            assert!(offsets.contains(&offset), "{kind:?} {offset}");
        }
    }
}
