//! What lists of every kind are worth for crosses: how often they meet one that is kept, one that is
//! not, and a symbol that keeps 16.

use crate::make::calls::{calls, CallKind, CALL_KINDS};
use crate::probe::{probe, watch_deeds, Deed};
use crate::reader::Reader;
use crate::record::KEPT_CROSSES;
use crate::symbol::Symbol;
use crate::wire::{Body, Message};

/// As many lists as are compared, of as many calls or messages.
fn lists(kind: CallKind) -> impl Iterator<Item = Vec<u8>> {
    let count = if kind == CallKind::Twice { 300 } else { 200 };
    (1..=25).map(move |seed| calls(seed, kind, count))
}

/// What a message or a question meets.
#[derive(Clone, Copy, PartialEq, Eq, Debug)]
enum Met {
    /// A cross with a number of its own, and a place for it.
    New,
    /// A cross whose number is kept, with places free and without.
    Repeated,
    RepeatedWhenFull,
    /// A cross with a number of its own and no place.
    TooMany,
    /// A correction of a cross that is kept, with places free and without, and of none.
    Corrected,
    CorrectedWhenFull,
    CorrectedNone,
    /// A question for a volume with some crosses in it, and with 16.
    Asked,
    AskedWhenFull,
}

/// Whether the record has its mark, and what a deed meets.
fn met(reader: &Reader, deed: &Deed) -> Option<(bool, Met)> {
    let index = match deed {
        Deed::Apply(message) => message.index,
        Deed::Ask(index) => *index,
    };
    let symbol = reader.symbol(index)?;
    let met = match deed {
        Deed::Apply(message) => met_by(symbol, message)?,
        Deed::Ask(_) => match symbol.record.crosses().len() {
            0 => return None,
            KEPT_CROSSES => Met::AskedWhenFull,
            _ => Met::Asked,
        },
    };
    Some((symbol.record.is_whole(), met))
}

/// What a cross or a correction meets that is applied.
fn met_by(symbol: &Symbol, message: &Message) -> Option<Met> {
    if symbol.is_stale() || symbol.expected() != u64::from(message.number) {
        return None;
    }
    let kept = symbol.record.crosses();
    let is_full = kept.len() == KEPT_CROSSES;
    let is_kept = |number: u32| kept.iter().any(|cross| cross.number == number);
    match message.body {
        Body::Cross { cross, .. } => Some(match (is_kept(cross), is_full) {
            (false, false) => Met::New,
            (false, true) => Met::TooMany,
            (true, false) => Met::Repeated,
            (true, true) => Met::RepeatedWhenFull,
        }),
        Body::Correction { cross, .. } => Some(match (is_kept(cross), is_full) {
            (false, _) => Met::CorrectedNone,
            (true, false) => Met::Corrected,
            (true, true) => Met::CorrectedWhenFull,
        }),
        _ => None,
    }
}

/// All that the lists of a kind meet.
fn all_met(kind: CallKind) -> Vec<(bool, Met)> {
    let mut all = Vec::new();
    for list in lists(kind) {
        watch_deeds(&list, |reader, deed| all.extend(met(reader, &deed)));
    }
    all
}

/// How often one of these was met, and how often by a record with its mark.
fn counts(all: &[(bool, Met)], wanted: &[Met]) -> [usize; 2] {
    let found = all.iter().filter(|(_, met)| wanted.contains(met));
    [
        found.clone().count(),
        found.filter(|(whole, _)| *whole).count(),
    ]
}

fn assert_met(kind: CallKind, wanted: &[&[Met]], least: &[[usize; 2]]) {
    let all = all_met(kind);
    for (wanted, least) in wanted.iter().zip(least) {
        let counts = counts(&all, wanted);
        let enough = counts[0] >= least[0] && counts[1] >= least[1];
        assert!(enough, "{kind:?} {wanted:?}: {counts:?}");
    }
}

/// With the mark a wrong loss of it shows, and one that does not come. Lists of the kind `homes` have
/// few crosses.
#[test]
fn lists_of_every_kind_meet_crosses_that_are_kept_and_others() {
    for (_, kind) in CALL_KINDS {
        let least = if kind == CallKind::Homes {
            [[60, 20], [3, 1], [15, 5], [2, 1], [30, 5]]
        } else {
            [[300, 150], [10, 2], [60, 20], [15, 5], [300, 100]]
        };
        let met: [&[Met]; 5] = [
            &[Met::New],
            &[Met::Repeated, Met::RepeatedWhenFull],
            &[Met::Corrected, Met::CorrectedWhenFull],
            &[Met::CorrectedNone],
            &[Met::Asked, Met::AskedWhenFull],
        ];
        assert_met(kind, &met, &least);
    }
}

#[test]
fn lists_of_every_kind_but_homes_meet_16_crosses() {
    for (_, kind) in CALL_KINDS {
        if kind != CallKind::Homes {
            let met: [&[Met]; 4] = [
                &[Met::TooMany],
                &[Met::RepeatedWhenFull],
                &[Met::CorrectedWhenFull],
                &[Met::AskedWhenFull],
            ];
            assert_met(kind, &met, &[[30, 5], [3, 0], [25, 5], [80, 3]]);
        }
    }
}

/// Of the volumes that are not 0 at least a tenth have the mark, and a tenth lack it.
#[test]
fn volumes_of_every_kind_are_with_the_mark_and_without() {
    for (name, kind) in CALL_KINDS {
        let text: String = lists(kind).map(|list| probe(&list)).collect();
        let volumes = text.lines().filter_map(|line| line.strip_prefix("V,0,"));
        let volumes: Vec<&str> = volumes.filter(|volume| !volume.starts_with("0,")).collect();
        for whole in [",0", ",1"] {
            let having = volumes.iter().filter(|volume| volume.ends_with(whole));
            let percent = 100 * having.count() / volumes.len();
            assert!(
                percent >= 10,
                "{name}{whole}: {percent} of {}",
                volumes.len()
            );
        }
    }
}
