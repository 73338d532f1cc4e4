//! Lists of calls of every kind, from a seed.

use super::auctions;
use super::call_list::CallList;
use super::call_maker::Maker;
use super::fills;
use super::homes;
use super::outputs;
use super::random::Random;
use super::registers;
use super::twice;
use crate::probe::LARGEST_FILE;
use crate::reader::SYMBOLS;
use crate::wire::write::to_bytes;

#[derive(Clone, Copy, PartialEq, Eq, Debug)]
pub enum CallKind {
    Plain,
    Faults,
    Full,
    Edges,
    Mixed,
    Homes,
    Twice,
}

/// The kinds by name.
pub const CALL_KINDS: [(&str, CallKind); 7] = [
    ("plain", CallKind::Plain),
    ("faults", CallKind::Faults),
    ("full", CallKind::Full),
    ("edges", CallKind::Edges),
    ("mixed", CallKind::Mixed),
    ("homes", CallKind::Homes),
    ("twice", CallKind::Twice),
];

/// How many of the kinds, from the first on, a mixed list is mixed from.
const MIXED: usize = 4;

/// A file of `count` calls, of the kind `twice` of `count` messages, or of fewer where they would make
/// it too long for the probe.
pub fn calls(seed: u64, kind: CallKind, count: usize) -> Vec<u8> {
    list(seed, kind, count).into_bytes()
}

pub(super) fn list(seed: u64, kind: CallKind, count: usize) -> CallList {
    let random = Random::new(seed, &format!("calls {kind:?}"));
    if kind == CallKind::Twice {
        return twice::list(random, count);
    }
    let mut maker = Maker::new(random);
    let with_faults = matches!(kind, CallKind::Faults | CallKind::Mixed);
    maker.any_market = with_faults;
    if maker.any_market {
        maker.new_state();
    }
    begin(&mut maker, kind);
    let mut now = kind;
    while maker.list.count() < count && maker.list.len() < LARGEST_FILE {
        if kind == CallKind::Mixed && (now == kind || maker.random().one_in(20)) {
            now = maker.random().pick(&CALL_KINDS[..MIXED]).1;
        }
        push(&mut maker, now);
    }
    maker.list.keep(count, LARGEST_FILE);
    if with_faults && maker.random().one_in(3) {
        maker.list.keep(count.saturating_sub(1), LARGEST_FILE - 16);
        let last: [&[u8]; 6] = [
            b"Z",
            b"Q\x07\x00",
            b"W\x01\x00\x00\x00\x01\x01\x00\x00",
            b"X",
            b"M",
            b"M\x02",
        ];
        let last = maker.random().pick(&last);
        maker.list.raw(last);
    }
    maker.list
}

/// Registers some symbols, eight where books are to be full, and then tries a ninth. Books of few
/// families begin near full; of other states one in five begins with a full book, and one in five with
/// all of its crosses or nearly so.
fn begin(maker: &mut Maker, kind: CallKind) {
    let symbols = match kind {
        CallKind::Full => SYMBOLS,
        _ => maker.random().pick(&[1, 1, 2, 3, SYMBOLS]),
    };
    let mut tries = 0;
    while maker.source.indices().len() < symbols && tries < 60 {
        let asked = registers::good(maker.random());
        maker.register(asked);
        tries += 1;
    }
    if symbols == SYMBOLS {
        let ninth = registers::good(maker.random());
        maker.register(ninth);
    }
    match kind {
        CallKind::Homes => homes::begin(maker),
        CallKind::Full => {}
        _ if maker.random().one_in(5) => fills::begin(maker),
        _ => {}
    }
    if kind != CallKind::Homes && maker.random().one_in(5) {
        auctions::begin(maker);
    }
}

fn begin_again(maker: &mut Maker, kind: CallKind) {
    maker.new_state();
    begin(maker, kind);
}

/// One more call, or a few.
fn push(maker: &mut Maker, kind: CallKind) {
    maker.source.draw.edges = kind == CallKind::Edges;
    maker.source.clears = if kind == CallKind::Edges { 25 } else { 120 };
    // A record that lost its mark never has it again, so that most lists often begin again.
    let states = match kind {
        CallKind::Homes => 400,
        CallKind::Full if !maker.any_market => 150,
        _ => 60,
    };
    if maker.source.indices().is_empty() || maker.random().one_in(states) {
        return begin_again(maker, kind);
    }
    if maker.clear_stale() {
        return;
    }
    match kind {
        CallKind::Faults => push_fault(maker),
        CallKind::Full if maker.random().one_in(4) => fills::push_fill(maker),
        CallKind::Homes => homes::push_home(maker),
        _ => push_plain(maker),
    }
}

fn push_plain(maker: &mut Maker) {
    match maker.random().below(22) {
        0..=5 => {
            let bytes = maker.next_message();
            maker.step(&bytes);
        }
        6..=9 => {
            let count = 1 + maker.random().below(12);
            let bytes: Vec<u8> = (0..count).flat_map(|_| maker.next_message()).collect();
            maker.run(&bytes);
        }
        10..=12 => {
            let index = maker.any_index();
            maker.list.quote(index);
        }
        13..=15 => {
            let index = maker.any_index();
            maker.list.volume(index);
        }
        16 => {
            let index = maker.source.index();
            let message = maker.source.sample(index);
            maker.read(&to_bytes(&message));
        }
        17 => outputs::push_write(maker, false),
        18 | 19 => outputs::push_line(maker, false),
        _ => auctions::push(maker),
    }
}

fn push_fault(maker: &mut Maker) {
    match maker.random().below(22) {
        0..=3 => {
            let registered = maker.source.indices().to_vec();
            let asked = registers::faulty(maker.random(), &registered);
            maker.register(asked);
        }
        4..=9 => {
            let bytes = maker.faulty_message();
            maker.step(&bytes);
        }
        10..=11 => {
            let bytes: Vec<u8> = (0..6)
                .flat_map(|place| match place {
                    3 => maker.faulty_message(),
                    _ => maker.next_message(),
                })
                .collect();
            maker.run(&bytes);
        }
        12 => {
            let bytes = maker.faulty_message();
            maker.read(&bytes);
        }
        13..=14 => outputs::push_write(maker, true),
        15..=16 => outputs::push_line(maker, true),
        17 if maker.random().one_in(4) => begin_again(maker, CallKind::Faults),
        18 | 19 => auctions::push(maker),
        _ => push_plain(maker),
    }
}

#[cfg(test)]
mod tests {
    use super::{calls, list, CallKind, CALL_KINDS, MIXED, SYMBOLS};
    use crate::book::LIVE_ORDERS;
    use crate::probe::{probe, watch, LARGEST_FILE};
    use std::collections::HashSet;

    /// Messages, which one by one are as many steps, are counted in lists of the kind `twice`.
    #[test]
    fn a_seed_gives_one_list_of_as_many_calls() {
        for (name, kind) in CALL_KINDS {
            let bytes = calls(3, kind, 200);
            assert!(bytes == calls(3, kind, 200), "{name} differs");
            let text = probe(&bytes);
            let counted = |line: &&str| kind != CallKind::Twice || line.starts_with("S,");
            assert_eq!(text.lines().filter(counted).count(), 200, "{name}");
        }
    }

    #[test]
    fn a_long_list_is_cut_to_fit() {
        for (name, kind) in CALL_KINDS {
            let bytes = calls(4, kind, 100_000);
            assert!(bytes.len() <= LARGEST_FILE, "{name}");
            assert!(bytes.len() > LARGEST_FILE / 2, "{name}");
        }
    }

    /// In as many lists as are compared, of as many calls.
    #[test]
    fn faults_and_mixed_lists_have_states_of_every_market() {
        for kind in [CallKind::Faults, CallKind::Mixed] {
            let mut markets = HashSet::new();
            for seed in 1..=25 {
                let list = list(seed, kind, 200);
                let states = list.tails().filter(|call| call[0] == b'M');
                markets.extend(states.filter_map(|call| call.get(1).copied()));
            }
            for id in [1, 3, 9, 10, 11] {
                assert!(markets.contains(&id), "{kind:?} {id}");
            }
        }
    }

    /// The offsets that conditions alone have; other fields begin at 32 and 40 too.
    #[test]
    fn faults_and_mixed_lists_have_every_bad_condition() {
        for kind in [CallKind::Faults, CallKind::Mixed] {
            let lists = (1..=25).map(|seed| probe(&calls(seed, kind, 200)));
            let text: String = lists.collect();
            for offset in [29, 30, 31, 38, 39, 41] {
                let end = format!(",{offset}");
                let mut refused = text.lines().filter(|line| line.starts_with("S,4,"));
                assert!(
                    refused.any(|line| line.ends_with(&end)),
                    "{kind:?} {offset}"
                );
            }
        }
    }

    /// Whether so many symbols are full at once after some call.
    fn are_full(calls: &[u8], symbols: usize) -> bool {
        let mut most = 0;
        watch(calls, |reader| {
            let books = reader.symbols().iter().map(|symbol| &symbol.book);
            let full = books.filter(|book| book.orders().len() == LIVE_ORDERS);
            most = most.max(full.count());
        });
        most >= symbols
    }

    /// Of as many lists as are compared, of as many calls, those with so many symbols full at once.
    fn full_lists(kind: CallKind, symbols: usize) -> usize {
        (1..=25)
            .filter(|seed| are_full(&calls(*seed, kind, 200), symbols))
            .count()
    }

    #[test]
    fn books_of_every_kind_fill_up() {
        for (name, kind) in CALL_KINDS[..=MIXED].iter() {
            let count = full_lists(*kind, 1);
            assert!(count >= 5, "{name}: {count}");
        }
    }

    /// 2,048 live orders.
    #[test]
    fn eight_books_are_full_at_once() {
        let count = full_lists(CallKind::Full, SYMBOLS);
        assert!(count >= 10, "{count}");
    }
}
