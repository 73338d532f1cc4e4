//! What the lists of this kind are worth: that both halves tell the same, and what the runs meet.

use super::Twice;
use crate::answer::number;
use crate::book::LIVE_ORDERS;
use crate::make::calls::{calls, CallKind};
use crate::make::random::Random;
use crate::probe::probe;
use crate::reader::{Reader, SYMBOLS};
use crate::record::KEPT_TRADES;
use crate::wire::message::TYPES;
use crate::wire::{read, Body, Market, Message};

/// As many lists as are compared, of as many messages.
const SEEDS: std::ops::RangeInclusive<u64> = 1..=25;
const COUNT: usize = 300;

/// A message of a run, what it was answered, and what its symbol held before it.
struct Told {
    /// None where it does not read.
    message: Option<Message>,
    answer: u8,
    expected: u64,
    live: usize,
    kept: Vec<u32>,
}

impl Told {
    fn is_done(&self, body: impl Fn(&Body) -> bool) -> bool {
        self.answer == 0 && self.message.is_some_and(|message| body(&message.body))
    }

    fn index(&self) -> Option<u32> {
        self.message.map(|message| message.index)
    }
}

fn twice(seed: u64) -> Twice {
    Twice::drawn(Random::new(seed, "calls Twice"), COUNT)
}

/// The runs of all lists.
fn runs() -> Vec<Vec<Told>> {
    SEEDS.flat_map(|seed| told(&twice(seed))).collect()
}

fn told(twice: &Twice) -> Vec<Vec<Told>> {
    let mut reader = Reader::new(Market::Nyse);
    for (index, scale, name) in &twice.symbols {
        assert_eq!(reader.register(*index, *scale, name), Ok(()));
    }
    for adds in &twice.full {
        reader.run(adds, 0);
    }
    let mut tell = |bytes: &Vec<u8>| {
        let message = read(Market::Nyse, bytes, 0).1.ok();
        let symbol = message.and_then(|message| reader.symbol(message.index));
        let (expected, live, kept) = symbol.map_or((0, 0, Vec::new()), |symbol| {
            let trades = symbol.record.trades().iter().map(|trade| trade.number);
            let live = symbol.book.orders().len();
            (symbol.expected(), live, trades.collect())
        });
        let (next, done) = reader.step(bytes, 0);
        assert_eq!(next, bytes.len(), "a run goes on behind each message");
        Told {
            message,
            answer: number(&done),
            expected,
            live,
            kept,
        }
    };
    let runs = twice.runs.iter().map(|run| run.messages.clone());
    runs.map(|run| twice.messages[run].iter().map(&mut tell).collect())
        .collect()
}

fn count(runs: &[Vec<Told>], property: impl Fn(&Told) -> bool) -> usize {
    runs.iter().flatten().filter(|told| property(told)).count()
}

/// The answers of quotes and volumes, in the first state and in the second. Only the full books are
/// runs in the first.
fn asked(seed: u64) -> [Vec<String>; 2] {
    let text = probe(&calls(seed, CallKind::Twice, COUNT));
    let (steps, runs) = text.split_once("\nN\n").expect("two states");
    assert_eq!(steps.matches("\nX,").count(), twice(seed).full.len());
    assert!(!runs.contains("\nS,"), "{seed}");
    [steps, runs].map(|half| {
        let asked = half.lines().filter(|line| line.starts_with(['Q', 'V']));
        asked.map(String::from).collect()
    })
}

#[test]
fn both_states_tell_the_same() {
    for seed in SEEDS {
        let [steps, runs] = asked(seed);
        assert!(steps.len() >= 16, "{seed}");
        assert_eq!(steps, runs, "{seed}");
    }
}

/// Few quotes are of a stale symbol, which show nothing, and many volumes are with the mark and
/// without.
#[test]
fn quotes_and_volumes_show_something() {
    let lines: Vec<String> = SEEDS.flat_map(|seed| asked(seed).concat()).collect();
    let percent = |start: &str, end: &str| {
        let same_call = lines.iter().filter(|line| line[..1] == start[..1]);
        let part = lines
            .iter()
            .filter(|line| line.starts_with(start) && line.ends_with(end));
        100 * part.count() / same_call.count()
    };
    assert!(percent("Q,8,", "") < 10);
    assert!(percent("Q,0,", "") - percent("Q,0,", ",,,") >= 40);
    for whole in [",0", ",1"] {
        assert!(percent("V,0,", whole) >= 20, "{whole}");
    }
}

#[test]
fn every_answer_that_a_run_passes_over_comes() {
    let runs = runs();
    let answered = |answer| count(&runs, |told| told.answer == answer);
    assert!(answered(0) >= SEEDS.count() * COUNT * 3 / 4);
    for answer in [2, 3, 4, 5, 6, 7, 8, 9, 10] {
        assert!(answered(answer) >= 20, "{answer}: {}", answered(answer));
    }
}

#[test]
fn every_type_is_done() {
    let runs = runs();
    for kind in TYPES {
        let done = count(&runs, |told| {
            told.answer == 0 && told.message.is_some_and(|message| message.kind() == kind)
        });
        assert!(done >= 20, "{kind}: {done}");
    }
}

/// How often a message with the property is followed, in the same run, by one of its symbol that is
/// numbered and done.
fn followed(runs: &[Vec<Told>], property: impl Fn(&Told) -> bool) -> usize {
    let numbered = |told: &Told| told.is_done(|body| !matches!(body, Body::Clear { .. }));
    let is_followed = |run: &[Told]| {
        let [told, later @ ..] = run else {
            return false;
        };
        let mut of_symbol = later.iter().filter(|it| it.index() == told.index());
        property(told) && of_symbol.any(numbered)
    };
    let places = runs
        .iter()
        .flat_map(|run| (0..run.len()).map(|at| &run[at..]));
    places.filter(|run| is_followed(run)).count()
}

/// Behind a 7, a 9 and a 10 a clear comes before its symbol's next message is done.
#[test]
fn runs_go_on_behind_clears_and_refusals() {
    let runs = runs();
    let clears = followed(&runs, |told| {
        told.is_done(|body| matches!(body, Body::Clear { .. }))
    });
    assert!(clears >= 100, "{clears}");
    for answer in [6, 7, 9, 10] {
        let count = followed(&runs, |told| told.answer == answer);
        assert!(count >= 10, "{answer}: {count}");
    }
}

/// Some lists begin with no full book, some with one or two, and some with eight.
#[test]
fn lists_begin_with_full_books() {
    let full: Vec<usize> = SEEDS.map(|seed| twice(seed).full.len()).collect();
    for books in [0..1, 1..3, SYMBOLS..SYMBOLS + 1] {
        let lists = full.iter().filter(|count| books.contains(count)).count();
        assert!(lists >= 3, "{books:?}: {lists}");
    }
}

#[test]
fn orders_are_replaced_in_full_books() {
    let full = count(&runs(), |told| {
        told.live == LIVE_ORDERS && told.is_done(|body| matches!(body, Body::Replace { .. }))
    });
    assert!(full >= 20, "{full}");
}

/// The number of a printed trade that is done.
fn printed(told: &Told) -> Option<u32> {
    match told.message?.body {
        Body::Execute {
            trade,
            printable: 1,
            ..
        }
        | Body::Trade {
            trade,
            printable: 1,
            ..
        } if told.answer == 0 => Some(trade),
        _ => None,
    }
}

/// The number that a cancel gives that is done.
fn cancelled(told: &Told) -> Option<u32> {
    match told.message?.body {
        Body::Cancel { trade } if told.answer == 0 => Some(trade),
        _ => None,
    }
}

#[test]
fn records_fill_up_and_lose_trades() {
    let runs = runs();
    let is_kept = |told: &Told, trade: Option<u32>| trade.map(|trade| told.kept.contains(&trade));
    let counts = [
        count(&runs, |told| {
            is_kept(told, printed(told)) == Some(false) && told.kept.len() == KEPT_TRADES
        }),
        count(&runs, |told| is_kept(told, printed(told)) == Some(true)),
        count(&runs, |told| is_kept(told, cancelled(told)) == Some(true)),
        count(&runs, |told| is_kept(told, cancelled(told)) == Some(false)),
        count(&runs, |told| {
            cancelled(told).is_some() && told.kept.len() == KEPT_TRADES
        }),
    ];
    assert!(counts.iter().all(|count| *count >= 10), "{counts:?}");
}

/// Numbers of trades and of crosses, and indices of symbols, registered and not.
#[test]
fn numbers_at_the_edges_come() {
    let runs = runs();
    for edge in [0, u32::MAX] {
        let is_edge = |body: &Body| match *body {
            Body::Cross { cross, .. } | Body::Correction { cross, .. } => cross == edge,
            _ => false,
        };
        let counts = [
            count(&runs, |told| printed(told) == Some(edge)),
            count(&runs, |told| told.is_done(is_edge)),
            count(&runs, |told| told.answer == 0 && told.index() == Some(edge)),
            count(&runs, |told| told.answer == 5 && told.index() == Some(edge)),
        ];
        assert!(counts.iter().all(|count| *count >= 3), "{edge}: {counts:?}");
    }
}

#[test]
fn the_last_number_is_used_and_passed() {
    let runs = runs();
    let last = count(&runs, |told| {
        told.is_done(|body| !matches!(body, Body::Clear { .. }))
            && told.expected == u64::from(u32::MAX)
    });
    let past = count(&runs, |told| {
        told.answer == 6 && told.expected > u64::from(u32::MAX)
    });
    assert!(last >= 10 && past >= 50, "{last} {past}");
}

/// Runs end within messages and at their ends, start behind others, and have none or many.
#[test]
fn runs_are_of_every_form() {
    let lists: Vec<Twice> = SEEDS.map(twice).collect();
    let runs: Vec<_> = lists.iter().flat_map(|twice| &twice.runs).collect();
    let counts = [
        runs.iter().filter(|run| run.rest == 0).count(),
        runs.iter().filter(|run| (1..4).contains(&run.rest)).count(),
        runs.iter().filter(|run| run.rest >= 4).count(),
        runs.iter().filter(|run| run.before > 0).count(),
        runs.iter().filter(|run| run.messages.is_empty()).count(),
        runs.iter().filter(|run| run.messages.len() >= 60).count(),
    ];
    assert!(counts.iter().all(|count| *count >= 10), "{counts:?}");
}
