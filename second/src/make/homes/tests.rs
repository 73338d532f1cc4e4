//! What the lists of this kind are worth: how much of them is done, how full the books are, which
//! refusals come.

use crate::answer::number;
use crate::book::LIVE_ORDERS;
use crate::cursor::Cursor;
use crate::make::calls::{list, CallKind};
use crate::make::families::Family;
use crate::reader::Reader;
use crate::wire::message::ADD;
use crate::wire::{read, Body, Market, Message};
use std::collections::HashSet;

/// A message of a list, what it was answered, and which orders of its symbol were live before
/// and after it.
struct Told {
    message: Message,
    answer: u8,
    before: Vec<u64>,
    after: Vec<u64>,
}

/// What is told of each list, as many as are compared, of as many calls.
fn lists() -> Vec<Vec<Told>> {
    (1..=25).map(told).collect()
}

fn told(seed: u64) -> Vec<Told> {
    let mut reader = Reader::new(Market::Nyse);
    let mut told = Vec::new();
    for call in list(seed, CallKind::Homes, 200).tails() {
        let mut call = Cursor::new(call);
        match call.u8() {
            Some(b'N') => reader = Reader::new(Market::Nyse),
            Some(b'G') => register(&mut reader, &mut call).expect("a whole call"),
            Some(b'S' | b'X') => {
                told.extend(apply(&mut reader, &mut call).expect("a whole call"));
            }
            letter => assert!(matches!(letter, Some(b'Q' | b'V')), "{letter:?}"),
        }
    }
    told
}

fn register(reader: &mut Reader, call: &mut Cursor) -> Option<()> {
    let (index, scale, length) = (call.u32()?, call.u8()?, call.u8()?);
    let name = call.bytes(usize::from(length))?;
    let _ = reader.register(index, scale, name);
    Some(())
}

fn apply(reader: &mut Reader, call: &mut Cursor) -> Option<Vec<Told>> {
    let mut at = usize::from(call.u16()?);
    let bytes = call.counted()?;
    let mut told = Vec::new();
    while let (next, Ok(message)) = read(Market::Nyse, bytes, at) {
        let before = live(reader, message.index);
        let answer = number(&reader.apply(&message));
        let after = live(reader, message.index);
        told.push(Told {
            message,
            answer,
            before,
            after,
        });
        at = next;
    }
    assert_eq!(at, bytes.len(), "every message reads");
    Some(told)
}

fn live(reader: &Reader, index: u32) -> Vec<u64> {
    let symbol = reader.symbol(index);
    let orders = symbol.map_or(&[][..], |symbol| symbol.book.orders());
    orders.iter().map(|order| order.number).collect()
}

/// Whether so many in a hundred have the property.
fn are_mostly<T>(share: usize, items: &[T], property: impl Fn(&T) -> bool) -> bool {
    let having = items.iter().filter(|item| property(item)).count();
    !items.is_empty() && 100 * having >= share * items.len()
}

/// How many of the orders' families there are.
fn families(orders: &[u64]) -> usize {
    let families: HashSet<_> = orders.iter().map(|it| Family::of_order(*it)).collect();
    families.len()
}

#[test]
fn messages_are_mostly_done() {
    for told in lists() {
        assert!(are_mostly(98, &told, |it| it.answer == 0));
    }
}

/// Every list has a full book. Of the messages that are no adds most find a book with at most
/// eight free places; many of the others are the deletes that empty one.
#[test]
fn books_are_mostly_near_full() {
    let mut free = Vec::new();
    for told in lists() {
        assert!(told.iter().any(|it| it.after.len() == LIVE_ORDERS));
        let changes = told.iter().filter(|it| it.message.kind() != ADD);
        free.extend(changes.map(|it| LIVE_ORDERS - it.before.len()));
    }
    assert!(are_mostly(65, &free, |free| *free <= 8));
}

/// There are up to four families, order 0 and the last one.
#[test]
fn live_orders_mostly_share_a_home() {
    for told in lists() {
        assert!(are_mostly(95, &told, |it| families(&it.after) < it.after.len()));
        for it in told {
            assert!(families(&it.after) <= 6, "{:?}", it.message);
            assert!(it.after.len() < LIVE_ORDERS || families(&it.after) >= 2);
        }
    }
}

/// What a done message did to its order's place.
#[derive(PartialEq, Eq, Hash, Debug)]
enum Move {
    Deleted,
    ExecutedToZero,
    ReplacedByItself,
    ReplacedWithinTheFamily,
    ReplacedByAnotherFamily,
}

fn moved(told: &Told) -> Option<Move> {
    match told.message.body {
        _ if told.answer != 0 => None,
        Body::Delete { .. } => Some(Move::Deleted),
        Body::Execute { order, .. } if !told.after.contains(&order) => Some(Move::ExecutedToZero),
        Body::Replace {
            order, new_order, ..
        } => Some(match families(&[order, new_order]) {
            _ if order == new_order => Move::ReplacedByItself,
            1 => Move::ReplacedWithinTheFamily,
            _ => Move::ReplacedByAnotherFamily,
        }),
        _ => None,
    }
}

#[test]
fn every_list_has_every_move() {
    for told in lists() {
        let moves: HashSet<Move> = told.iter().filter_map(moved).collect();
        assert_eq!(moves.len(), 5, "{moves:?}");
    }
}

/// The type of each message that does not fit, with whether its order was live.
#[test]
fn lists_have_misfits_and_overflows() {
    let mut misfits = HashSet::new();
    let mut overflows = 0;
    for told in lists() {
        for it in told {
            match (it.answer, it.message.body) {
                (9, Body::Add { order, .. })
                | (9, Body::Modify { order, .. })
                | (9, Body::Delete { order })
                | (9, Body::Execute { order, .. })
                | (9, Body::Replace { order, .. }) => {
                    misfits.insert((it.message.kind(), it.before.contains(&order)));
                }
                (10, _) => overflows += 1,
                _ => {}
            }
        }
    }
    let expected = [
        (100, true),
        (101, false),
        (102, false),
        (103, false),
        (104, false),
        (104, true),
    ];
    assert_eq!(misfits, HashSet::from(expected));
    assert!(overflows >= 10, "{overflows}");
}

/// The old order and the new one are both live, often of two families.
#[test]
fn live_orders_are_often_to_be_replaced_by_live_ones() {
    let mut tries = Vec::new();
    for it in lists().into_iter().flatten() {
        if let (9, Some(orders)) = (it.answer, replaced(&it.message)) {
            if orders.iter().all(|order| it.before.contains(order)) {
                tries.push(families(&orders));
            }
        }
    }
    assert!(tries.len() >= 40, "{}", tries.len());
    assert!(are_mostly(40, &tries, |families| *families == 2));
}

/// The old order and the new one of a replace.
fn replaced(message: &Message) -> Option<[u64; 2]> {
    match message.body {
        Body::Replace {
            order, new_order, ..
        } => Some([order, new_order]),
        _ => None,
    }
}

/// In full books the new order of a replace takes the place of the old one.
#[test]
fn orders_are_often_replaced_in_full_books() {
    let told = lists().into_iter().flatten();
    let full = told.filter(|it| it.answer == 0 && it.before.len() == LIVE_ORDERS);
    let replaces = full.filter_map(|it| replaced(&it.message));
    let count = replaces.filter(|[old, new]| old != new).count();
    assert!(count >= 500, "{count}");
}

#[test]
fn order_0_and_the_last_one_come() {
    let told: Vec<Told> = lists().into_iter().flatten().collect();
    for edge in [0, u64::MAX] {
        let came = |it: &&Told| it.after.contains(&edge) && !it.before.contains(&edge);
        assert!(told.iter().filter(came).count() >= 50, "{edge}");
    }
}

/// At most two messages find the symbol stale before it is cleared, unless the list ends there.
#[test]
fn a_clear_comes_soon_after_a_refusal() {
    for told in lists() {
        let mut rest = told.as_slice();
        while let [it, later @ ..] = rest {
            rest = later;
            if matches!(it.answer, 9 | 10) {
                let stale = later.iter().take_while(|it| it.answer == 8).count();
                assert!(stale <= 2, "{:?}", it.message);
                if let Some(clear) = later.get(stale) {
                    assert!(matches!(clear.message.body, Body::Clear { .. }));
                    assert_eq!(clear.message.index, it.message.index);
                }
            }
        }
    }
}

/// Adds under a number that was live in the same symbol and went.
#[test]
fn numbers_are_often_used_again() {
    let mut again = Vec::new();
    for told in lists() {
        let mut used = HashSet::new();
        for it in told.iter().filter(|it| it.answer == 0) {
            if let Body::Add { order, .. } = it.message.body {
                again.push(!used.insert((it.message.index, order)));
            }
        }
    }
    assert!(are_mostly(40, &again, |again| *again));
}
