//! Messages of ABC in their turn, with its quote after each of them or after a run of some.

use super::Cases;
use crate::book::{Order, LIVE_ORDERS};
use crate::make::call_list::CallList;
use crate::make::messages::*;
use crate::make::source::side_byte;
use crate::program::new_reader;
use crate::reader::{Reader, SYMBOLS};
use crate::wire::{Body, Message};

/// The bid and the ask of the first call. They get better with every further one, so that the quote
/// shows what the last call added or changed, and the sum of all of it.
const BID: u32 = 10_000;
const ASK: u32 = 20_000;

/// A feed shows its last quote alone: one of many more messages than fill a book is not worth its
/// time.
const LONGEST_FEED: usize = LIVE_ORDERS + 36;

/// The symbols before ABC where that is the eighth. The first and the last of them have live orders.
const BEFORE: [u32; SYMBOLS - 1] = [1, 2, 3, 4, 5, 6, 8];
const FIRST: u32 = BEFORE[0];
const SEVENTH: u32 = BEFORE[SYMBOLS - 2];

/// Side and shares of the orders in those two.
const NEIGHBOURS: [(u32, u8, u32); 2] = [(FIRST, BUY, 1), (SEVENTH, SELL, 2)];

enum Call {
    Step(Message),
    Run(Vec<Message>),
}

impl Call {
    fn messages(&self) -> &[Message] {
        match self {
            Call::Step(message) => std::slice::from_ref(message),
            Call::Run(messages) => messages,
        }
    }

    fn push_to(&self, list: &mut CallList) {
        match self {
            Call::Step(message) => list.step_messages(&[*message]),
            Call::Run(messages) => list.run_messages(messages),
        }
    }
}

pub struct Script {
    /// What the program holds after the calls so far.
    reader: Reader,
    calls: Vec<Call>,
}

impl Script {
    pub fn new() -> Script {
        Script {
            reader: new_reader(),
            calls: Vec::new(),
        }
    }

    /// A run of adds, the first of one share, the next of two; buys and sells by turns.
    pub fn fill(&mut self, orders: &[u64]) {
        self.run(orders, |script, place, order| {
            let side = if place % 2 == 0 { BUY } else { SELL };
            add(script.next(), order, side, script.price(side), place + 1)
        });
    }

    /// A run that finds each of these orders: it is modified, and keeps its side and its shares.
    pub fn find(&mut self, orders: &[u64]) {
        self.run(orders, |script, _, order| {
            let (side, volume) = script.terms(order);
            modify(script.next(), order, side, script.price(side), volume)
        });
    }

    pub fn find_all(&mut self) {
        let live = self.live();
        self.find(&live);
    }

    /// A run of deletes.
    pub fn empty(&mut self, orders: &[u64]) {
        self.run(orders, |script, _, order| delete(script.next(), order));
    }

    pub fn add(&mut self, order: u64, side: u8, volume: u32) {
        self.step(add(self.next(), order, side, self.price(side), volume));
    }

    /// To other shares, and to the call's price.
    pub fn modify(&mut self, order: u64, volume: u32) {
        let (side, _) = self.terms(order);
        self.step(modify(self.next(), order, side, self.price(side), volume));
    }

    pub fn delete(&mut self, order: u64) {
        self.step(delete(self.next(), order));
    }

    pub fn execute(&mut self, order: u64, volume: u32) {
        self.step(execute(self.next(), order, 1, volume));
    }

    /// An execution of all that is left of an order.
    pub fn execute_all(&mut self, order: u64) {
        let (_, volume) = self.terms(order);
        self.execute(order, volume);
    }

    pub fn replace(&mut self, order: u64, new_order: u64, volume: u32) {
        let (side, _) = self.terms(order);
        let price = self.price(side);
        self.step(replace(self.next(), order, new_order, side, price, volume));
    }

    /// A message whose number is one too high.
    pub fn lose_one(&mut self) {
        self.step(retail(self.next() + 1));
    }

    pub fn clear(&mut self) {
        self.step(clear(self.next()));
    }

    /// The numbers of the live orders, the least first.
    pub fn live(&self) -> Vec<u64> {
        let mut numbers: Vec<u64> = self.orders().iter().map(|order| order.number).collect();
        numbers.sort_unstable();
        numbers
    }

    pub fn messages(&self) -> Vec<Message> {
        self.calls
            .iter()
            .flat_map(|call| call.messages().to_vec())
            .collect()
    }

    fn orders(&self) -> &[Order] {
        let symbol = self.reader.symbol(ABC);
        symbol.map_or(&[], |symbol| symbol.book.orders())
    }

    /// Side and shares of a live order; an order that is not live is a buy of one share.
    fn terms(&self, order: u64) -> (u8, u32) {
        let live = self.orders().iter().find(|live| live.number == order);
        live.map_or((BUY, 1), |live| (side_byte(live.side), live.volume))
    }

    /// The number that ABC expects.
    fn next(&self) -> u32 {
        let expected = self.reader.symbol(ABC).map_or(1, |abc| abc.expected());
        u32::try_from(expected).expect("a script is far from the last number")
    }

    /// The price that the next call gives its orders.
    fn price(&self, side: u8) -> u32 {
        let calls = self.calls.len() as u32;
        if side == BUY {
            BID + calls
        } else {
            ASK - calls
        }
    }

    fn step(&mut self, message: Message) {
        let _ = self.reader.apply(&message);
        self.calls.push(Call::Step(message));
    }

    /// A run of one message for each order, made from the order's place in the list and its number;
    /// of no order there is none.
    fn run(&mut self, orders: &[u64], made: impl Fn(&Script, u32, u64) -> Message) {
        let mut messages = Vec::new();
        for (place, order) in (0..).zip(orders) {
            let message = made(self, place, *order);
            let _ = self.reader.apply(&message);
            messages.push(message);
        }
        if !messages.is_empty() {
            self.calls.push(Call::Run(messages));
        }
    }
}

impl Cases {
    /// The script on ABC as the only symbol, and on ABC as the eighth.
    pub fn script(&mut self, name: &str, script: &Script) {
        let messages = script.messages();
        if messages.len() <= LONGEST_FEED {
            self.feed(name, &messages);
        }
        self.calls_on_abc(name, |calls| {
            for call in &script.calls {
                call.push_to(calls);
                calls.quote(ABC);
            }
        });
        let orders = first_orders(&messages);
        self.calls(&format!("{name}-in-the-eighth-symbol"), |calls| {
            push_neighbours(calls, &orders);
            for call in &script.calls {
                call.push_to(calls);
                push_quotes(calls);
            }
            find_neighbours(calls, &orders);
            push_quotes(calls);
            for index in [ABC, FIRST, SEVENTH] {
                calls.volume(index);
            }
        });
    }
}

/// Eight symbols, ABC the last. Orders of the same numbers are live in the first and the seventh,
/// the buys and the sells that their quotes show to the end.
fn push_neighbours(calls: &mut CallList, orders: &[u64]) {
    for index in BEFORE {
        calls.register(index, 2, b"NEAR");
    }
    calls.register(ABC, 4, b"ABC");
    run_beside(calls, orders, 1, 500, add);
}

/// All of those orders are found: each gets another price.
fn find_neighbours(calls: &mut CallList, orders: &[u64]) {
    run_beside(calls, orders, orders.len() as u32 + 1, 600, modify);
}

/// A message of that number, order, side, price and volume.
type Made = fn(u32, u64, u8, u32, u32) -> Message;

/// A run in the first symbol and one in the seventh, each of a message for every order.
fn run_beside(calls: &mut CallList, orders: &[u64], first: u32, price: u32, made: Made) {
    for (index, side, volume) in NEIGHBOURS {
        let messages: Vec<Message> = (first..)
            .zip(orders)
            .map(|(number, order)| on(index, made(number, *order, side, price, volume)))
            .collect();
        calls.run_messages(&messages);
    }
}

fn push_quotes(calls: &mut CallList) {
    for index in [ABC, FIRST, SEVENTH] {
        calls.quote(index);
    }
}

/// The first order numbers that are added, as many as a book has room for.
fn first_orders(messages: &[Message]) -> Vec<u64> {
    let mut orders = Vec::new();
    for message in messages {
        if let Body::Add { order, .. } = message.body {
            if orders.len() < LIVE_ORDERS && !orders.contains(&order) {
                orders.push(order);
            }
        }
    }
    orders
}

#[cfg(test)]
mod tests {
    use super::{Cases, SYMBOLS};
    use crate::probe::probe;

    /// The lines of a case, behind those of its registers.
    fn probed(cases: &Cases, name: &str, symbols: usize) -> Vec<String> {
        let text = probe(cases.file(&format!("{name}.calls")).expect("a named case"));
        let lines: Vec<String> = text.lines().map(String::from).collect();
        assert_eq!(lines[..symbols], vec!["G,0"; symbols], "{name}");
        lines[symbols..].to_vec()
    }

    /// In the eighth symbol all is answered as in the only one. The quotes of the neighbours stay
    /// until the end, and then all of their orders are found.
    #[test]
    fn the_eighth_symbol_is_like_an_only_one() {
        let cases = Cases::all();
        let end = "-in-the-eighth-symbol.calls";
        let names = cases
            .files
            .iter()
            .filter_map(|(file, _)| file.strip_suffix(end));
        let mut count = 0;
        for name in names {
            let only = probed(&cases, name, 1);
            let eighth = probed(&cases, &format!("{name}-in-the-eighth-symbol"), SYMBOLS);
            let calls = &only[..only.len() - 2];
            // Two runs fill the neighbours; two find them, with three quotes, before three volumes.
            let (quoted, found) = eighth[2..eighth.len() - 3].split_at(2 * calls.len());
            assert_eq!(found.len(), 5, "{name}");
            for (alone, beside) in calls.chunks(2).zip(quoted.chunks(4)) {
                assert_eq!(alone, &beside[..2], "{name}");
                assert_eq!(beside[2..], quoted[2..4], "{name}");
            }
            assert_eq!(found[2], only[only.len() - 2], "{name}");
            for (before, after, start) in [
                (&quoted[2], &found[3], "Q,0,"),
                (&quoted[3], &found[4], "Q,0,,,"),
            ] {
                let shares = before.strip_prefix(&format!("{start}500,"));
                assert!(shares.is_some(), "{name}");
                assert_eq!(
                    after.strip_prefix(&format!("{start}600,")),
                    shares,
                    "{name}"
                );
            }
            count += 1;
        }
        assert!(count > 0);
    }
}
