//! One symbol as its exchange keeps it, and what happens to it next.

use second::wire::{Body, Message};

use super::events::Event;
use super::exchange::{Exchange, CENT};
use crate::ordinary::{KEPT_CROSSES, KEPT_TRADES, LIVE_ORDERS};

/// One message in so many is a clear.
const CLEAR_RATE: usize = 20_000;
/// Half of the changes are to one of so many newest orders.
const RECENT: usize = 8;
/// One correction in so many is of the newest cross, whether a record keeps it or not; the others are
/// of crosses that it keeps.
const NEWEST_CORRECTED: usize = 10;

#[derive(Clone, Copy)]
pub struct Order {
    pub number: u64,
    pub side: u8,
    pub price: u32,
    pub volume: u32,
}

pub struct Symbol {
    index: u32,
    depth: usize,
    /// Between the prices to buy and those to sell.
    pub middle: u32,
    next: u32,
    /// The newest last.
    pub orders: Vec<Order>,
    /// The trades that a record keeps.
    pub kept: Vec<u32>,
    /// The crosses that a record keeps: the first ones.
    crosses: Vec<u32>,
    newest_cross: u32,
}

impl Symbol {
    pub fn new(index: u32, depth: usize, exchange: &mut Exchange) -> Symbol {
        Symbol {
            index,
            depth,
            middle: 250_000 + CENT * exchange.random.u32_below(20_000),
            next: 1,
            orders: Vec::new(),
            kept: Vec::new(),
            crosses: Vec::new(),
            newest_cross: 0,
        }
    }

    pub fn next(&mut self, exchange: &mut Exchange) -> Message {
        if exchange.random.one_in(CLEAR_RATE) {
            return self.clear(exchange);
        }
        let event = Event::draw(&mut exchange.random);
        let body = self.happens(event, exchange);
        let number = self.next;
        self.next += 1;
        self.message(number, body, exchange)
    }

    /// It gives the number that is next anyway.
    fn clear(&mut self, exchange: &Exchange) -> Message {
        self.orders.clear();
        let seconds = exchange.seconds();
        self.message(self.next, Body::Clear { seconds }, exchange)
    }

    fn message(&self, number: u32, body: Body, exchange: &Exchange) -> Message {
        Message {
            nanoseconds: exchange.nanoseconds(),
            index: self.index,
            number,
            body,
        }
    }

    /// An event that needs an order, a trade or a cross brings one about where there is none.
    fn happens(&mut self, event: Event, exchange: &mut Exchange) -> Body {
        match event {
            Event::Turnover if self.gains(exchange) => self.add(exchange),
            Event::Turnover if exchange.random.one_in(4) => self.execute(exchange, true),
            Event::Turnover => self.delete(exchange),
            Event::Modify | Event::Replace | Event::PartialExecution if self.orders.is_empty() => {
                self.add(exchange)
            }
            Event::Modify => self.modify(exchange),
            Event::Replace => self.replace(exchange),
            Event::PartialExecution => self.execute(exchange, false),
            Event::Cancel if !self.kept.is_empty() => self.cancel(exchange),
            Event::Trade | Event::Cancel => self.trade(exchange),
            Event::Correction if !self.crosses.is_empty() => self.correction(exchange),
            Event::Cross | Event::Correction => self.cross(exchange),
            Event::Imbalance => exchange.imbalance(),
            Event::Retail => exchange.retail(),
            Event::Status => exchange.status(),
        }
    }

    /// Whether an order comes rather than goes: certain in an empty book, even at the depth, out of
    /// the question with twice as many, or in a full book.
    fn gains(&self, exchange: &mut Exchange) -> bool {
        let live = self.orders.len();
        live < LIVE_ORDERS && exchange.random.below(2 * self.depth) >= live
    }

    /// The place of the order that changes next, more often one of the newest.
    pub fn changing(&self, exchange: &mut Exchange) -> usize {
        let live = self.orders.len();
        if exchange.random.one_in(2) {
            live - 1 - exchange.random.below(live.min(RECENT))
        } else {
            exchange.random.below(live)
        }
    }

    pub fn come(&mut self, side: u8, exchange: &mut Exchange) -> Order {
        let order = Order {
            number: exchange.order(),
            side,
            price: exchange.price(self.middle, side),
            volume: exchange.volume(),
        };
        self.orders.push(order);
        order
    }

    pub fn go(&mut self, exchange: &mut Exchange) -> Order {
        let place = self.changing(exchange);
        self.orders.remove(place)
    }

    /// The number of a new trade and whether it is printed, which puts it into the record.
    pub fn traded(&mut self, exchange: &mut Exchange) -> (u32, u8) {
        let (trade, printable) = (exchange.trade(), exchange.printable());
        if printable == 1 && self.kept.len() < KEPT_TRADES {
            self.kept.push(trade);
        }
        (trade, printable)
    }

    /// The number of a new cross. In time every one finds a full list.
    pub fn crossed(&mut self, exchange: &mut Exchange) -> u32 {
        self.newest_cross = exchange.cross();
        if self.crosses.len() < KEPT_CROSSES {
            self.crosses.push(self.newest_cross);
        }
        self.newest_cross
    }

    /// The cross that is corrected next; there is one.
    pub fn corrected(&self, exchange: &mut Exchange) -> u32 {
        if exchange.random.one_in(NEWEST_CORRECTED) {
            self.newest_cross
        } else {
            exchange.random.pick(&self.crosses)
        }
    }
}
