//! One registered symbol and what a message does to it: document 01, "Numbers answered" from the
//! check of the stale mark on, "The book" and "The trade record", and request M-102.

use std::cmp::Ordering;

use crate::answer::Refusal;
use crate::book::{Book, Order, Side};
use crate::record::{Cross, Record, Trade};
use crate::wire::{Body, Message};

#[derive(Clone)]
pub struct Symbol {
    pub index: u32,
    pub scale: u8,
    pub name: Vec<u8>,
    /// 4,294,967,296 once the last number was used: no message has that one.
    expected: u64,
    stale: bool,
    pub book: Book,
    pub record: Record,
}

impl Symbol {
    pub fn new(index: u32, scale: u8, name: &[u8]) -> Symbol {
        Symbol {
            index,
            scale,
            name: name.to_vec(),
            expected: 1,
            stale: false,
            book: Book::default(),
            record: Record::new(),
        }
    }

    pub fn is_stale(&self) -> bool {
        self.stale
    }

    pub fn expected(&self) -> u64 {
        self.expected
    }

    /// Applies a message of this symbol. The checks: stale, number, fit, room.
    pub fn apply(&mut self, message: &Message) -> Result<(), Refusal> {
        if let Body::Clear { .. } = message.body {
            self.clear(message.number);
            return Ok(());
        }
        if self.stale {
            return Err(Refusal::Stale);
        }
        match u64::from(message.number).cmp(&self.expected) {
            Ordering::Less => return Err(Refusal::Low),
            Ordering::Greater => return self.become_stale(Refusal::Gap),
            Ordering::Equal => {}
        }
        if let Err(refusal) = self.change_book(&message.body) {
            return self.become_stale(refusal);
        }
        self.expected += 1;
        self.change_record(&message.body);
        Ok(())
    }

    /// A clear leaves the kept trades and crosses; only its number can cost the mark.
    fn clear(&mut self, next: u32) {
        let next = u64::from(next);
        if next != self.expected {
            self.record.lose_mark();
        }
        self.book.clear();
        self.stale = false;
        self.expected = next;
    }

    fn become_stale(&mut self, refusal: Refusal) -> Result<(), Refusal> {
        self.stale = true;
        self.record.lose_mark();
        Err(refusal)
    }

    fn change_book(&mut self, body: &Body) -> Result<(), Refusal> {
        match *body {
            Body::Add {
                order,
                price,
                volume,
                side,
                ..
            } => self.book.add(made_order(order, side, price, volume)),
            Body::Modify {
                order,
                price,
                volume,
                side,
                ..
            } => self.book.modify(made_order(order, side, price, volume)),
            Body::Delete { order } => self.book.delete(order),
            Body::Execute { order, volume, .. } => self.book.execute(order, volume),
            Body::Replace {
                order,
                new_order,
                price,
                volume,
                side,
            } => self
                .book
                .replace(order, made_order(new_order, side, price, volume)),
            _ => Ok(()),
        }
    }

    fn change_record(&mut self, body: &Body) {
        match *body {
            Body::Execute {
                trade,
                price,
                volume,
                printable: 1,
                ..
            }
            | Body::Trade {
                trade,
                price,
                volume,
                printable: 1,
                ..
            } => self.record.keep(Trade {
                number: trade,
                price,
                volume,
            }),
            Body::Cancel { trade } => self.record.cancel(trade),
            Body::Cross { cross, volume, .. } => self.record.keep_cross(Cross {
                number: cross,
                volume,
            }),
            Body::Correction { cross, volume } => self.record.correct(cross, volume),
            _ => {}
        }
    }
}

fn made_order(number: u64, side: u8, price: u32, volume: u32) -> Order {
    Order {
        number,
        side: Side::from_byte(side),
        price,
        volume,
    }
}
