//! What a message says of an event, and what the event does to its symbol.

use second::wire::Body;

use super::exchange::Exchange;
use super::symbol::Symbol;

impl Symbol {
    pub fn add(&mut self, exchange: &mut Exchange) -> Body {
        let side = exchange.side();
        let order = self.come(side, exchange);
        Body::Add {
            order: order.number,
            price: order.price,
            volume: order.volume,
            side,
            firm: exchange.random.pick(&[*b"FIRM1", *b"FIRM2", *b"     "]),
        }
    }

    pub fn modify(&mut self, exchange: &mut Exchange) -> Body {
        let place = self.changing(exchange);
        let order = &mut self.orders[place];
        order.price = exchange.price(self.middle, order.side);
        order.volume = exchange.volume();
        Body::Modify {
            order: order.number,
            price: order.price,
            volume: order.volume,
            position: exchange.random.pick(&[0, 1]),
            side: order.side,
        }
    }

    pub fn delete(&mut self, exchange: &mut Exchange) -> Body {
        let order = self.go(exchange).number;
        Body::Delete { order }
    }

    pub fn replace(&mut self, exchange: &mut Exchange) -> Body {
        let old = self.go(exchange);
        let new = self.come(old.side, exchange);
        Body::Replace {
            order: old.number,
            new_order: new.number,
            price: new.price,
            volume: new.volume,
            side: new.side,
        }
    }

    /// Takes all of an order, or a part of it where it has parts.
    pub fn execute(&mut self, exchange: &mut Exchange, all: bool) -> Body {
        let place = self.changing(exchange);
        let order = self.orders[place];
        let volume = if all || order.volume == 1 {
            self.orders.remove(place);
            order.volume
        } else {
            let part = 1 + exchange.random.u32_below(order.volume - 1);
            self.orders[place].volume -= part;
            part
        };
        let (trade, printable) = self.traded(exchange);
        Body::Execute {
            order: order.number,
            trade,
            price: order.price,
            volume,
            printable,
            conditions: exchange.conditions(),
        }
    }

    pub fn trade(&mut self, exchange: &mut Exchange) -> Body {
        let (trade, printable) = self.traded(exchange);
        Body::Trade {
            trade,
            price: self.middle,
            volume: exchange.volume(),
            printable,
            conditions: exchange.conditions(),
        }
    }

    pub fn cancel(&mut self, exchange: &mut Exchange) -> Body {
        let place = exchange.random.below(self.kept.len());
        let trade = self.kept.swap_remove(place);
        Body::Cancel { trade }
    }

    pub fn cross(&mut self, exchange: &mut Exchange) -> Body {
        Body::Cross {
            cross: self.crossed(exchange),
            price: self.middle,
            volume: exchange.volume(),
            cross_type: exchange.random.pick(b"EO56"),
        }
    }

    pub fn correction(&mut self, exchange: &mut Exchange) -> Body {
        Body::Correction {
            cross: self.corrected(exchange),
            volume: exchange.volume(),
        }
    }
}

/// Messages that change nothing of a symbol but its number.
impl Exchange {
    pub fn imbalance(&mut self) -> Body {
        Body::Imbalance {
            seconds: self.seconds(),
            plain: self.random.array(),
        }
    }

    pub fn retail(&mut self) -> Body {
        Body::Retail {
            indicator: self.random.pick(b" ABC"),
        }
    }

    pub fn status(&mut self) -> Body {
        Body::Status {
            seconds: self.seconds(),
            plain: self.random.array(),
        }
    }
}
