//! What the messages of a source say: changes that fit the book as it is.

use super::{side_byte, Source};
use crate::book::{Order, LIVE_ORDERS};
use crate::wire::Body;

impl Source {
    pub(super) fn body(&mut self, index: u32) -> Body {
        let live = self.live(index).len();
        let adds = match live {
            LIVE_ORDERS.. => 0,
            _ if live < self.depth && self.depth == LIVE_ORDERS => 92,
            _ if live < self.depth => 55,
            _ => 8,
        };
        if self.draw.random.below(100) < adds {
            return self.add_body(index);
        }
        if live > 0 && !self.draw.random.one_in(3) {
            return self.order_body(index);
        }
        self.other_body(index)
    }

    pub fn add_body(&mut self, index: u32) -> Body {
        let side = self.draw.side();
        Body::Add {
            order: self.unused_order(index),
            price: self.draw.price(side),
            volume: self.draw.volume(),
            side,
            firm: self.draw.firm(),
        }
    }

    /// A change of a live order.
    fn order_body(&mut self, index: u32) -> Body {
        let live = self.live_order(index);
        let price = if self.draw.random.one_in(3) {
            live.price
        } else {
            self.draw.price(side_byte(live.side))
        };
        match self.draw.random.below(9) {
            0 | 1 => self.modify_body(live, price),
            2 | 3 => Body::Delete { order: live.number },
            4 | 5 => {
                let new_order = if self.draw.random.one_in(4) {
                    live.number
                } else {
                    self.unused_order(index)
                };
                self.replace_body(live, new_order, price)
            }
            _ => self.execute_body(live, price),
        }
    }

    pub fn modify_body(&mut self, live: Order, price: u32) -> Body {
        Body::Modify {
            order: live.number,
            price,
            volume: self.draw.volume(),
            position: self.draw.flag(),
            side: side_byte(live.side),
        }
    }

    pub fn replace_body(&mut self, live: Order, new_order: u64, price: u32) -> Body {
        Body::Replace {
            order: live.number,
            new_order,
            price,
            volume: self.draw.volume(),
            side: side_byte(live.side),
        }
    }

    /// One of the live orders; there is one.
    pub fn live_order(&mut self, index: u32) -> Order {
        let place = self.draw.random.below(self.live(index).len());
        self.live(index)[place]
    }

    /// A 103 of a live order, or a 110.
    pub(super) fn execute_or_trade(&mut self, index: u32) -> Body {
        if self.live(index).is_empty() || self.draw.random.one_in(2) {
            return self.trade_body();
        }
        let live = self.live_order(index);
        let price = self.draw.price(side_byte(live.side));
        self.execute_body(live, price)
    }

    fn execute_body(&mut self, live: Order, price: u32) -> Body {
        Body::Execute {
            order: live.number,
            trade: self.draw.id(),
            price,
            volume: self.part_of(live.volume),
            printable: self.draw.flag(),
            conditions: self.draw.conditions(),
        }
    }

    fn trade_body(&mut self) -> Body {
        Body::Trade {
            trade: self.draw.id(),
            price: self.draw.price(b'B'),
            volume: self.draw.volume(),
            printable: self.draw.flag(),
            conditions: self.draw.conditions(),
        }
    }

    /// A trade that is printed. Its number is most likely not kept.
    pub fn printed_trade_body(&mut self) -> Body {
        Body::Trade {
            trade: self.draw.random.u32(),
            price: self.draw.price(b'B'),
            volume: self.draw.volume(),
            printable: 1,
            conditions: self.draw.conditions(),
        }
    }

    /// A type that changes no order.
    pub fn other_body(&mut self, index: u32) -> Body {
        match self.draw.random.below(9) {
            0 | 1 => self.trade_body(),
            2 | 3 => self.cross_body(index),
            4 => self.cancel_body(index),
            5 => self.correction_body(index),
            6 => Body::Retail {
                indicator: self.draw.letter(),
            },
            7 => Body::Imbalance {
                seconds: self.draw.seconds(),
                plain: self.draw.random.array(),
            },
            _ => Body::Status {
                seconds: self.draw.seconds(),
                plain: self.draw.random.array(),
            },
        }
    }

    /// Mostly of a trade that is kept; at times of a number that a cross has.
    pub fn cancel_body(&mut self, index: u32) -> Body {
        let kept = self.kept(index);
        let trade = if self.draw.random.one_in(10) {
            let crosses = self.kept_crosses(index);
            self.any_or_kept(&crosses)
        } else if kept.is_empty() {
            let indicator = self.draw.letter();
            return Body::Retail { indicator };
        } else {
            self.draw.random.pick(&kept)
        };
        Body::Cancel { trade }
    }

    /// All of a volume, one share of it, or some.
    fn part_of(&mut self, volume: u32) -> u32 {
        match self.draw.random.below(3) {
            0 => volume,
            1 => 1,
            _ => self.draw.random.u32_below(volume) + 1,
        }
    }

    /// An order number that is not live; it may have been.
    pub fn unused_order(&mut self, index: u32) -> u64 {
        let mut tries = 0;
        // A pool has more orders than a book has room for; other draws may all be live.
        while self.draw.pool.is_some() || tries < 3 {
            let order = self.draw.order();
            if !self.is_live(index, order) {
                return order;
            }
            tries += 1;
        }
        loop {
            let order = self.draw.random.u64();
            if !self.is_live(index, order) {
                return order;
            }
        }
    }

    fn is_live(&self, index: u32, number: u64) -> bool {
        self.live(index).iter().any(|order| order.number == number)
    }
}
