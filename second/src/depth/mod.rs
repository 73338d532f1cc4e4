//! The ten best levels of each side: request M-106.

#[cfg(test)]
mod tests;

use crate::book::{Order, Side};

/// A depth shows so many levels of a side.
pub const ROWS: usize = 10;

/// A price, the exact sum of the shares that stand at it, and the number of live orders they are of.
#[derive(Clone, Copy, PartialEq, Eq, Debug)]
pub struct Row {
    pub price: u32,
    pub size: u64,
    pub orders: usize,
}

/// The rows of a side, the best first; those that are not needed are empty and come last.
pub type Rows = [Option<Row>; ROWS];

/// The best levels of each side, as they are, crossed or not.
#[derive(Clone, Copy, PartialEq, Eq, Debug, Default)]
pub struct Depth {
    pub bids: Rows,
    pub asks: Rows,
}

impl Depth {
    /// The depth of a book with these live orders.
    pub fn of(orders: &[Order]) -> Depth {
        let asks = by_price(orders, Side::Sell);
        let mut bids = by_price(orders, Side::Buy);
        bids.reverse();
        Depth {
            bids: rows(&bids),
            asks: rows(&asks),
        }
    }
}

/// The orders of a side, those of the lowest price first.
fn by_price(orders: &[Order], side: Side) -> Vec<Order> {
    let of_side = orders.iter().filter(|order| order.side == side);
    let mut sorted: Vec<Order> = of_side.copied().collect();
    sorted.sort_by_key(|order| order.price);
    sorted
}

/// The first levels of sorted orders: those of one price stand together.
fn rows(sorted: &[Order]) -> Rows {
    let mut levels = sorted.chunk_by(|order, next| order.price == next.price);
    std::array::from_fn(|_| levels.next().map(row))
}

/// The row of all orders at a price, of which there is one at least.
fn row(level: &[Order]) -> Row {
    let volumes = level.iter().map(|order| u64::from(order.volume));
    Row {
        price: level[0].price,
        size: volumes.sum(),
        orders: level.len(),
    }
}
