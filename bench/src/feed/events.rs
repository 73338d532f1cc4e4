//! What can happen to a symbol, and how often it does.

use second::make::random::Random;

#[derive(Clone, Copy)]
pub enum Event {
    /// An order comes or goes.
    Turnover,
    Modify,
    Replace,
    PartialExecution,
    Trade,
    Cancel,
    Cross,
    Correction,
    Imbalance,
    Retail,
    Status,
}

const THOUSAND: usize = 1_000;

/// How often in a thousand each event is drawn.
const EVENTS: [(usize, Event); 11] = [
    (670, Event::Turnover),
    (85, Event::Modify),
    (95, Event::Replace),
    (60, Event::PartialExecution),
    (25, Event::Trade),
    (10, Event::Cancel),
    (8, Event::Cross),
    (4, Event::Correction),
    (25, Event::Imbalance),
    (12, Event::Retail),
    (6, Event::Status),
];

impl Event {
    pub fn draw(random: &mut Random) -> Event {
        let mut draw = random.below(THOUSAND);
        for (share, event) in EVENTS {
            if draw < share {
                return event;
            }
            draw -= share;
        }
        unreachable!("the shares add up to a thousand")
    }
}
