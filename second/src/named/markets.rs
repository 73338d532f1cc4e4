//! States of the five markets: request M-107.

use super::conditions::both_types;
use super::Cases;
use crate::make::messages::*;
use crate::wire::{Market, Message};

pub fn add_to(cases: &mut Cases) {
    states(cases);
    program(cases);
    misunderstood(cases);
}

const OPENING: [u8; 4] = *b"@O  ";
const CASH: [u8; 4] = *b"C   ";

/// Conditions that some markets list and others do not, and those that all list.
const TELLING: [[u8; 4]; 7] = [
    OPENING, *b"@5  ", *b"@6  ", *b"@7  ", CASH, *b"@  V", *b"@   ",
];

fn states(cases: &mut Cases) {
    cases.calls("five-states-one-a-market", |calls| {
        for market in Market::ALL {
            calls.new_market(market);
            calls.register(ABC, 4, b"ABC");
            calls.step_messages(&[add(1, 1, BUY, 1000, 10)]);
            // Of those that are listed one is applied, and the number of the others is used then.
            for conditions in TELLING {
                let message = print_execute(2, 1, 2, 1000, 1);
                calls.step_messages(&[under(conditions, message)]);
            }
            calls.quote(ABC);
            calls.volume(ABC);
        }
    });
    cases.calls("a-run-in-a-state-of-each-market", |calls| {
        for market in Market::ALL {
            calls.new_market(market);
            calls.register(ABC, 4, b"ABC");
            calls.run_messages(&[
                add(1, 1, BUY, 1000, 10),
                under(OPENING, print_execute(2, 1, 2, 1000, 1)),
                under(CASH, trade(3, 3, 4, 1)),
            ]);
            calls.quote(ABC);
            calls.volume(ABC);
        }
    });
    cases.calls("every-letter-asks-the-market-of-its-state", |calls| {
        for market in Market::ALL {
            calls.new_market(market);
            for conditions in [OPENING, CASH] {
                let bytes = feed(&[under(conditions, both_types()[0])]);
                calls.read(0, &bytes);
                calls.step(0, &bytes);
                calls.write(1, 42, &bytes);
                calls.line(1, 1, 0, 0, &bytes);
            }
        }
    });
    cases.calls("a-new-market-has-no-symbol", |calls| {
        for market in [Market::Arca, Market::Nyse, Market::Nyse] {
            calls.register(ABC, 4, b"ABC");
            calls.step_messages(&[add(1, 1, BUY, 1000, 10)]);
            calls.quote(ABC);
            calls.new_market(market);
            calls.quote(ABC);
            calls.volume(ABC);
            calls.step_messages(&[add(1, 1, BUY, 1000, 10)]);
        }
    });
    cases.calls("a-new-state-is-nyse-s", |calls| {
        let [open, cash] = [OPENING, CASH].map(|code| feed(&[under(code, both_types()[1])]));
        calls.read(0, &open);
        calls.read(0, &cash);
        calls.new_market(Market::Texas);
        calls.read(0, &open);
        calls.read(0, &cash);
        calls.new_state();
        calls.read(0, &open);
        calls.read(0, &cash);
    });
}

/// The program's market is NYSE.
fn program(cases: &mut Cases) {
    let mut messages = vec![add(1, 1, BUY, 1000, 10)];
    for message in both_types() {
        let numbered = Message {
            number: 2,
            ..message
        };
        messages.extend(TELLING[3..6].iter().map(|code| under(*code, numbered)));
    }
    cases.feed("codes-of-texas-alone-on-the-page", &messages);
}

fn misunderstood(cases: &mut Cases) {
    for id in [0, 2, 4, 8, 12, b'1', 255] {
        cases.calls(&format!("no-market-has-the-number-{id}"), |calls| {
            calls.new_market(Market::Texas);
            calls.raw(&[b'M', id]);
            calls.new_state();
        });
    }
    cases.calls("a-cut-market", |calls| {
        calls.new_state();
        calls.raw(b"M");
    });
}
