//! Each of the types by itself.

use crate::make::call_list::CallList;
use crate::make::messages::*;
use crate::named::Cases;
use crate::wire::Message;

/// An order, a trade and a cross, which the message of a type finds.
fn found() -> [Message; 3] {
    [
        add(1, 1, BUY, 1000, 10),
        trade(2, 1, 5, 1),
        cross(3, 1, 1000, 100),
    ]
}

/// A message of each type that is done behind those three, in the order of the table.
fn each() -> [Message; 13] {
    [
        add(4, 2, SELL, 1001, 7),
        modify(4, 1, BUY, 1002, 20),
        delete(4, 1),
        print_execute(4, 1, 2, 900, 4),
        replace(4, 1, 2, BUY, 1003, 30),
        imbalance(4),
        trade(4, 2, 6, 1),
        cross(4, 2, 1000, 50),
        cancel(4, 1),
        correction(4, 1, 60),
        retail(4),
        clear(5),
        status(4),
    ]
}

/// How a message is applied.
type Apply = fn(&mut CallList, &[Message]);

pub fn add_to(cases: &mut Cases) {
    let ways: [(&str, Apply); 2] = [
        ("each-type-alone", CallList::step_messages),
        ("each-type-alone-at-once", CallList::run_messages),
    ];
    for (name, apply) in ways {
        cases.calls(name, |calls| {
            for message in each() {
                push_alone(calls, message, apply);
            }
        });
    }
}

/// The message between two steps; the later one shows that a number was used.
fn push_alone(calls: &mut CallList, message: Message, apply: Apply) {
    calls.new_state();
    calls.register(ABC, 4, b"ABC");
    calls.step_messages(&found());
    apply(calls, &[message]);
    calls.quote(ABC);
    calls.volume(ABC);
    calls.step_messages(&[add(5, 9, SELL, 2000, 1)]);
    calls.quote(ABC);
    calls.volume(ABC);
}
