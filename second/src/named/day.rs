//! Cases A to L.

use super::Cases;
use crate::make::messages::*;
use crate::wire::Message;

/// Cases C to F, one message each.
fn until_f() -> Vec<Message> {
    vec![
        add(1, 1001, BUY, 1_234_500, 200),
        add(2, 1002, BUY, 1_234_500, 50),
        execute(3, 1001, 1_234_400, 200),
        replace(4, 1002, 1002, BUY, 1_235_000, 70),
    ]
}

pub fn add_to(cases: &mut Cases) {
    cases.feed("A", &[]);
    cases.calls_on_abc("A", |calls| {
        calls.step(0, &[]);
        calls.run(0, &[]);
        calls.read(0, &[]);
    });
    let size_3 = [3, 0, 100, 0];
    cases.feed_bytes("B", size_3.to_vec());
    cases.calls_on_abc("B", |calls| {
        calls.step(0, &size_3);
        calls.run(0, &size_3);
        calls.read(0, &size_3);
    });
    let mut day = until_f();
    day.extend([
        delete(6, 1002),
        delete(5, 1002),
        clear(9),
        add(8, 2001, BUY, 1_234_500, 10),
        add(9, 2001, BUY, 1_234_500, 10),
    ]);
    let letters = [
        ("C", 1),
        ("D", 2),
        ("E", 3),
        ("F", 4),
        ("G", 5),
        ("H", 6),
        ("I", 7),
        ("J", 9),
    ];
    for (letter, count) in letters {
        cases.both(letter, &day[..count]);
    }
    for (name, volume) in [("K-71", 71), ("K-70", 70)] {
        let mut messages = until_f();
        messages.push(execute(5, 1002, 1_235_000, volume));
        cases.both(name, &messages);
    }
    marked_line(cases);
}

/// Case L stands in place 57 of its file: 54 messages of another symbol come first.
fn marked_line(cases: &mut Cases) {
    let marked = add(3, 1001, BUY, 1_234_500, 200);
    let mut messages: Vec<Message> = (1..=54).map(|number| on(8, retail(number))).collect();
    messages.extend([retail(1), retail(2), marked]);
    cases.feed("L", &messages);
    cases.calls_on_abc("L", |calls| {
        for room in [60, 61, 59, 0, 111] {
            calls.line(125, 57, 34_200, room, &feed(&[marked]));
        }
    });
}
