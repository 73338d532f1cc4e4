//! Every answer that a run passes over, and runs that meet no message.

use super::Twice;
use crate::make::messages::*;
use crate::named::Cases;
use crate::wire::write::to_bytes;

/// A 100 of the wrong size, and a message of a type outside the table.
const WRONG_SIZE: [u8; 5] = [5, 0, 100, 0, 1];
const UNKNOWN_TYPE: [u8; 4] = [4, 0, 0xE7, 3];

pub fn add_to(cases: &mut Cases) {
    let bytes = feed(&[add(3, 2, BUY, 1000, 20)]);
    cases.calls_on_abc("runs-of-no-message", |calls| {
        calls.step_messages(&[add(1, 1, BUY, 1000, 10), trade(2, 1, 5, 1)]);
        for bytes in [&[][..], &bytes[..3], &bytes[..4], &bytes[..38]] {
            calls.run(0, bytes);
            calls.step(0, bytes);
        }
        for at in [36, 39, 40, 43, 65_535] {
            calls.run(at, &bytes);
            calls.step(at, &bytes);
        }
        calls.quote(ABC);
        calls.volume(ABC);
        calls.run(0, &bytes);
    });
}

/// Each good message has shares of its own, so that sums tell which were done.
pub fn lists() -> Vec<Twice> {
    let passed_over = vec![
        to_bytes(&add(1, 1, BUY, 1000, 1)),
        WRONG_SIZE.to_vec(),
        to_bytes(&trade(2, 2, 2, 1)),
        UNKNOWN_TYPE.to_vec(),
        to_bytes(&add(3, 3, BUY, 1000, 4)),
        to_bytes(&add(4, 4, b'b', 1000, 8)),
        to_bytes(&trade(4, 4, 8, 1)),
        to_bytes(&on(8, add(5, 5, BUY, 1000, 16))),
        to_bytes(&add(5, 5, BUY, 1000, 16)),
        to_bytes(&add(5, 6, BUY, 1000, 32)),
        to_bytes(&trade(6, 6, 32, 1)),
    ];
    let stale = [
        retail(8),
        add(7, 7, BUY, 1000, 64),
        clear(7),
        add(7, 1, BUY, 1000, 64),
        add(8, 1, BUY, 1000, 128),
        trade(8, 8, 128, 1),
        clear(9),
        add(9, 1, BUY, 1000, 256),
        trade(10, 9, 512, 1),
    ];
    vec![Twice {
        name: "every-answer-between-good-messages".to_string(),
        symbols: vec![ABC],
        groups: vec![passed_over, stale.iter().map(to_bytes).collect()],
    }]
}
