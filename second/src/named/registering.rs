//! Corners of registering, and what symbols have to do with each other.

use super::Cases;
use crate::make::messages::*;

pub fn add_to(cases: &mut Cases) {
    names(cases);
    refusals(cases);
    isolation(cases);
    cases.calls("a-symbol-registered-late-expects-1", |calls| {
        calls.step_messages(&[add(1, 1, BUY, 1000, 10)]);
        calls.register(ABC, 4, b"ABC");
        calls.step_messages(&[add(2, 2, BUY, 1000, 10)]);
        calls.quote(ABC);
        calls.volume(ABC);
    });
    cases.calls("a-new-state-has-no-symbol", |calls| {
        calls.register(ABC, 4, b"ABC");
        calls.step_messages(&[add(1, 1, BUY, 1000, 10)]);
        calls.new_state();
        calls.quote(ABC);
        calls.volume(ABC);
        calls.step_messages(&[add(1, 1, BUY, 1000, 10)]);
        calls.register(ABC, 4, b"ABC");
        calls.quote(ABC);
        calls.volume(ABC);
        calls.step_messages(&[add(1, 1, BUY, 1000, 10)]);
        calls.quote(ABC);
    });
}

fn names(cases: &mut Cases) {
    cases.calls("name-lengths", |calls| {
        for (index, length) in [0, 1, 2, 10, 11, 12, 13, 255].into_iter().enumerate() {
            calls.register(index as u32, 0, &vec![b'N'; length]);
        }
    });
    cases.calls("name-bytes", |calls| {
        let bytes = [
            0x00, 0x20, 0x21, 0x2B, 0x2C, 0x2D, 0x7E, 0x7F, 0x80, 0xA1, 0xFF,
        ];
        for (index, byte) in bytes.into_iter().enumerate() {
            calls.register(index as u32, 0, &[byte]);
            calls.register(100 + index as u32, 0, &[b'A', byte, b'C']);
            calls.new_state();
        }
        for place in 0..11 {
            let mut name = *b"ABCDEFGHIJK";
            name[place] = b',';
            calls.register(1, 0, &name);
        }
        calls.register(1, 0, b"ABCDEFGHIJK");
    });
    cases.calls("names-are-printed-as-they-are", |calls| {
        for (index, name) in [&b"!"[..], b"~~~~~~~~~~~", b"A.B\"C'D-E+F"]
            .into_iter()
            .enumerate()
        {
            calls.register(index as u32, 6, name);
            let bytes = feed(&[on(index as u32, add(1, 1, BUY, 1000, 10))]);
            calls.line(0, 1, 0, 111, &bytes);
        }
    });
    cases.calls("scales", |calls| {
        for scale in [0, 6, 7, 8, 255, 1, 2, 3, 4, 5] {
            calls.register(u32::from(scale), scale, b"ABC");
            let bytes = feed(&[on(u32::from(scale), add(1, 1, BUY, 1_234_567, 10))]);
            calls.line(0, 1, 0, 111, &bytes);
        }
    });
}

fn refusals(cases: &mut Cases) {
    cases.calls("a-ninth-symbol", |calls| {
        for index in 0..10 {
            calls.register(index, 0, b"ABC");
        }
        calls.register(0, 0, b"ABC");
        calls.register(8, 7, b"ABC");
        calls.register(8, 0, b"");
        calls.register(0, 7, b"ABC");
        calls.register(0, 0, b"A,C");
        calls.quote(8);
        calls.quote(7);
        calls.step_messages(&[on(8, retail(1)), on(7, retail(1))]);
    });
    cases.calls("pairs-of-faults-in-registering", |calls| {
        calls.register(ABC, 4, b"ABC");
        calls.register(ABC, 4, b"ABC");
        calls.register(ABC, 7, b"ABC");
        calls.register(ABC, 4, b"ABCDEFGHIJKL");
        calls.register(ABC, 255, b"");
        calls.register(8, 7, b"XYZ");
        calls.register(8, 6, b"X Z");
        calls.quote(8);
        calls.register(8, 6, b"XYZ");
        calls.quote(8);
    });
    cases.calls("a-refused-register-changes-nothing", |calls| {
        calls.register(ABC, 4, b"ABC");
        calls.step_messages(&[add(1, 1, BUY, 1000, 10), trade(2, 1, 5, 1)]);
        calls.register(ABC, 2, b"OTHER");
        calls.line(0, 1, 0, 111, &feed(&[add(3, 1, BUY, 1000, 10)]));
        calls.quote(ABC);
        calls.volume(ABC);
        calls.step_messages(&[delete(3, 1)]);
        calls.quote(ABC);
    });
}

fn isolation(cases: &mut Cases) {
    cases.calls("two-indices-with-one-name", |calls| {
        calls.register(1, 4, b"ABC");
        calls.register(2, 2, b"ABC");
        for index in [1, 2] {
            let message = on(index, add(1, 1, BUY, 1000 + index, 10));
            calls.step_messages(&[message]);
            calls.line(0, 1, 0, 111, &feed(&[message]));
        }
        calls.quote(1);
        calls.quote(2);
    });
    cases.calls("symbols-do-not-touch-each-other", |calls| {
        for index in [1, 2, 3] {
            calls.register(index, 4, b"ABC");
            calls.step_messages(&[
                on(index, add(1, 1, BUY, 1000, index)),
                on(index, trade(2, 1, index, 1)),
            ]);
        }
        calls.step_messages(&[
            on(1, delete(3, 1)),
            on(2, retail(9)),
            on(3, cancel(3, 1)),
            on(1, clear(9)),
            on(2, add(3, 9, BUY, 1, 1)),
            on(3, modify(4, 1, BUY, 7, 7)),
            on(4, clear(1)),
        ]);
        for index in [1, 2, 3, 4] {
            calls.quote(index);
            calls.volume(index);
        }
    });
}
