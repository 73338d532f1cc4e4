//! Corners of positions and of runs, and of files that the probe cannot understand.

use super::Cases;
use crate::make::messages::*;
use crate::wire::write::to_bytes;

pub fn add_to(cases: &mut Cases) {
    positions(cases);
    runs(cases);
    misunderstood(cases);
}

fn positions(cases: &mut Cases) {
    cases.calls_on_abc("starts-not-0-and-past-the-end", |calls| {
        let bytes = feed(&[
            add(1, 1, BUY, 1000, 10),
            retail(2),
            delete(3, 1),
            add(4, 2, SELL, 7, 7),
        ]);
        for at in [0, 39, 56, 81, 120, 121, 119, 118, 117, 116, 5000, 65_535, 1] {
            calls.read(at, &bytes);
        }
        for at in [39, 0, 39, 56, 81, 120, 121, 65_535] {
            calls.step(at, &bytes);
            calls.quote(ABC);
        }
        for at in [120, 121, 65_535, 81] {
            calls.run(at, &bytes);
        }
        for at in [0, 1, 65_535] {
            calls.step(at, &[]);
            calls.run(at, &[]);
            calls.read(at, &[]);
        }
    });
    cases.calls_on_abc("each-answer-moves-as-it-should", |calls| {
        let mut wrong_size = feed(&[add(1, 1, BUY, 1, 1)]);
        wrong_size[0] = 38;
        let mut unknown = feed(&[add(1, 1, BUY, 1, 1)]);
        unknown[2] = 106;
        let bytes = [
            &[2, 0, 100, 0][..],
            &[40, 0, 100, 0],
            &wrong_size,
            &unknown,
            &feed(&[add(1, 1, 0, 1, 1)]),
            &feed(&[on(8, add(1, 1, BUY, 1, 1))]),
            &feed(&[add(0, 1, BUY, 1, 1)]),
            &feed(&[add(2, 1, BUY, 1, 1)]),
            &feed(&[add(1, 1, BUY, 1, 1)]),
        ];
        for one in bytes {
            let shifted = [&[9, 9, 9, 9, 9], one].concat();
            calls.read(5, &shifted);
            calls.step(5, &shifted);
        }
    });
}

fn runs(cases: &mut Cases) {
    let good = feed(&[add(1, 1, BUY, 1000, 10), add(2, 2, BUY, 1000, 20)]);
    let ends: [(&str, &[u8]); 6] = [
        ("at-a-message-s-end", &[]),
        ("at-1-stray-byte", &[9]),
        ("at-3-stray-bytes", &[3, 0, 100]),
        ("at-size-3", &[3, 0, 100, 0]),
        ("at-size-0", &[0, 0, 0, 0, 1, 2, 3, 4, 5]),
        ("beyond-the-rest", &[255, 255, 100, 0]),
    ];
    for (name, end) in ends {
        cases.calls_on_abc(&format!("a-run-stops-{name}"), |calls| {
            calls.run(0, &[&good, end].concat());
            calls.quote(ABC);
            calls.run(39, &[&good, end].concat());
        });
    }
    let mut passed_over = vec![vec![4, 0, 0xE7, 3], vec![5, 0, 100, 0, 1]];
    let messages = [
        add(1, 1, 0, 1, 1),
        on(8, retail(1)),
        retail(0),
        retail(1),
        retail(3),
        retail(2),
        clear(2),
        delete(2, 1),
        clear(2),
        add(2, 1, SELL, 5, 5),
    ];
    passed_over.extend(messages.iter().map(to_bytes));
    cases.calls_on_abc("a-run-passes-over-every-other-answer", |calls| {
        calls.run(0, &passed_over.concat());
    });
    cases.calls_on_abc("every-other-answer-one-by-one", |calls| {
        for bytes in &passed_over {
            calls.step(0, bytes);
        }
    });
    cases.calls_on_abc("a-run-of-65535-bytes", |calls| {
        let mut bytes = [4, 0, 0xE7, 3].repeat(16_380);
        bytes.extend([15, 0, 0xE7, 3]);
        bytes.resize(65_535, 0x5A);
        calls.run(0, &bytes);
        calls.run(65_520, &bytes);
        calls.run(65_516, &bytes);
    });
}

fn misunderstood(cases: &mut Cases) {
    cases.calls("no-calls", |_| {});
    cases.calls("an-unknown-letter", |calls| {
        calls.new_state();
        calls.raw(b"q");
        calls.new_state();
    });
    let cut: [(&str, &[u8]); 10] = [
        ("register", &[b'G', 7, 0, 0, 0, 4, 3, b'A', b'B']),
        ("index", &[b'G', 7, 0, 0]),
        ("step", &[b'S', 0, 0, 5, 0, 1, 2, 3, 4]),
        ("run", &[b'X', 0, 0, 1, 0]),
        ("quote", &[b'Q', 7, 0, 0]),
        ("depth", &[b'H', 7, 0, 0]),
        ("volume", b"V"),
        ("read", &[b'D', 0, 0, 0]),
        ("write", &[b'W', 0, 0, 0, 0, 0, 1, 4, 0, 1, 2, 3]),
        (
            "line",
            &[b'L', 0, 0, 0, 0, 0, 0, 0, 0, 0, 0, 0, 0, 0, 0, 1, 0],
        ),
    ];
    for (name, bytes) in cut {
        cases.calls(&format!("a-cut-{name}"), |calls| {
            calls.new_state();
            calls.raw(bytes);
        });
    }
    cases.calls("a-room-of-256-and-257", |calls| {
        calls.write(1, 256, &feed(&[retail(1)]));
        calls.line(1, 1, 1, 256, &feed(&[retail(1)]));
        calls.write(1, 257, &feed(&[retail(1)]));
        calls.new_state();
    });
    cases.calls("a-line-with-a-room-of-257", |calls| {
        calls.line(1, 1, 1, 257, &[]);
    });
    cases.calls("a-file-of-the-largest-length", |calls| {
        for _ in 0..15 {
            calls.read(0, &vec![0; 65_535]);
        }
        let left = crate::probe::LARGEST_FILE - calls.len();
        calls.read(0, &vec![9; left - 10]);
        calls.raw(b"NNNNN");
    });
    cases.calls("a-file-that-is-too-long", |calls| {
        calls.raw(&vec![b'N'; crate::probe::LARGEST_FILE + 1]);
    });
}
