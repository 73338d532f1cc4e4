//! Vectors of the message layer: calls as bytes, and the text that answers them.

mod answers;
mod condition_cases;
mod hand;
mod hand_cases;
mod raw;
mod read_cases;
mod set_cases;

pub use answers::answers;

/// All calls. The last is an unknown letter, which ends the answers.
pub fn input() -> Vec<u8> {
    let mut calls = Vec::new();
    read_cases::extents(&mut calls);
    read_cases::decodes(&mut calls);
    hand_cases::writes(&mut calls);
    set_cases::sets(&mut calls);
    condition_cases::conditions(&mut calls);
    calls.push(b'Z');
    calls
}

#[cfg(test)]
mod tests {
    use super::hand_cases::{distinct, filled};
    use super::raw::raws;
    use super::{answers, input};
    use crate::cursor::Cursor;
    use crate::wire::bytes::u16_at;
    use crate::wire::{read, write, Market};
    use std::collections::HashSet;

    /// Document 01's table: each type with the offsets of its fields that have a rule.
    const OFFSETS: [(u16, &[usize]); 13] = [
        (100, &[4, 28, 32]),
        (101, &[4, 28, 32, 33]),
        (102, &[4]),
        (103, &[4, 32, 36, 38, 39, 40, 41]),
        (104, &[4, 36, 40]),
        (105, &[8]),
        (110, &[4, 24, 28, 29, 30, 31, 32]),
        (111, &[4]),
        (112, &[4]),
        (113, &[4]),
        (114, &[4]),
        (32, &[8]),
        (34, &[8]),
    ];

    /// The call at the start: its letter, its fixed fields and the bytes that it counts.
    fn taken<'a>(cursor: &mut Cursor<'a>) -> Option<(u8, &'a [u8], &'a [u8])> {
        let letter = cursor.u8()?;
        let (fixed, counts) = match letter {
            b'R' => (2, true),
            b'D' => (1, true),
            b'M' => (105, false),
            _ => (0, false),
        };
        let fields = cursor.bytes(fixed)?;
        let bytes = if counts { cursor.counted()? } else { &[] };
        Some((letter, fields, bytes))
    }

    /// A call that stands twice cannot fail alone.
    #[test]
    fn no_call_stands_twice() {
        let calls = input();
        let mut cursor = Cursor::new(&calls);
        let mut seen = HashSet::new();
        while let Some(call) = taken(&mut cursor) {
            assert!(seen.insert(call), "{call:02x?}");
        }
        assert!(cursor.is_empty());
        assert_eq!(seen.len(), answers(&calls).lines().count());
    }

    /// Each field is the first bad one in some `D` and in some `M`, and no other offset is named.
    #[test]
    fn every_offset_is_named_in_reading_and_in_writing() {
        let calls = input();
        let mut cursor = Cursor::new(&calls);
        let mut named = HashSet::new();
        for line in answers(&calls).lines() {
            let (letter, fields, bytes) = taken(&mut cursor).expect("a line has its call");
            let kind = match letter {
                b'D' => bytes.get(2..4),
                _ => fields.get(1..3),
            };
            if let [_, "4", .., offset] = line.split(',').collect::<Vec<_>>()[..] {
                let kind = kind.map(|kind| u16_at(kind, 0)).expect("a type was read");
                let offset: usize = offset.parse().expect("a line with 4 ends in a number");
                named.insert((letter, kind, offset));
            }
        }
        let mut expected = HashSet::new();
        for (kind, offsets) in OFFSETS {
            for offset in offsets {
                expected.extend([b'D', b'M'].map(|letter| (letter, kind, *offset)));
            }
        }
        assert_eq!(named, expected);
    }

    /// A rule that spoils what is meant to be good would leave the cases made of it without
    /// meaning.
    #[test]
    fn what_is_meant_to_be_good_is_good() {
        for raw in raws() {
            for byte in 0..=255 {
                for bytes in [raw.distinct(byte), raw.filled(byte)] {
                    let (_, message) = read(Market::Nyse, &bytes, 0);
                    assert!(message.is_ok(), "{bytes:02x?}");
                }
            }
            for hand in [
                distinct(raw.kind),
                filled(raw.kind, 0),
                filled(raw.kind, 0xFF),
            ] {
                let message = hand.message().expect("the type is in the table");
                let written = write(hand.market, &message, &mut [0; 128]);
                assert_eq!(written, Ok(raw.size), "{message:?}");
            }
        }
    }

    /// No typed message has a type outside the table, so the writer would not be called.
    #[test]
    fn the_writer_is_never_asked_for_a_type_outside_the_table() {
        assert!(!answers(&input()).contains("M,3,"));
    }

    #[test]
    fn the_file_is_small_and_ends_in_a_question_mark() {
        let calls = input();
        assert!(calls.len() <= 65_536);
        let text = answers(&calls);
        let lines = text.lines().count();
        assert!((700..=1000).contains(&lines), "{lines} lines");
        assert!(text.ends_with("\n?\n"));
        assert_eq!(text.matches('?').count(), 1);
    }
}
