//! Which bad field a refusal names: requests M-111 and M-107. Every number expected here was copied
//! by hand from document 01's table; none is asked of the program.

use second::answer::Refusal;
use second::line::line;
use second::make::bad_fields::{spoiled, Bad};
use second::program::new_reader;
use second::wire::{read, write, Market};

/// A field's good bytes, its bad ones, and how to put a bad value into a typed message.
type Values = (&'static [u8], &'static [u8], Bad);
/// Where a field starts, and its values.
type Field = (usize, Values);

const TIME: Values = (
    &999_999_999_u32.to_le_bytes(),
    &1_000_000_000_u32.to_le_bytes(),
    Bad::Nanoseconds(1_000_000_000),
);
const VOLUME: Values = (&[0, 0, 0, 1], &[0, 0, 0, 0], Bad::Volume);
const FLAG: Values = (&[1], &[2], Bad::Flag(2));
const SIDE: Values = (b"S", b"s", Bad::Side(b's'));
const FIRST: Values = (b"@", b"C", Bad::Condition(0, b'C'));
const SECOND: Values = (b"6", b"7", Bad::Condition(1, b'7'));
const THIRD: Values = (b" ", b"\0", Bad::Condition(2, 0));
const FOURTH: Values = (b"I", b"l", Bad::Condition(3, b'l'));

/// Type, size, and the offset of each field that has a rule.
const TABLE: [(u16, usize, &[Field]); 13] = [
    (100, 39, &[(4, TIME), (28, VOLUME), (32, SIDE)]),
    (101, 35, &[(4, TIME), (28, VOLUME), (32, FLAG), (33, SIDE)]),
    (102, 25, &[(4, TIME)]),
    (
        103,
        42,
        &[
            (4, TIME),
            (32, VOLUME),
            (36, FLAG),
            (38, FIRST),
            (39, SECOND),
            (40, THIRD),
            (41, FOURTH),
        ],
    ),
    (104, 42, &[(4, TIME), (36, VOLUME), (40, SIDE)]),
    (105, 73, &[(8, TIME)]),
    (
        110,
        33,
        &[
            (4, TIME),
            (24, VOLUME),
            (28, FLAG),
            (29, FIRST),
            (30, SECOND),
            (31, THIRD),
            (32, FOURTH),
        ],
    ),
    (111, 29, &[(4, TIME)]),
    (112, 20, &[(4, TIME)]),
    (113, 24, &[(4, TIME)]),
    (114, 17, &[(4, TIME)]),
    (32, 20, &[(8, TIME)]),
    (34, 46, &[(8, TIME)]),
];

/// A message of NYSE with good values where there is a rule, and bytes that would be bad everywhere
/// else.
fn good(kind: u16, size: usize, fields: &[Field]) -> Vec<u8> {
    let mut bytes = vec![0xFF; size];
    put(&mut bytes, 0, &(size as u16).to_le_bytes());
    put(&mut bytes, 2, &kind.to_le_bytes());
    for (offset, (good, _, _)) in fields {
        put(&mut bytes, *offset, good);
    }
    bytes
}

fn put(bytes: &mut [u8], at: usize, value: &[u8]) {
    bytes[at..at + value.len()].copy_from_slice(value);
}

/// Calls `test` with the good bytes of each type and with every set of its fields, none left out
/// but the empty one.
fn for_every_set(test: impl Fn(&[u8], &[Field])) {
    for (kind, size, fields) in TABLE {
        let good = good(kind, size, fields);
        for members in 1..1 << fields.len() {
            let numbered = fields.iter().enumerate();
            let set: Vec<_> = numbered
                .filter(|(place, _)| members & (1 << place) != 0)
                .map(|(_, field)| *field)
                .collect();
            test(&good, &set);
        }
    }
}

/// The fields of a row stand in the order of their offsets.
fn refused(set: &[Field]) -> Refusal {
    Refusal::Field { offset: set[0].0 }
}

#[test]
fn reading_and_stepping_name_the_lowest_offset() {
    for_every_set(|good, set| {
        let mut bytes = good.to_vec();
        for (offset, (_, bad, _)) in set {
            put(&mut bytes, *offset, bad);
        }
        let expected = (bytes.len(), Err(refused(set)));
        assert_eq!(read(Market::Nyse, &bytes, 0), expected, "{bytes:02x?}");
        assert_eq!(new_reader().step(&bytes, 0), expected, "{bytes:02x?}");
    });
}

#[test]
fn writing_and_the_line_name_the_lowest_offset() {
    for_every_set(|good, set| {
        let message = read(Market::Nyse, good, 0).1.expect("every field is good");
        let values: Vec<Bad> = set.iter().map(|(_, (_, _, bad))| *bad).collect();
        let message = spoiled(message, &values);
        let mut out = [0xAA; 128];
        assert_eq!(write(Market::Nyse, &message, &mut out), Err(refused(set)));
        // A line's type is checked before its fields, and they before the symbol and the second.
        let expected = match good[2] {
            100 | 111 => refused(set),
            _ => Refusal::Type,
        };
        let line = line(&new_reader(), &message, 1, 86_400, &mut out);
        assert_eq!(line, Err(expected));
        assert_eq!(out, [0xAA; 128]);
    });
}
