//! The conditions that each market lists: request M-107, written down here once more from source
//! 001, with source 003's letters.

use second::answer::Refusal;
use second::make::bad_fields::{spoiled, Bad};
use second::make::messages::{feed, print_execute, trade, under, ABC};
use second::probe::probe;
use second::reader::Reader;
use second::vectors;
use second::wire::{read, write, Market, Message};

/// Market ID, and the bytes that are good in each of the four positions.
const TABLE: [(u8, Market, [&str; 4]); 5] = [
    (1, Market::Nyse, ["@", " FO56", " TUZ", " I"]),
    (3, Market::Arca, ["@", " FO56", " TUZ", " I"]),
    (9, Market::American, ["@", " FO56", " TUZ", " I"]),
    (10, Market::National, ["@", " F", " TUZ", " I"]),
    (11, Market::Texas, ["@C", " F7", " TUZ", " IV"]),
];

/// A 103 and a 110 that every market takes, each with the offset of its first condition.
fn both_types() -> [(Message, usize); 2] {
    [
        (print_execute(1, 1, 1, 1000, 10), 38),
        (trade(1, 1, 10, 1), 29),
    ]
}

/// Calls `test` with every byte in every position of both types on every market, and with the
/// refusal that is expected.
fn for_every_code(test: impl Fn(Market, Message, (usize, u8), Option<Refusal>)) {
    for (_, market, lists) in TABLE {
        for (message, first) in both_types() {
            for (position, list) in lists.iter().enumerate() {
                for code in 0..=255_u8 {
                    let refusal = Refusal::Field {
                        offset: first + position,
                    };
                    let expected = (!list.as_bytes().contains(&code)).then_some(refusal);
                    test(market, message, (position, code), expected);
                }
            }
        }
    }
}

fn with_condition(message: Message, (position, code): (usize, u8)) -> Message {
    let mut conditions = *b"@   ";
    conditions[position] = code;
    under(conditions, message)
}

#[test]
fn reading_takes_what_is_listed_and_nothing_else() {
    for_every_code(|market, message, place, expected| {
        let message = with_condition(message, place);
        let bytes = feed(&[message]);
        let result = expected.map_or(Ok(message), Err);
        let read = read(market, &bytes, 0);
        assert_eq!(read, (bytes.len(), result), "{market:?} {place:?}");
    });
}

#[test]
fn writing_takes_what_is_listed_and_nothing_else() {
    for_every_code(|market, message, place, expected| {
        let message = with_condition(message, place);
        let mut out = [0xAA; 64];
        let written = write(market, &message, &mut out);
        match expected {
            Some(refusal) => {
                assert_eq!(written, Err(refusal), "{market:?} {place:?}");
                assert_eq!(out, [0xAA; 64]);
            }
            None => {
                let bytes = feed(&[message]);
                assert_eq!(written, Ok(bytes.len()), "{market:?} {place:?}");
                assert_eq!(out[..bytes.len()], bytes);
            }
        }
    });
}

/// The symbol is not registered, so that what reads answers 5.
#[test]
fn a_step_goes_by_the_market_of_its_state() {
    for_every_code(|market, message, place, expected| {
        let bytes = feed(&[with_condition(message, place)]);
        let answer = expected.unwrap_or(Refusal::Symbol);
        let stepped = Reader::new(market).step(&bytes, 0);
        assert_eq!(stepped, (bytes.len(), Err(answer)), "{market:?} {place:?}");
    });
}

/// Four bytes that are good alone are good together.
#[test]
fn every_four_listed_codes_are_good_together() {
    for (_, market, [first, second, third, fourth]) in TABLE {
        for (message, _) in both_types() {
            for one in first.bytes() {
                for two in second.bytes() {
                    for three in third.bytes() {
                        for four in fourth.bytes() {
                            let message = under([one, two, three, four], message);
                            let bytes = feed(&[message]);
                            assert_eq!(read(market, &bytes, 0).1, Ok(message), "{market:?}");
                        }
                    }
                }
            }
        }
    }
}

/// The first of several bad conditions is told.
#[test]
fn every_set_of_bad_conditions_names_its_first() {
    for (_, market, _) in TABLE {
        for (message, first) in both_types() {
            for members in 1..16_usize {
                let set = (0..4).filter(|position| members & (1 << position) != 0);
                let values: Vec<Bad> = set.map(|position| Bad::Condition(position, b'~')).collect();
                let bytes = feed(&[spoiled(message, &values)]);
                let offset = first + members.trailing_zeros() as usize;
                let refusal = Refusal::Field { offset };
                assert_eq!(read(market, &bytes, 0).1, Err(refusal), "{market:?}");
            }
        }
    }
}

#[test]
fn a_state_keeps_its_market() {
    for (_, market, _) in TABLE {
        let mut reader = Reader::new(market);
        assert_eq!(reader.register(ABC, 4, b"ABC"), Ok(()));
        let cash = feed(&[under(*b"C   ", trade(1, 1, 10, 1))]);
        let answers: Vec<_> = (0..2).map(|_| reader.step(&cash, 0).1.err()).collect();
        let bad = Some(Refusal::Field { offset: 29 });
        let expected = match market {
            Market::Texas => [None, Some(Refusal::Low)],
            _ => [bad, bad],
        };
        assert_eq!(answers, expected, "{market:?}");
    }
}

/// In the probe, and in both calls of the vectors that name a market.
#[test]
fn only_five_numbers_name_a_market() {
    let read = format!("D,3,{}\n", "00".repeat(53));
    for id in 0..=255_u8 {
        let row = TABLE.iter().find(|(known, _, _)| *known == id);
        let market = row.map(|(_, market, _)| *market);
        assert_eq!(Market::of_id(id), market, "{id}");
        // A message of no type, and a 114 that is written into no room.
        let unread = [b'D', id, 4, 0, 4, 0, 0, 0];
        let unwritten = [&[b'M', id, 114, 0][..], &[0; 102]].concat();
        let [told, read, written] = match market {
            Some(_) => ["M\nN\n", &read, "M,15,0,\n"],
            None => ["?\n"; 3],
        };
        assert_eq!(probe(&[b'M', id, b'N']), told, "{id}");
        assert_eq!(vectors::answers(&unread), read, "{id}");
        assert_eq!(vectors::answers(&unwritten), written, "{id}");
    }
}
