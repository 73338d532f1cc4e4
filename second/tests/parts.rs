//! The printout does not depend on how the file is cut into parts.

use std::io::{self, Read};

use second::answer::Refusal;
use second::line::{line_text, price_text};
use second::make::feeds::{feed, FEED_KINDS};
use second::make::random::Random;
use second::program::{new_reader, painterend};
use second::wire::{Body, Message};

/// Gives its bytes in pieces, and an interruption now and then.
struct Pieces<'a> {
    rest: &'a [u8],
    random: Random,
    largest: usize,
}

impl Read for Pieces<'_> {
    fn read(&mut self, room: &mut [u8]) -> io::Result<usize> {
        if self.random.one_in(10) {
            return Err(io::ErrorKind::Interrupted.into());
        }
        let count = (1 + self.random.below(self.largest))
            .min(room.len())
            .min(self.rest.len());
        let (now, rest) = self.rest.split_at(count);
        room[..count].copy_from_slice(now);
        self.rest = rest;
        Ok(count)
    }
}

/// The printout of the file as one slice.
fn of_one_slice(bytes: &[u8]) -> String {
    let mut reader = new_reader();
    let mut page = String::new();
    let (mut at, mut place) = (0, 0_u32);
    loop {
        let (next, done) = reader.step(bytes, at);
        match done {
            Err(refusal) if next == at => {
                page += &format!("E,{}\n", refusal.number());
                break;
            }
            Err(Refusal::Field { offset }) => {
                place += 1;
                page += &format!("R,4,{place},{offset}\n");
            }
            Err(refusal) => {
                place += 1;
                page += &format!("R,{},{place}\n", refusal.number());
            }
            Ok(message) => {
                place += 1;
                page += &line_of(&message, place);
            }
        }
        at = next;
    }
    match reader.quote(7) {
        Err(refusal) => page += &format!("Q,{}\n", refusal.number()),
        Ok(quote) => {
            page.push('Q');
            for level in [quote.bid, quote.ask] {
                let text =
                    level.map(|level| format!("{},{}", price_text(level.price, 4), level.size));
                page += &format!(",{}", text.unwrap_or(",".to_string()));
            }
            page.push('\n');
        }
    }
    page
}

fn line_of(message: &Message, place: u32) -> String {
    match message.body {
        Body::Add { .. } | Body::Cross { .. } => {
            let text = line_text(&new_reader(), message, place, 34_200);
            String::from_utf8(text.expect("a done message has a line")).expect("a line is ASCII")
        }
        _ => String::new(),
    }
}

#[test]
fn pieces_of_any_length_print_the_same_page() {
    for (name, kind) in FEED_KINDS {
        for seed in 0..6 {
            let bytes = feed(seed, kind, 120);
            let expected = of_one_slice(&bytes);
            for largest in [1_000_000, 70_000, 5_000, 100, 3] {
                let mut pieces = Pieces {
                    rest: &bytes,
                    random: Random::new(seed, "pieces"),
                    largest,
                };
                let mut page = Vec::new();
                painterend(&mut pieces, &mut page).expect("pieces are read to their end");
                assert!(page == expected.as_bytes(), "{name} {seed} {largest}");
            }
        }
    }
}

#[test]
fn a_failed_read_prints_no_end_and_no_quote() {
    struct Failing;
    impl Read for Failing {
        fn read(&mut self, _: &mut [u8]) -> io::Result<usize> {
            Err(io::Error::other("no disk"))
        }
    }
    let mut page = Vec::new();
    assert!(painterend(&mut Failing, &mut page).is_err());
    assert!(page.is_empty());
}
