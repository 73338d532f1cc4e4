//! The readers that are timed, behind one face: the verified reader's.

use std::collections::hash_map::RandomState;
use std::hash::{BuildHasher, BuildHasherDefault};

use bench::feed::REGISTERED;
use bench::ordinary::{self, number, Multiplying};
use painterend::{Book, Ended, Level, Quote, Volume, NYSE};
use second::answer::Refusal;
use second::wire::Market;

const SCALE: u8 = 4;
const NAME: &[u8] = b"ABC";

pub trait Reader {
    fn run(&mut self, bytes: &[u8]) -> Ended;
    fn quote(&self, index: u32) -> Quote;
    fn volume(&self, index: u32) -> Volume;
}

/// A reader by its name on the command line and in the table.
pub struct Timed {
    pub name: &'static str,
    pub title: &'static str,
    /// A new state with the eight symbols registered.
    pub new: fn() -> Box<dyn Reader>,
}

/// The one that others are compared with first, the verified one last.
pub const READERS: [Timed; 4] = [
    Timed {
        name: "hashmap",
        title: "HashMap",
        new: || Box::new(ordinary::Reader::<RandomState>::new(&REGISTERED)),
    },
    Timed {
        name: "multiplying",
        title: "HashMap, multiplying hasher",
        new: || {
            Box::new(ordinary::Reader::<BuildHasherDefault<Multiplying>>::new(
                &REGISTERED,
            ))
        },
    },
    Timed {
        name: "second",
        title: "second's list",
        new: || Box::new(new_second()),
    },
    Timed {
        name: "painterend",
        title: "Painterend",
        new: || Box::new(new_book()),
    },
];

impl<S: BuildHasher + Default> Reader for ordinary::Reader<S> {
    fn run(&mut self, bytes: &[u8]) -> Ended {
        let (at, refused) = ordinary::Reader::run(self, bytes);
        Ended {
            at,
            answer: refused as u8,
        }
    }

    fn quote(&self, index: u32) -> Quote {
        let quote = ordinary::Reader::quote(self, index);
        let answer = number(&quote);
        let level = |ordinary::Level { price, size }| Level { price, size };
        let bid = quote.ok().and_then(|quote| quote.bid).map(level);
        let ask = quote.ok().and_then(|quote| quote.ask).map(level);
        Quote { answer, bid, ask }
    }

    fn volume(&self, index: u32) -> Volume {
        let volume = ordinary::Reader::volume(self, index);
        let answer = number(&volume);
        let (shares, whole) = volume.unwrap_or_default();
        Volume {
            answer,
            shares,
            whole,
        }
    }
}

impl Reader for second::reader::Reader {
    fn run(&mut self, bytes: &[u8]) -> Ended {
        let (at, refusal) = second::reader::Reader::run(self, bytes, 0);
        Ended {
            at,
            answer: refusal.number(),
        }
    }

    fn quote(&self, index: u32) -> Quote {
        let quote = second::reader::Reader::quote(self, index);
        let answer = quote.err().map_or(0, Refusal::number);
        let level = |second::book::Level { price, size }| Level { price, size };
        let bid = quote.ok().and_then(|quote| quote.bid).map(level);
        let ask = quote.ok().and_then(|quote| quote.ask).map(level);
        Quote { answer, bid, ask }
    }

    fn volume(&self, index: u32) -> Volume {
        let volume = second::reader::Reader::volume(self, index);
        let answer = volume.err().map_or(0, Refusal::number);
        let (shares, whole) = volume.unwrap_or_default();
        Volume {
            answer,
            shares,
            whole,
        }
    }
}

impl Reader for Book {
    fn run(&mut self, bytes: &[u8]) -> Ended {
        Book::run(self, bytes)
    }

    fn quote(&self, index: u32) -> Quote {
        Book::quote(self, index)
    }

    fn volume(&self, index: u32) -> Volume {
        Book::volume(self, index)
    }
}

fn new_second() -> second::reader::Reader {
    let mut reader = second::reader::Reader::new(Market::Nyse);
    for index in REGISTERED {
        reader
            .register(index, SCALE, NAME)
            .expect("the symbols are good ones");
    }
    reader
}

fn new_book() -> Book {
    let mut book = Book::new(NYSE).expect("NYSE is a market");
    for index in REGISTERED {
        assert_eq!(book.register(index, NAME, SCALE), 0, "registering {index}");
    }
    book
}
