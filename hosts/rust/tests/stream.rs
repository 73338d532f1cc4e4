//! A run is the same as one message after the other, over made streams of eight symbols with losses
//! and damage, wherever the stream is cut.

mod common;

use common::{hosted, message, with, Symbol, BUY, NANOSECONDS_TOP, REGULAR, SELL};
use painterend::{Book, Ended, NYSE};

/// As many orders as a symbol holds.
const FULL: u32 = 256;

/// The eight registered symbols, and one that is not.
const SYMBOLS: [u32; 9] = [0, 1, 2, 7, 8, 255, 65_536, u32::MAX, 9];

fn full_house() -> Book {
    let mut book = Book::new(NYSE).expect("a book of NYSE");
    for index in &SYMBOLS[..8] {
        assert_eq!(book.register(*index, b"SYMBOL", 2), 0);
    }
    book
}

/// Numbers that look like chance, the same for a seed (splitmix64).
struct Chance(u64);

impl Chance {
    fn below(&mut self, bound: u64) -> u64 {
        self.0 = self.0.wrapping_add(0x9E37_79B9_7F4A_7C15);
        let mut mixed = self.0;
        mixed = (mixed ^ (mixed >> 30)).wrapping_mul(0xBF58_476D_1CE4_E5B9);
        mixed = (mixed ^ (mixed >> 27)).wrapping_mul(0x94D0_49BB_1331_11EB);
        (mixed ^ (mixed >> 31)) % bound
    }

    fn small(&mut self, bound: u32) -> u32 {
        self.below(u64::from(bound)) as u32
    }
}

/// One symbol's part of a made day: the next number, the orders that are live, how many crosses there
/// were, and whether something was lost, after which a clear comes soon.
struct Maker {
    symbol: Symbol,
    next: u32,
    orders: u64,
    live: Vec<(u64, u8)>,
    crosses: u32,
    lost: bool,
}

impl Maker {
    fn new(index: u32) -> Maker {
        Maker {
            symbol: Symbol { index },
            next: 1,
            orders: 0,
            live: Vec::new(),
            crosses: 0,
            lost: false,
        }
    }

    fn message(&mut self, chance: &mut Chance) -> Vec<u8> {
        let (symbol, number) = (self.symbol, self.next);
        self.next += 1;
        match chance.below(100) {
            0 => self.clear(chance),
            1..=9 if self.lost => self.clear(chance),
            1 => {
                self.lost = true;
                symbol.delete(number, 0)
            }
            2..=5 => symbol.trade(number, number, volume(chance), REGULAR),
            6..=7 => symbol.cancel(number, number.saturating_sub(1 + chance.small(9))),
            8..=33 if !self.live.is_empty() => self.met(number, chance),
            34..=43 => self.cross(number, chance),
            44..=48 => symbol.correct(number, self.any_cross(chance), volume(chance)),
            _ => self.add(number, chance),
        }
    }

    /// The adds of a new symbol until its book is full.
    fn opening(&mut self, chance: &mut Chance) -> Vec<u8> {
        self.next = FULL + 1;
        (1..=FULL)
            .flat_map(|number| self.add(number, chance))
            .collect()
    }

    fn clear(&mut self, chance: &mut Chance) -> Vec<u8> {
        self.live.clear();
        self.lost = false;
        self.next -= chance.small(2);
        self.symbol.clear(self.next)
    }

    fn add(&mut self, number: u32, chance: &mut Chance) -> Vec<u8> {
        let (order, side) = (self.fresh(), if chance.below(2) == 0 { BUY } else { SELL });
        self.live.push((order, side));
        self.symbol
            .add(number, order, side, price(chance), volume(chance))
    }

    /// One in twenty repeats a number.
    fn cross(&mut self, number: u32, chance: &mut Chance) -> Vec<u8> {
        let cross = if chance.below(20) == 0 {
            self.any_cross(chance)
        } else {
            self.crosses += 1;
            self.crosses
        };
        self.symbol.cross(number, cross, volume(chance))
    }

    /// A cross that there was, or the next.
    fn any_cross(&self, chance: &mut Chance) -> u32 {
        1 + chance.small(self.crosses + 1)
    }

    /// A message that meets a live order.
    fn met(&mut self, number: u32, chance: &mut Chance) -> Vec<u8> {
        let place = chance.below(self.live.len() as u64) as usize;
        let (order, side) = self.live[place];
        match chance.below(5) {
            0 => self
                .symbol
                .modify(number, order, side, price(chance), volume(chance)),
            1..=2 => self.symbol.execute(number, order, price(chance), 1, 1),
            3 => {
                self.live[place].0 = self.fresh();
                self.symbol.replace(
                    number,
                    order,
                    self.live[place].0,
                    side,
                    price(chance),
                    volume(chance),
                )
            }
            _ => {
                self.live.swap_remove(place);
                self.symbol.delete(number, order)
            }
        }
    }

    /// An order's number that was not used before; 0 never is.
    fn fresh(&mut self) -> u64 {
        self.orders += 1;
        self.orders << (self.orders % 3 * 20)
    }
}

/// Few prices, so that levels have several orders.
fn price(chance: &mut Chance) -> u32 {
    100 + chance.small(5)
}

fn volume(chance: &mut Chance) -> u32 {
    100 + chance.small(50)
}

/// A made day: the first symbol's book is filled, and so many messages follow. Now and then one of
/// these is lost, comes twice or is damaged.
fn stream(seed: u64, count: usize) -> Vec<u8> {
    let mut chance = Chance(seed);
    let mut makers = SYMBOLS.map(Maker::new);
    let mut bytes = makers[0].opening(&mut chance);
    for _ in 0..count {
        let place = chance.below(makers.len() as u64) as usize;
        let maker = &mut makers[place];
        let made = maker.message(&mut chance);
        let fate = chance.below(150);
        maker.lost |= fate <= 1;
        match fate {
            0 => {}
            1 => bytes.extend(damaged(&mut chance, made)),
            2 => bytes.extend([&made[..], &made].concat()),
            _ => bytes.extend(made),
        }
    }
    bytes
}

/// An unknown type, a size that its type has not, nanoseconds beyond a second (of a clear: another
/// second), or another bit somewhere. The size is right for the stream to go on.
fn damaged(chance: &mut Chance, mut made: Vec<u8>) -> Vec<u8> {
    match chance.below(5) {
        0 => message(chance.small(30) as u16, &[&made]),
        1 => message(100 + chance.small(5) as u16, &[&made]),
        2 => with(made, NANOSECONDS_TOP, 0xFF),
        _ => {
            let place = 2 + chance.below(made.len() as u64 - 2) as usize;
            made[place] ^= 1 << chance.below(8);
            made
        }
    }
}

/// The run, made of single messages, with how often each number was answered.
fn one_by_one(book: &mut Book, bytes: &[u8], answers: &mut [usize; 11]) -> Ended {
    let mut at = 0;
    loop {
        let passed = book.apply(&bytes[at..]);
        if passed.stops {
            assert_eq!(passed.at, 0);
            return Ended {
                at,
                answer: passed.answer,
            };
        }
        answers[usize::from(passed.answer)] += 1;
        at += passed.at;
    }
}

fn assert_alike(one: &Book, other: &Book) {
    for index in SYMBOLS {
        assert_eq!(one.quote(index), other.quote(index));
        assert_eq!(one.volume(index), other.volume(index));
    }
}

/// Whether a symbol keeps as many crosses as it can. A copy is asked: the clear leaves them there, and
/// a cross of a number that no other has is kept where there is room.
fn is_full_of_crosses(book: &Book, index: u32) -> bool {
    let (symbol, mut book) = (Symbol { index }, book.clone());
    let before = book.volume(index).shares;
    assert_eq!(book.apply(&symbol.clear(1)).answer, 0);
    assert_eq!(book.apply(&symbol.cross(1, u32::MAX, 1)).answer, 0);
    book.volume(index).shares == before
}

#[test]
fn a_run_is_one_message_after_the_other() {
    hosted(|| {
        let mut answers = [0; 11];
        // how many records end with room for a cross, and how many without
        let mut records = [0; 2];
        for seed in 1..=20usize {
            let bytes = stream(seed as u64, 1500);
            // from a few messages to all of them, the last of a part mostly cut
            let part = 100 + 150 * seed * seed;
            let (mut stepped, mut ran) = (full_house(), full_house());
            let mut at = 0;
            while at < bytes.len() {
                let end = bytes.len().min(at + part);
                let ended = ran.run(&bytes[at..end]);
                assert_eq!(
                    one_by_one(&mut stepped, &bytes[at..end], &mut answers),
                    ended
                );
                assert_eq!(ended.answer, 1);
                assert!(ended.at > 0);
                assert_alike(&stepped, &ran);
                at += ended.at;
            }
            for index in &SYMBOLS[..8] {
                records[usize::from(is_full_of_crosses(&ran, *index))] += 1;
            }
        }
        assert!(records.iter().all(|&count| count >= 20), "{records:?}");
        // 1 stops; every other answer to a message comes up
        let missing: Vec<usize> = (0..answers.len())
            .filter(|&answer| answers[answer] == 0)
            .collect();
        assert_eq!(missing, [1], "{answers:?}");
    });
}

#[test]
fn a_run_stops_at_a_size_below_4_or_at_a_cut() {
    hosted(|| {
        let whole = stream(77, 60);
        for (tail, answer) in [
            (&[][..], 1),
            (&[39, 0, 100][..], 1),
            (&[255, 255, 3, 0], 1),
            (&[3, 0, 100, 0], 2),
            (&[0; 9], 2),
        ] {
            let bytes = [&whole[..], tail].concat();
            let (mut stepped, mut ran) = (full_house(), full_house());
            let ended = Ended {
                at: whole.len(),
                answer,
            };
            assert_eq!(ran.run(&bytes), ended);
            assert_eq!(one_by_one(&mut stepped, &bytes, &mut [0; 11]), ended);
            assert_alike(&stepped, &ran);
        }
    });
}

#[test]
fn cut_anywhere_a_stream_comes_to_the_same() {
    hosted(|| {
        let bytes = stream(5, 40);
        let mut whole = full_house();
        assert_eq!(
            whole.run(&bytes),
            Ended {
                at: bytes.len(),
                answer: 1
            }
        );
        for cut in (0..=bytes.len()).step_by(7) {
            let mut book = full_house();
            let first = book.run(&bytes[..cut]);
            let second = book.run(&bytes[first.at..]);
            assert_eq!((first.at + second.at, second.answer), (bytes.len(), 1));
            assert_alike(&book, &whole);
        }
    });
}
