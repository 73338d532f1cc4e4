//! Feeds of one symbol's record alone: crosses, trades and their changes, with numbers so few that
//! they meet, and behind so many crosses that often no place is left.

use bench::ordinary::KEPT_CROSSES;
use second::make::random::Random;
use second::wire::{write, Body, Market, Message};

const FULL: u32 = KEPT_CROSSES as u32;
/// So many crosses come first.
const FIRST: [u32; 4] = [0, 8, FULL - 1, FULL];
/// Crosses and trades have numbers up to this one.
const NUMBERS: u32 = FULL + 4;
/// How many messages come behind these.
const COUNT: usize = 24;
/// The longest message, a 110.
const LONGEST: usize = 33;

pub fn record_feed(seed: u64, index: u32) -> Vec<u8> {
    let mut random = Random::new(seed, "records");
    let first = random.pick(&FIRST);
    let mut bodies = Vec::new();
    for cross in 1..=first {
        bodies.push(crossed(cross, &mut random));
    }
    for _ in 0..COUNT {
        bodies.push(drawn(first, &mut random));
    }
    let numbered = (1..).zip(bodies);
    numbered
        .flat_map(|(number, body)| {
            let message = Message {
                nanoseconds: 0,
                index,
                number,
                body,
            };
            let mut room = [0; LONGEST];
            let size = write(Market::Nyse, &message, &mut room).expect("a made message is good");
            room[..size].to_vec()
        })
        .collect()
}

/// Most are corrections of a cross that came first; the others may cost the mark.
fn drawn(first: u32, random: &mut Random) -> Body {
    let number = 1 + random.u32_below(NUMBERS);
    match random.below(16) {
        0 => crossed(number, random),
        1 => corrected(number, random),
        2 => Body::Trade {
            trade: number,
            price: random.u32(),
            volume: volume(random).max(1),
            printable: 1,
            conditions: *b"@   ",
        },
        3 => Body::Cancel { trade: number },
        _ if first == 0 => crossed(number, random),
        _ => corrected(1 + random.u32_below(first), random),
    }
}

fn crossed(cross: u32, random: &mut Random) -> Body {
    Body::Cross {
        cross,
        price: random.u32(),
        volume: volume(random),
        cross_type: b'O',
    }
}

fn corrected(cross: u32, random: &mut Random) -> Body {
    let volume = volume(random);
    Body::Correction { cross, volume }
}

fn volume(random: &mut Random) -> u32 {
    let any = random.u32();
    random.pick(&[0, 100, any, u32::MAX])
}
