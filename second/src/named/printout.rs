//! Corners of the program: places, the end of the file, the last quote, parts.

use super::full::adds;
use super::Cases;
use crate::make::messages::*;

/// A message of a type outside the table, of that size.
pub fn unknown(size: u16) -> Vec<u8> {
    let mut bytes = vec![0x5A; usize::from(size)];
    bytes[..2].copy_from_slice(&size.to_le_bytes());
    bytes[2..4].copy_from_slice(&999_u16.to_le_bytes());
    bytes
}

/// One add, so that a quote shows that the end was reached.
fn one_add() -> Vec<u8> {
    feed(&[add(1, 1, BUY, 1_234_500, 250)])
}

pub fn add_to(cases: &mut Cases) {
    quotes(cases);
    ends(cases);
    places(cases);
    parts(cases);
}

fn quotes(cases: &mut Cases) {
    cases.both("a-bid-alone", &[add(1, 1, BUY, 1_234_500, 250)]);
    cases.both("an-ask-alone", &[add(1, 1, SELL, 7, 8)]);
    cases.both(
        "price-0-is-a-price",
        &[add(1, 1, BUY, 0, 10), add(2, 2, SELL, 0, 20)],
    );
    cases.both(
        "the-largest-price-and-volume",
        &[
            add(1, 1, BUY, u32::MAX, u32::MAX),
            add(2, 2, SELL, u32::MAX, u32::MAX),
        ],
    );
    cases.both(
        "sizes-past-32-bits",
        &[
            add(1, 1, SELL, 5, u32::MAX),
            add(2, 2, SELL, 5, 1),
            add(3, 3, SELL, 5, u32::MAX),
            add(4, 4, BUY, 4, u32::MAX),
            add(5, 5, BUY, 4, 2),
        ],
    );
    cases.both(
        "a-crossed-book-is-quoted-as-it-is",
        &[add(1, 1, BUY, 2000, 10), add(2, 2, SELL, 1000, 20)],
    );
    cases.both(
        "the-highest-buy-and-the-lowest-sell",
        &[
            add(1, 1, BUY, 1000, 1),
            add(2, 2, BUY, 1002, 2),
            add(3, 3, BUY, 1001, 4),
            add(4, 4, SELL, 2002, 8),
            add(5, 5, SELL, 2000, 16),
            add(6, 6, SELL, 2001, 32),
            delete(7, 2),
            delete(8, 5),
        ],
    );
}

fn ends(cases: &mut Cases) {
    let stray: [(&str, &[u8]); 12] = [
        ("end-with-1-stray-byte", &[0xFF]),
        ("end-with-2-stray-bytes", &[0xFF, 0xFF]),
        ("end-with-3-stray-bytes", &[0xFF, 0xFF, 0xFF]),
        ("end-with-size-3-in-2-bytes", &[3, 0]),
        ("end-with-size-3-in-3-bytes", &[3, 0, 100]),
        ("end-with-size-3", &[3, 0, 100, 0]),
        ("end-with-size-2", &[2, 0, 0xFF, 0xFF]),
        ("end-with-size-1", &[1, 0, 0, 0]),
        ("end-with-size-0", &[0, 0, 0, 0]),
        ("end-with-size-beyond-the-rest", &[40, 0, 100, 0, 1, 2]),
        ("end-with-unknown-type-beyond-the-rest", &[5, 0, 0xE7, 3]),
        ("end-with-size-65535", &[0xFF, 0xFF, 0x64, 0]),
    ];
    for (name, bytes) in stray {
        cases.feed_bytes(name, [&one_add(), bytes].concat());
    }
    cases.feed_bytes(
        "nothing-is-read-after-a-size-below-4",
        [
            one_add(),
            vec![3, 0, 100, 0],
            feed(&[add(2, 2, BUY, 1_234_500, 50), delete(9, 9)]),
        ]
        .concat(),
    );
    let uncut = one_add();
    for length in [1, 3, 4, 20, 38] {
        cases.feed_bytes(
            &format!("cut-after-{length}-bytes"),
            uncut[..length].to_vec(),
        );
    }
}

fn places(cases: &mut Cases) {
    // Every message that is passed over uses a place, whatever its answer.
    let mut bytes = feed(&[cross(1, 1, 1000, 10)]);
    bytes.extend(unknown(4));
    bytes.extend([5, 0, 100, 0, 0]);
    bytes.extend(feed(&[
        cross(2, 2, 1000, 10),
        on(8, cross(2, 2, 1000, 10)),
        add(3, 1, b'b', 1000, 10),
        cross(1, 2, 1000, 10),
        cross(3, 3, 1000, 10),
        delete(4, 1),
        cross(5, 3, 1000, 10),
        clear(5),
        cross(5, 3, 1000, 0),
        cross(7, 3, 1000, 0),
    ]));
    cases.feed_bytes("every-passed-message-uses-a-place", bytes);
    let mut seconds = imbalance(2);
    if let crate::wire::Body::Imbalance { seconds, .. } = &mut seconds.body {
        *seconds = 5;
    }
    cases.feed(
        "the-own-seconds-of-a-message-are-not-used",
        &[
            add(1, 1, BUY, 1000, 10),
            seconds,
            at(999_999_999, cross(3, 1, 1000, 10)),
        ],
    );
}

fn parts(cases: &mut Cases) {
    // An unknown message of each size moves a good one across the end of the first part.
    for before in [65_535, 65_534, 65_533, 65_532, 65_520, 65_497, 65_498] {
        cases.feed_bytes(
            &format!("a-message-across-the-part-from-{before}"),
            [unknown(before), one_add(), feed(&[delete(2, 1)])].concat(),
        );
    }
    cases.feed_bytes(
        "three-messages-of-65535-bytes",
        [
            unknown(65_535),
            unknown(65_535),
            one_add(),
            unknown(65_535),
            vec![1],
        ]
        .concat(),
    );
    cases.feed_bytes(
        "a-message-of-65535-bytes-cut-by-one",
        [unknown(4), unknown(65_535)[..65_534].to_vec()].concat(),
    );
    // A part holds 16,384 messages of four bytes, and their refusals have more bytes than a part.
    for before in [4_095, 4_096, 4_097, 8_192, 16_383, 16_384, 20_000] {
        cases.feed_bytes(
            &format!("{before}-small-messages-before-a-good-one"),
            [unknown(4).repeat(before), one_add(), feed(&[delete(2, 1)])].concat(),
        );
    }
    let mut many = adds(256);
    for number in 257..=4000 {
        let order = u64::from(number % 256) + 1;
        many.push(modify(number, order, BUY, 1000 + number % 7, number));
    }
    cases.feed("four-thousand-messages", &many);
    let mut bytes = feed(&many);
    bytes.truncate(131_072 - 2);
    bytes.extend([2, 0]);
    cases.feed_bytes("an-end-at-the-end-of-a-part", bytes);
}
