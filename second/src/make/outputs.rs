//! Calls that write a message or a line, into buffers with room and without.

use super::bad_draws::{bad_nanoseconds, with_bad_conditions};
use super::call_maker::Maker;
use super::damage::{damaged, sent};
use crate::line::LAST_SECOND;
use crate::probe::LARGEST_ROOM;
use crate::program::SECOND_OF_DAY;
use crate::wire::message::NANOSECONDS_PER_SECOND;
use crate::wire::write::to_bytes;
use crate::wire::Message;

pub fn push_write(maker: &mut Maker, faults: bool) {
    let index = maker.source.index();
    let message = match maker.random().below(8) {
        0 => maker.source.clear_sample(index),
        1 => maker.source.trade_sample(index),
        _ => maker.source.sample(index),
    };
    let nanoseconds = nanoseconds(maker, faults);
    let room = room(maker, to_bytes(&message).len(), faults);
    let bytes = maybe_broken(maker, &message, faults);
    maker.list.write(nanoseconds, room, &bytes);
}

pub fn push_line(maker: &mut Maker, faults: bool) {
    let message = line_message(maker, faults);
    let nanoseconds = nanoseconds(maker, faults);
    let any = maker.random().u32();
    let sequence = maker.random().pick(&[0, 1, 57, u32::MAX, any]);
    let within = maker.random().u32_below(LAST_SECOND + 1);
    let second = if faults && maker.random().one_in(4) {
        maker
            .random()
            .pick(&[LAST_SECOND + 1, LAST_SECOND + 2, u32::MAX])
    } else {
        maker
            .random()
            .pick(&[0, SECOND_OF_DAY, LAST_SECOND, within])
    };
    let good = Message {
        nanoseconds: 0,
        ..message
    };
    let length = maker
        .source
        .line_length(&good, sequence, second.min(LAST_SECOND));
    let room = room(maker, length, faults);
    let bytes = maybe_broken(maker, &message, faults);
    maker.list.line(nanoseconds, sequence, second, room, &bytes);
}

/// A 100 or a 111; with faults at times another type or a symbol that is not registered.
fn line_message(maker: &mut Maker, faults: bool) -> Message {
    let index = maker.any_index();
    if faults && maker.random().one_in(5) {
        return maker.source.sample(index);
    }
    let any = maker.random().u32();
    let number = maker.random().pick(&[0, 1, u32::MAX, any]);
    let body = if maker.random().one_in(2) {
        maker.source.add_body(index)
    } else {
        maker.source.cross_body(index)
    };
    maker.source.message(index, number, body)
}

fn nanoseconds(maker: &mut Maker, faults: bool) -> u32 {
    if faults && maker.random().one_in(3) {
        return bad_nanoseconds(maker.random());
    }
    let within = maker.random().u32_below(NANOSECONDS_PER_SECOND);
    maker
        .random()
        .pick(&[0, 1, NANOSECONDS_PER_SECOND - 1, within])
}

/// Exact room, one too few, none, or ample.
fn room(maker: &mut Maker, exact: usize, faults: bool) -> usize {
    let short = exact.saturating_sub(1);
    let room = if faults {
        maker.random().pick(&[exact, short, short, 0, LARGEST_ROOM])
    } else {
        maker
            .random()
            .pick(&[exact, exact, short, exact + 1, exact + 20, 128])
    };
    room.min(LARGEST_ROOM)
}

/// The bytes of the message; with faults at times cut short or damaged.
fn maybe_broken(maker: &mut Maker, message: &Message, faults: bool) -> Vec<u8> {
    let mut bytes = sent(message, maker.random());
    match maker.random().below(10) {
        0 if faults => {
            let length = maker.random().below(bytes.len());
            bytes.truncate(length);
            bytes
        }
        1 | 2 if faults => damaged(message, &mut maker.source.draw),
        3 | 4 if faults => to_bytes(&with_bad_conditions(*message, &mut maker.source.draw)),
        _ => bytes,
    }
}
