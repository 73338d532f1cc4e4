//! The probe: library calls listed in a file, one line printed for each.

use std::fmt::Write;

use crate::answer::{number, offset_field, Refusal};
use crate::book::Level;
use crate::cursor::{hex, Cursor};
use crate::depth::Row;
use crate::line::line;
use crate::reader::Reader;
use crate::wire::{read, write, Market, Message};

/// A longer file is refused.
pub(crate) const LARGEST_FILE: usize = 1_048_576;
/// A larger buffer is refused.
pub(crate) const LARGEST_ROOM: usize = 256;

/// One line for each call; `?` and the end where the file cannot be understood.
pub fn probe(calls: &[u8]) -> String {
    let mut text = String::new();
    if calls.len() > LARGEST_FILE {
        text.push_str("?\n");
        return text;
    }
    let mut reader = Reader::new(Market::Nyse);
    let mut cursor = Cursor::new(calls);
    while !cursor.is_empty() {
        let Some(line) = call(&mut reader, &mut cursor) else {
            text.push_str("?\n");
            break;
        };
        text.push_str(&line);
        text.push('\n');
    }
    text
}

/// Makes the calls and looks at the state after each.
#[cfg(test)]
pub(crate) fn watch(calls: &[u8], mut look: impl FnMut(&Reader)) {
    let mut reader = Reader::new(Market::Nyse);
    let mut cursor = Cursor::new(calls);
    while !cursor.is_empty() && call(&mut reader, &mut cursor).is_some() {
        look(&reader);
    }
}

/// What a call does: apply a message that reads, or ask for the volume of a symbol.
#[cfg(test)]
pub(crate) enum Deed {
    Apply(Message),
    Ask(u32),
}

/// Makes the calls and looks at each deed, with the state before it.
#[cfg(test)]
pub(crate) fn watch_deeds(calls: &[u8], mut look: impl FnMut(&Reader, Deed)) {
    let mut reader = Reader::new(Market::Nyse);
    let mut cursor = Cursor::new(calls);
    while !cursor.is_empty() {
        let mut fields = cursor.clone();
        let letter = fields.u8();
        if let (Some(b'V'), Some(index)) = (letter, fields.clone().u32()) {
            look(&reader, Deed::Ask(index));
        }
        match (letter, fields.u16().zip(fields.counted())) {
            (Some(b'S' | b'X'), Some((at, stream))) => {
                let mut at = usize::from(at);
                loop {
                    let (next, message) = read(reader.market(), stream, at);
                    if let Ok(message) = message {
                        look(&reader, Deed::Apply(message));
                        let _ = reader.apply(&message);
                    }
                    if next == at || letter == Some(b'S') {
                        break;
                    }
                    at = next;
                }
                cursor = fields;
            }
            _ if call(&mut reader, &mut cursor).is_none() => return,
            _ => {}
        }
    }
}

fn call(reader: &mut Reader, cursor: &mut Cursor) -> Option<String> {
    match cursor.u8()? {
        b'N' => {
            *reader = Reader::new(Market::Nyse);
            Some("N".to_string())
        }
        b'M' => {
            *reader = Reader::new(Market::of_id(cursor.u8()?)?);
            Some("M".to_string())
        }
        b'G' => {
            let index = cursor.u32()?;
            let scale = cursor.u8()?;
            let length = cursor.u8()?;
            let name = cursor.bytes(usize::from(length))?;
            let done = reader.register(index, scale, name);
            Some(format!("G,{}", number(&done)))
        }
        b'S' => {
            let at = usize::from(cursor.u16()?);
            let (next, done) = reader.step(cursor.counted()?, at);
            Some(position_line('S', next, &done))
        }
        b'X' => {
            let at = usize::from(cursor.u16()?);
            let (end, stop) = reader.run(cursor.counted()?, at);
            Some(format!("X,{},{end}", stop.number()))
        }
        b'D' => {
            let at = usize::from(cursor.u16()?);
            let (next, message) = read(reader.market(), cursor.counted()?, at);
            Some(position_line('D', next, &message))
        }
        b'Q' => Some(quote_line(reader, cursor.u32()?)),
        b'H' => Some(depth_line(reader, cursor.u32()?)),
        b'V' => Some(volume_line(reader, cursor.u32()?)),
        b'W' => {
            let nanoseconds = cursor.u32()?;
            let mut buffer = buffer(cursor)?;
            let message = timed(reader.market(), cursor.counted()?, nanoseconds);
            let done = message.map(|message| write(reader.market(), &message, &mut buffer));
            Some(output_line('W', done, &buffer))
        }
        b'L' => {
            let nanoseconds = cursor.u32()?;
            let sequence = cursor.u32()?;
            let second = cursor.u32()?;
            let mut buffer = buffer(cursor)?;
            let message = timed(reader.market(), cursor.counted()?, nanoseconds);
            let done = message.map(|message| line(reader, &message, sequence, second, &mut buffer));
            Some(output_line('L', done, &buffer))
        }
        _ => None,
    }
}

/// A buffer of the call's room, every byte of it marked.
fn buffer(cursor: &mut Cursor) -> Option<Vec<u8>> {
    let room = usize::from(cursor.u16()?);
    (room <= LARGEST_ROOM).then(|| vec![0xAA; room])
}

/// The message at the start of these bytes, with other nanoseconds.
fn timed(market: Market, bytes: &[u8], nanoseconds: u32) -> Result<Message, Refusal> {
    read(market, bytes, 0).1.map(|message| Message {
        nanoseconds,
        ..message
    })
}

/// The answer of a step or a read, and the position after it.
fn position_line(letter: char, next: usize, done: &Result<Message, Refusal>) -> String {
    format!("{letter},{},{next}{}", number(done), offset_field(done))
}

/// The answer of a write or a line, or of the read before it.
fn output_line(
    letter: char,
    done: Result<Result<usize, Refusal>, Refusal>,
    buffer: &[u8],
) -> String {
    match done {
        Ok(done) => {
            let count = done.unwrap_or(0);
            let offset = offset_field(&done);
            format!("{letter},{},{count},{}{offset}", number(&done), hex(buffer))
        }
        Err(refusal) => format!("{letter},{}{}", refusal.number(), refusal.offset_field()),
    }
}

fn quote_line(reader: &Reader, index: u32) -> String {
    let quote = reader.quote(index);
    let mut text = format!("Q,{}", number(&quote));
    let quote = quote.unwrap_or_default();
    for level in [quote.bid, quote.ask] {
        match level {
            Some(Level { price, size }) => {
                let _ = write!(text, ",{price},{size}");
            }
            None => text.push_str(",,"),
        }
    }
    text
}

/// Twenty rows, also where there is no depth.
fn depth_line(reader: &Reader, index: u32) -> String {
    let depth = reader.depth(index);
    let mut text = format!("H,{}", number(&depth));
    let depth = depth.unwrap_or_default();
    for row in depth.bids.into_iter().chain(depth.asks) {
        match row {
            Some(Row {
                price,
                size,
                orders,
            }) => {
                let _ = write!(text, ",{price},{size},{orders}");
            }
            None => text.push_str(",,,"),
        }
    }
    text
}

fn volume_line(reader: &Reader, index: u32) -> String {
    let volume = reader.volume(index);
    let (sum, whole) = volume.unwrap_or((0, false));
    format!("V,{},{sum},{}", number(&volume), u8::from(whole))
}
