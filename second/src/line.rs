//! TAQ lines of types 100 and 111: document 01, "The TAQ page", and source 003, sections 5 and 13.

use std::fmt::Write;

use crate::answer::Refusal;
use crate::reader::Reader;
use crate::wire::{Body, Message};

/// The last second of a day.
pub(crate) const LAST_SECOND: u32 = 86_399;

/// Writes the line at the start of `out` and hands back its length, the line feed counted.
/// The checks: type (3), fields (4), symbol (5), second (14), room (15).
pub fn line(
    reader: &Reader,
    message: &Message,
    sequence: u32,
    second: u32,
    out: &mut [u8],
) -> Result<usize, Refusal> {
    let text = line_text(reader, message, sequence, second)?;
    out.get_mut(..text.len())
        .ok_or(Refusal::Room)?
        .copy_from_slice(&text);
    Ok(text.len())
}

/// The line itself, whatever the room.
pub fn line_text(
    reader: &Reader,
    message: &Message,
    sequence: u32,
    second: u32,
) -> Result<Vec<u8>, Refusal> {
    if !matches!(message.body, Body::Add { .. } | Body::Cross { .. }) {
        return Err(Refusal::Type);
    }
    message.check(reader.market())?;
    let symbol = reader.symbol(message.index).ok_or(Refusal::Symbol)?;
    if second > LAST_SECOND {
        return Err(Refusal::Second);
    }
    let mut text = format!(
        "{},{},{:02}:{:02}:{:02}.{:09},",
        message.kind(),
        sequence,
        second / 3600,
        second / 60 % 60,
        second % 60,
        message.nanoseconds
    );
    // A name holds no byte outside ASCII, nor does any other column.
    text.extend(symbol.name.iter().map(|&byte| char::from(byte)));
    let _ = write!(text, ",{},", message.number);
    match message.body {
        Body::Add {
            order,
            price,
            volume,
            side,
            firm,
        } => {
            let price = price_text(price, symbol.scale);
            let _ = write!(text, "{order},{price},{volume},{},", char::from(side));
            text.extend(firm.map(text_char));
            text.push_str(",0");
        }
        Body::Cross {
            cross,
            price,
            volume,
            cross_type,
        } => {
            let price = price_text(price, symbol.scale);
            let _ = write!(text, "{cross},{price},{volume},{}", text_char(cross_type));
        }
        _ => return Err(Refusal::Type),
    }
    text.push('\n');
    Ok(text.into_bytes())
}

/// A price with exactly `scale` digits after the point, and no point without digits after it.
pub fn price_text(price: u32, scale: u8) -> String {
    if scale == 0 {
        return price.to_string();
    }
    let unit = 10_u32.pow(u32::from(scale));
    let width = usize::from(scale);
    format!("{}.{:0width$}", price / unit, price % unit)
}

/// A byte of a firm or a cross type as it stands on a line.
fn text_char(byte: u8) -> char {
    match byte {
        b',' => ' ',
        0x21..=0x7E => char::from(byte),
        _ => ' ',
    }
}
