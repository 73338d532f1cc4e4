//! The small program: document 01, "What the bureau's reader does", and the offset of a bad field
//! in its refusals: request M-111. Its market is NYSE: request M-107. It shows the levels behind its
//! quote where they are asked for: request M-106.

use std::io::{self, Read, Write};

use crate::answer::Refusal;
use crate::book::Level;
use crate::depth::Row;
use crate::line::{line_text, price_text};
use crate::reader::Reader;
use crate::wire::{Body, Market, Message};

/// A part of the file, what was left of the part before it counted in. The largest message,
/// 65,535 bytes, fits.
pub(crate) const PART: usize = 65_536;

const INDEX: u32 = 7;
const SCALE: u8 = 4;
const NAME: &[u8] = b"ABC";
/// The second of the day that every line has.
pub(crate) const SECOND_OF_DAY: u32 = 34_200;

/// Reads the file in parts and prints its lines, its refusals, the end and the last quote.
pub fn painterend(input: &mut impl Read, output: &mut impl Write) -> io::Result<()> {
    print_page(input, output).map(|_| ())
}

/// The same, and then the levels behind the last quote.
pub fn painterend_levels(input: &mut impl Read, output: &mut impl Write) -> io::Result<()> {
    let reader = print_page(input, output)?;
    print_levels(&reader, output)
}

/// Prints the page and hands back the state at its end.
fn print_page(input: &mut impl Read, output: &mut impl Write) -> io::Result<Reader> {
    let mut reader = new_reader();
    let mut part = vec![0; PART];
    let mut filled = 0;
    let mut place = 0_u64;
    let end = loop {
        let count = read_some(input, &mut part[filled..])?;
        if count == 0 {
            break Refusal::Cut;
        }
        filled += count;
        let (at, stop) = print_part(&mut reader, &part[..filled], &mut place, output)?;
        if stop == Refusal::Size {
            break stop;
        }
        part.copy_within(at..filled, 0);
        filled -= at;
    };
    writeln!(output, "E,{}", end.number())?;
    print_quote(&reader, output)?;
    Ok(reader)
}

/// The state that every file starts with.
pub fn new_reader() -> Reader {
    let mut reader = Reader::new(Market::Nyse);
    reader
        .register(INDEX, SCALE, NAME)
        .expect("the symbol is a good one and the first");
    reader
}

/// Some bytes, none only at the end of the file.
fn read_some(input: &mut impl Read, room: &mut [u8]) -> io::Result<usize> {
    loop {
        match input.read(room) {
            Err(error) if error.kind() == io::ErrorKind::Interrupted => {}
            result => return result,
        }
    }
}

/// Prints what the messages of a part give, and hands back where the last one ended and why
/// there is no further one.
fn print_part(
    reader: &mut Reader,
    part: &[u8],
    place: &mut u64,
    output: &mut impl Write,
) -> io::Result<(usize, Refusal)> {
    let mut at = 0;
    loop {
        let (next, done) = reader.step(part, at);
        match done {
            Err(refusal) if next == at => return Ok((at, refusal)),
            Err(refusal) => {
                *place += 1;
                let offset = refusal.offset_field();
                writeln!(output, "R,{},{place}{offset}", refusal.number())?;
            }
            Ok(message) => {
                *place += 1;
                print_line(reader, &message, *place, output)?;
            }
        }
        at = next;
    }
}

fn print_line(
    reader: &Reader,
    message: &Message,
    place: u64,
    output: &mut impl Write,
) -> io::Result<()> {
    if !matches!(message.body, Body::Add { .. } | Body::Cross { .. }) {
        return Ok(());
    }
    match line_text(reader, message, place as u32, SECOND_OF_DAY) {
        Ok(text) => output.write_all(&text),
        Err(refusal) => Err(io::Error::other(format!(
            "a done message has no line: {refusal:?}"
        ))),
    }
}

fn print_quote(reader: &Reader, output: &mut impl Write) -> io::Result<()> {
    match reader.quote(INDEX) {
        Ok(quote) => writeln!(
            output,
            "Q,{},{}",
            level_text(quote.bid),
            level_text(quote.ask)
        ),
        Err(refusal) => writeln!(output, "Q,{}", refusal.number()),
    }
}

fn level_text(level: Option<Level>) -> String {
    match level {
        Some(level) => format!("{},{}", price_text(level.price, SCALE), level.size),
        None => ",".to_string(),
    }
}

/// Ten rows of each side; the answer alone where there is no depth.
fn print_levels(reader: &Reader, output: &mut impl Write) -> io::Result<()> {
    let depth = match reader.depth(INDEX) {
        Ok(depth) => depth,
        Err(refusal) => return writeln!(output, "D,{}", refusal.number()),
    };
    for (side, rows) in [('B', depth.bids), ('S', depth.asks)] {
        for row in rows {
            writeln!(output, "D,{side},{}", row_text(row))?;
        }
    }
    Ok(())
}

fn row_text(row: Option<Row>) -> String {
    match row {
        Some(row) => {
            let price = price_text(row.price, SCALE);
            format!("{price},{},{}", row.size, row.orders)
        }
        None => ",,".to_string(),
    }
}
