//! Where a message ends and what its fields hold: document 01, "Message layouts". Once a message
//! is known to have the size of its type, it is an array, and reading a field needs no test.

use super::orders::Side;
use super::{Answer, Refused};

const HEADER: usize = 4;
const NANOSECONDS_PER_SECOND: u32 = 1_000_000_000;

/// The codes that NYSE lists for each of the four conditions: request M-107.
const LISTED: [&[u8]; 4] = [b"@", b" FO56", b" TUZ", b" I"];
/// By byte, a bit for each position that lists it.
const POSITIONS: [u8; 256] = positions();

/// What every numbered message says first.
#[derive(Clone, Copy)]
pub struct Head {
    pub index: u32,
    pub number: u32,
}

/// The message that the bytes begin with, and the bytes after it.
#[inline]
pub fn split_message(bytes: &[u8]) -> Answer<(&[u8], &[u8])> {
    if bytes.len() < HEADER {
        return Err(Refused::Cut);
    }
    let size = usize::from(u16_at(bytes, 0));
    if size < HEADER {
        return Err(Refused::Size);
    }
    bytes.split_at_checked(size).ok_or(Refused::Cut)
}

/// A message as an array of its type's size.
#[inline]
pub fn sized<const N: usize>(message: &[u8]) -> Answer<&[u8; N]> {
    message.try_into().map_err(|_| Refused::Size)
}

#[inline]
pub fn form_n<const N: usize>(message: &[u8; N]) -> Answer<Head> {
    head(message, 4)
}

/// Form S has the seconds before the rest of its head.
#[inline]
pub fn form_s<const N: usize>(message: &[u8; N]) -> Answer<Head> {
    head(message, 8)
}

#[inline]
fn head(message: &[u8], nanoseconds: usize) -> Answer<Head> {
    good(u32_at(message, nanoseconds) < NANOSECONDS_PER_SECOND)?;
    Ok(Head {
        index: u32_at(message, nanoseconds + 4),
        number: u32_at(message, nanoseconds + 8),
    })
}

#[inline]
pub fn volume(message: &[u8], at: usize) -> Answer<u32> {
    let volume = u32_at(message, at);
    good(volume != 0)?;
    Ok(volume)
}

#[inline]
pub fn side(message: &[u8], at: usize) -> Answer<Side> {
    match message[at] {
        b'B' => Ok(Side::Buy),
        b'S' => Ok(Side::Sell),
        _ => Err(Refused::Field),
    }
}

/// A position or printable byte.
#[inline]
pub fn flag(message: &[u8], at: usize) -> Answer<bool> {
    good(message[at] <= 1)?;
    Ok(message[at] == 1)
}

#[inline]
pub fn check_conditions(message: &[u8], at: usize) -> Answer {
    let listed = |position: usize| POSITIONS[usize::from(message[at + position])] >> position;
    good(listed(0) & listed(1) & listed(2) & listed(3) & 1 == 1)
}

#[inline]
fn good(holds: bool) -> Answer {
    if holds {
        Ok(())
    } else {
        Err(Refused::Field)
    }
}

#[inline]
pub fn u16_at(bytes: &[u8], at: usize) -> u16 {
    u16::from_le_bytes(array_at(bytes, at))
}

#[inline]
pub fn u32_at(bytes: &[u8], at: usize) -> u32 {
    u32::from_le_bytes(array_at(bytes, at))
}

#[inline]
pub fn u64_at(bytes: &[u8], at: usize) -> u64 {
    u64::from_le_bytes(array_at(bytes, at))
}

/// The `N` bytes at `at`, which are there.
#[inline]
fn array_at<const N: usize>(bytes: &[u8], at: usize) -> [u8; N] {
    let mut array = [0; N];
    array.copy_from_slice(&bytes[at..at + N]);
    array
}

const fn positions() -> [u8; 256] {
    let mut positions = [0; 256];
    let mut position = 0;
    while position < LISTED.len() {
        let mut code = 0;
        while code < LISTED[position].len() {
            positions[LISTED[position][code] as usize] |= 1 << position;
            code += 1;
        }
        position += 1;
    }
    positions
}
