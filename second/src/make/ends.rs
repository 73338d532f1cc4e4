//! Messages laid across the ends of parts, and the ends of files.

use super::random::Random;
use crate::program::PART;

/// A message of unknown type. Most often it ends a little before or behind the end of a part.
pub fn filler(random: &mut Random, position: usize) -> Vec<u8> {
    let to_end = PART - position % PART;
    let near = random.below(90);
    let size = match random.below(6) {
        0 => 65_535 - random.below(4),
        1 => 4 + random.below(300),
        2 => 4 + random.below(65_532),
        _ => to_end.saturating_sub(near),
    };
    unknown(random, size.clamp(4, 65_535))
}

fn unknown(random: &mut Random, size: usize) -> Vec<u8> {
    let mut bytes = vec![random.byte(); size];
    bytes[..2].copy_from_slice(&(size as u16).to_le_bytes());
    let kind = random.pick(&[0_u16, 33, 99, 106, 223, 0x0164, 0xFFFF]);
    bytes[2..4].copy_from_slice(&kind.to_le_bytes());
    bytes
}

/// Ends the file: as it is, within its last message, with stray bytes, with too small or too large
/// a Msg Size.
pub fn push_end(random: &mut Random, bytes: &mut Vec<u8>) {
    match random.below(6) {
        0 => {}
        1 => {
            let cut = random.below(60).min(bytes.len());
            bytes.truncate(bytes.len() - cut);
        }
        2 => {
            let count = 1 + random.below(3);
            let stray = [random.byte() % 6, 0, random.byte()];
            bytes.extend(&stray[..count]);
        }
        3 => {
            let count = 2 + random.below(60);
            bytes.extend([random.byte() % 4, 0]);
            bytes.extend(random.bytes(count));
        }
        4 => {
            let there = 4 + random.below(70_000);
            let mut last = vec![random.byte(); there];
            last[..2].copy_from_slice(&[0xFF, 0xFF]);
            bytes.extend(&last[..there.min(65_534)]);
        }
        _ => {
            let size = 5 + random.below(200);
            let last = unknown(random, size);
            bytes.extend(&last[..size - 1]);
        }
    }
}
