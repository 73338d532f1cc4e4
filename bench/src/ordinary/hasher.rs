//! A hasher for numbers that nobody chooses against us: one multiplication.

use std::hash::Hasher;

/// Odd, and its bits are those of the golden ratio.
const FACTOR: u64 = 0x9E37_79B9_7F4A_7C15;

#[derive(Clone, Copy, Default)]
pub struct Multiplying {
    hash: u64,
}

impl Hasher for Multiplying {
    /// The upper bits of a product are the mixed ones, and a `HashMap` finds the place by the lower.
    #[inline]
    fn finish(&self) -> u64 {
        self.hash.rotate_left(26)
    }

    #[inline]
    fn write_u64(&mut self, number: u64) {
        self.hash = (self.hash ^ number).wrapping_mul(FACTOR);
    }

    #[inline]
    fn write_u32(&mut self, number: u32) {
        self.write_u64(u64::from(number));
    }

    fn write(&mut self, bytes: &[u8]) {
        for byte in bytes {
            self.write_u64(u64::from(*byte));
        }
    }
}
