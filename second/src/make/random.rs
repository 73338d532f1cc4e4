//! A seeded generator (splitmix64): the same seed gives the same feed everywhere.

#[derive(Clone)]
pub struct Random {
    state: u64,
}

impl Random {
    /// Of two kinds the same seed gives different numbers.
    pub fn new(seed: u64, kind: &str) -> Random {
        let mut random = Random { state: seed };
        for byte in kind.bytes() {
            random.state = random.u64() ^ u64::from(byte);
        }
        random
    }

    pub fn u64(&mut self) -> u64 {
        self.state = self.state.wrapping_add(0x9E37_79B9_7F4A_7C15);
        let mut mixed = self.state;
        mixed = (mixed ^ (mixed >> 30)).wrapping_mul(0xBF58_476D_1CE4_E5B9);
        mixed = (mixed ^ (mixed >> 27)).wrapping_mul(0x94D0_49BB_1331_11EB);
        mixed ^ (mixed >> 31)
    }

    /// A number below the bound, which is not 0.
    pub fn below(&mut self, bound: usize) -> usize {
        (self.u64() % bound as u64) as usize
    }

    pub fn u32(&mut self) -> u32 {
        self.u64() as u32
    }

    pub fn u32_below(&mut self, bound: u32) -> u32 {
        self.u32() % bound
    }

    pub fn byte(&mut self) -> u8 {
        self.u64() as u8
    }

    pub fn one_in(&mut self, chances: usize) -> bool {
        self.below(chances) == 0
    }

    pub fn pick<T: Copy>(&mut self, items: &[T]) -> T {
        items[self.below(items.len())]
    }

    pub fn bytes(&mut self, count: usize) -> Vec<u8> {
        (0..count).map(|_| self.byte()).collect()
    }

    pub fn array<const N: usize>(&mut self) -> [u8; N] {
        std::array::from_fn(|_| self.byte())
    }
}
