//! Symbols to be registered: good ones, and ones with a fault or two.

use super::random::Random;

/// Index, scale and name of a symbol.
pub type Asked = (u32, u8, Vec<u8>);

const INDICES: [u32; 12] = [
    7,
    0,
    u32::MAX,
    1,
    2,
    8,
    255,
    256,
    0x0700_0000,
    0x8000_0000,
    65_543,
    1_000_000,
];

/// A symbol that can be registered, unless its index is taken or eight are there.
pub fn good(random: &mut Random) -> Asked {
    let length = random.pick(&[1, 3, 3, 4, 10, 11]);
    let name = (0..length).map(|_| good_byte(random)).collect();
    let scale = random.pick(&[0, 1, 2, 3, 4, 4, 5, 6]);
    (random.pick(&INDICES), scale, name)
}

/// A symbol with any of the faults; with none at times.
pub fn faulty(random: &mut Random, registered: &[u32]) -> Asked {
    let (mut index, mut scale, mut name) = good(random);
    if !registered.is_empty() && random.one_in(2) {
        index = random.pick(registered);
    }
    if random.one_in(4) {
        scale = random.pick(&[7, 8, 64, 255]);
    }
    if random.one_in(4) {
        let length = random.pick(&[0, 1, 11, 12, 13, 255]);
        name = vec![b'N'; length];
    }
    if !name.is_empty() && random.one_in(3) {
        let place = random.below(name.len());
        name[place] = random.pick(&[0x00, 0x20, 0x21, 0x2C, 0x7E, 0x7F, 0x80, 0xFF]);
    }
    (index, scale, name)
}

/// Any byte that a name may have.
fn good_byte(random: &mut Random) -> u8 {
    match 0x21 + random.byte() % 0x5E {
        b',' => b'.',
        byte => byte,
    }
}
