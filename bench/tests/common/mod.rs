//! What the tests share.
#![allow(dead_code)] // each test file uses its own part

pub mod crosses;
pub mod records;

use second::reader::Reader;
use second::wire::Market;

/// A new state of second's reader with these symbols registered.
pub fn new_second(indices: &[u32]) -> Reader {
    let mut reader = Reader::new(Market::Nyse);
    for index in indices {
        reader
            .register(*index, 4, b"ABC")
            .expect("at most eight, no two alike");
    }
    reader
}
