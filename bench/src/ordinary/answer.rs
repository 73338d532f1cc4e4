//! The numbers that a message or a question is refused with: document 01, "Numbers answered".

#[derive(Clone, Copy, PartialEq, Eq, Debug)]
#[repr(u8)]
pub enum Refused {
    Cut = 1,
    Size = 2,
    Type = 3,
    Field = 4,
    Symbol = 5,
    Low = 6,
    Gap = 7,
    Stale = 8,
    Misfit = 9,
    Full = 10,
}

/// The number of an answer, 0 for one that is not refused.
pub fn number<T>(answer: &Result<T, Refused>) -> u8 {
    match answer {
        Ok(_) => 0,
        Err(refused) => *refused as u8,
    }
}
