//! The numbers of document 01, "Numbers answered".

/// Why a call was refused. A call that was done has no refusal and answers 0.
#[derive(Clone, Copy, PartialEq, Eq, Debug)]
pub enum Refusal {
    /// 1: fewer than four bytes are left, or fewer than Msg Size.
    Cut,
    /// 2: Msg Size below 4, or not that of its known type.
    Size,
    /// 3: a type outside the table.
    Type,
    /// 4: a bad field, and where the first one starts in its message: request M-111.
    Field { offset: usize },
    /// 5: the symbol is not registered.
    Symbol,
    /// 6: the number is below the expected one.
    Low,
    /// 7: numbers are missing.
    Gap,
    /// 8: the symbol is stale.
    Stale,
    /// 9: the message does not fit the book.
    Misfit,
    /// 10: 256 orders are live.
    Full,
    /// 11: the index is registered already.
    Taken,
    /// 12: eight symbols are registered.
    NinthSymbol,
    /// 13: a price scale above 6, or a bad name.
    Name,
    /// 14: a second past the end of the day.
    Second,
    /// 15: the output has too little room.
    Room,
}

impl Refusal {
    /// The number of document 01.
    pub fn number(self) -> u8 {
        match self {
            Refusal::Cut => 1,
            Refusal::Size => 2,
            Refusal::Type => 3,
            Refusal::Field { .. } => 4,
            Refusal::Symbol => 5,
            Refusal::Low => 6,
            Refusal::Gap => 7,
            Refusal::Stale => 8,
            Refusal::Misfit => 9,
            Refusal::Full => 10,
            Refusal::Taken => 11,
            Refusal::NinthSymbol => 12,
            Refusal::Name => 13,
            Refusal::Second => 14,
            Refusal::Room => 15,
        }
    }

    /// The field at the end of a printed line that only answer 4 has, the offset.
    pub(crate) fn offset_field(self) -> String {
        match self {
            Refusal::Field { offset } => format!(",{offset}"),
            _ => String::new(),
        }
    }
}

/// The number that a call answers.
pub(crate) fn number<T>(result: &Result<T, Refusal>) -> u8 {
    match result {
        Ok(_) => 0,
        Err(refusal) => refusal.number(),
    }
}

/// The field at the end of a call's printed line that only answer 4 has, the offset.
pub(crate) fn offset_field<T>(result: &Result<T, Refusal>) -> String {
    match result {
        Ok(_) => String::new(),
        Err(refusal) => refusal.offset_field(),
    }
}
