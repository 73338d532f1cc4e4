//! The typed message, its type numbers and its sizes: document 01, "Message layouts".

pub const ADD: u16 = 100;
pub const MODIFY: u16 = 101;
pub const DELETE: u16 = 102;
pub const EXECUTE: u16 = 103;
pub const REPLACE: u16 = 104;
pub const IMBALANCE: u16 = 105;
pub const TRADE: u16 = 110;
pub const CROSS: u16 = 111;
pub const CANCEL: u16 = 112;
pub const CORRECTION: u16 = 113;
pub const RETAIL: u16 = 114;
pub const CLEAR: u16 = 32;
pub const STATUS: u16 = 34;

/// The 13 types, in the order of the table.
pub const TYPES: [u16; 13] = [
    ADD, MODIFY, DELETE, EXECUTE, REPLACE, IMBALANCE, TRADE, CROSS, CANCEL, CORRECTION, RETAIL,
    CLEAR, STATUS,
];

/// Nanoseconds of a message are below this.
pub const NANOSECONDS_PER_SECOND: u32 = 1_000_000_000;

/// One message. `number` is the symbol number, in a clear the next one.
#[derive(Clone, Copy, PartialEq, Eq, Debug)]
pub struct Message {
    pub nanoseconds: u32,
    pub index: u32,
    pub number: u32,
    pub body: Body,
}

/// What a message says beside its head. Types of form S have seconds of their own.
#[derive(Clone, Copy, PartialEq, Eq, Debug)]
pub enum Body {
    Add {
        order: u64,
        price: u32,
        volume: u32,
        side: u8,
        firm: [u8; 5],
    },
    Modify {
        order: u64,
        price: u32,
        volume: u32,
        position: u8,
        side: u8,
    },
    Delete {
        order: u64,
    },
    Execute {
        order: u64,
        trade: u32,
        price: u32,
        volume: u32,
        printable: u8,
        conditions: [u8; 4],
    },
    Replace {
        order: u64,
        new_order: u64,
        price: u32,
        volume: u32,
        side: u8,
    },
    Imbalance {
        seconds: u32,
        plain: [u8; 53],
    },
    Trade {
        trade: u32,
        price: u32,
        volume: u32,
        printable: u8,
        conditions: [u8; 4],
    },
    Cross {
        cross: u32,
        price: u32,
        volume: u32,
        cross_type: u8,
    },
    Cancel {
        trade: u32,
    },
    Correction {
        cross: u32,
        volume: u32,
    },
    Retail {
        indicator: u8,
    },
    Clear {
        seconds: u32,
    },
    Status {
        seconds: u32,
        plain: [u8; 26],
    },
}

impl Body {
    /// The seconds of form S; none in form N.
    pub fn seconds(&self) -> Option<u32> {
        match *self {
            Body::Imbalance { seconds, .. }
            | Body::Clear { seconds }
            | Body::Status { seconds, .. } => Some(seconds),
            _ => None,
        }
    }
}

/// The size of a type's messages; none for a type outside the table.
pub fn size_of_type(kind: u16) -> Option<usize> {
    Some(match kind {
        ADD => 39,
        MODIFY => 35,
        DELETE => 25,
        EXECUTE => 42,
        REPLACE => 42,
        IMBALANCE => 73,
        TRADE => 33,
        CROSS => 29,
        CANCEL => 20,
        CORRECTION => 24,
        RETAIL => 17,
        CLEAR => 20,
        STATUS => 46,
        _ => return None,
    })
}

impl Message {
    pub fn kind(&self) -> u16 {
        match self.body {
            Body::Add { .. } => ADD,
            Body::Modify { .. } => MODIFY,
            Body::Delete { .. } => DELETE,
            Body::Execute { .. } => EXECUTE,
            Body::Replace { .. } => REPLACE,
            Body::Imbalance { .. } => IMBALANCE,
            Body::Trade { .. } => TRADE,
            Body::Cross { .. } => CROSS,
            Body::Cancel { .. } => CANCEL,
            Body::Correction { .. } => CORRECTION,
            Body::Retail { .. } => RETAIL,
            Body::Clear { .. } => CLEAR,
            Body::Status { .. } => STATUS,
        }
    }
}
