//! The 13 types by name, and how often each occurs.

/// Number and name of a type, in the order of document 01's table.
pub const TYPES: [(u16, &str); 13] = [
    (100, "add"),
    (101, "modify"),
    (102, "delete"),
    (103, "execute"),
    (104, "replace"),
    (105, "imbalance"),
    (110, "non-displayed trade"),
    (111, "cross"),
    (112, "trade cancel"),
    (113, "cross correction"),
    (114, "retail"),
    (32, "symbol clear"),
    (34, "security status"),
];

/// How many messages of a made feed are of each of the `TYPES`.
pub fn occurrences(feed: &[u8]) -> [usize; TYPES.len()] {
    let mut counts = [0; TYPES.len()];
    let mut rest = feed;
    while let [low, high, type_low, type_high, ..] = *rest {
        let kind = u16::from_le_bytes([type_low, type_high]);
        let known = TYPES.iter().position(|(number, _)| *number == kind);
        counts[known.expect("a made feed has no other type")] += 1;
        rest = &rest[usize::from(u16::from_le_bytes([low, high]))..];
    }
    counts
}
