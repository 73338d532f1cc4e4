//! The five markets, and the trade conditions that each of them lists: request M-107. Source 001
//! (types 103 and 110) says which values there are and on which markets, source 003 which letters
//! they have where the two tables of 001 slip, and source 002 the numbers of the markets.

use Market::{American, Arca, National, Nyse, Texas};

/// The market that a state is made for.
#[derive(Clone, Copy, PartialEq, Eq, Hash, Debug)]
pub enum Market {
    Nyse,
    Arca,
    American,
    National,
    Texas,
}

/// The condition bytes of a 103 or 110, one for each position.
pub const CONDITIONS: usize = 4;

/// A value, and the markets on which it is listed.
type Value = (u8, &'static [Market]);

const ALL: &[Market] = &Market::ALL;
/// Where opening, reopening and closing trades are listed.
const AUCTIONS: &[Market] = &[Nyse, Arca, American];
const TEXAS: &[Market] = &[Texas];

/// The values of each position: settlement, trade through exemption, extended hours and sequence,
/// detail. Only the first position has no space.
const VALUES: [&[Value]; CONDITIONS] = [
    &[(b'@', ALL), (b'C', TEXAS)],
    &[
        (b' ', ALL),
        (b'F', ALL),
        (b'O', AUCTIONS),
        (b'5', AUCTIONS),
        (b'6', AUCTIONS),
        (b'7', TEXAS),
    ],
    &[(b' ', ALL), (b'T', ALL), (b'U', ALL), (b'Z', ALL)],
    &[(b' ', ALL), (b'I', ALL), (b'V', TEXAS)],
];

impl Market {
    pub const ALL: [Market; 5] = [Nyse, Arca, American, National, Texas];

    /// The Market ID of source 002.
    pub fn id(self) -> u8 {
        match self {
            Nyse => 1,
            Arca => 3,
            American => 9,
            National => 10,
            Texas => 11,
        }
    }

    /// The market with that Market ID.
    pub fn of_id(id: u8) -> Option<Market> {
        Market::ALL.into_iter().find(|market| market.id() == id)
    }

    /// The codes that this market lists for a position, which counts from 0.
    pub fn codes(self, position: usize) -> impl Iterator<Item = u8> {
        let listed = VALUES[position].iter();
        let here = listed.filter(move |(_, markets)| markets.contains(&self));
        here.map(|(code, _)| *code)
    }

    /// The first position whose condition this market does not list.
    pub fn unlisted(self, conditions: &[u8; CONDITIONS]) -> Option<usize> {
        (0..CONDITIONS).find(|&position| !self.lists(position, conditions[position]))
    }

    pub fn lists(self, position: usize, code: u8) -> bool {
        self.codes(position).any(|listed| listed == code)
    }
}
