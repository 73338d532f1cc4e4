//! Makers of test input: messages, feeds, lists of calls.

mod auctions;
mod bad_draws;
pub mod bad_fields;
pub(crate) mod call_list;
mod call_maker;
pub mod calls;
mod damage;
mod draw;
mod ends;
pub(crate) mod families;
pub mod feeds;
mod fills;
mod homes;
pub mod messages;
mod noise;
mod outputs;
pub mod random;
mod registers;
pub(crate) mod source;
mod strays;
mod twice;
