//! An ordinary reader of the NYSE Pillar Integrated Feed, written from the documents alone.
//! The verified reader is compared with it. See README.md.

pub mod answer;
pub mod book;
mod cursor;
pub mod depth;
pub mod line;
pub mod make;
pub mod named;
pub mod probe;
pub mod program;
pub mod reader;
mod record;
mod symbol;
pub mod vectors;
pub mod wire;
