//! Calls of the probe laid end to end.

use super::messages::feed;
use crate::wire::{Market, Message};

#[derive(Clone, Default)]
pub struct CallList {
    bytes: Vec<u8>,
    /// Where each call starts.
    starts: Vec<usize>,
}

impl CallList {
    pub fn new() -> CallList {
        CallList::default()
    }

    pub fn len(&self) -> usize {
        self.bytes.len()
    }

    pub fn into_bytes(self) -> Vec<u8> {
        self.bytes
    }

    /// The bytes from each call on.
    #[cfg(test)]
    pub fn tails(&self) -> impl Iterator<Item = &[u8]> {
        self.starts.iter().map(|start| &self.bytes[*start..])
    }

    /// How many calls there are.
    pub fn count(&self) -> usize {
        self.starts.len()
    }

    /// Leaves out what comes after so many calls or bytes.
    pub fn keep(&mut self, calls: usize, bytes: usize) {
        while self.starts.len() > calls || self.bytes.len() > bytes {
            let Some(start) = self.starts.pop() else {
                return;
            };
            self.bytes.truncate(start);
        }
    }

    /// Bytes that need not be a call.
    pub fn raw(&mut self, bytes: &[u8]) {
        self.starts.push(self.bytes.len());
        self.bytes.extend(bytes);
    }

    /// A new state of NYSE.
    pub fn new_state(&mut self) {
        self.letter(b'N');
    }

    /// A new state of that market.
    pub fn new_market(&mut self, market: Market) {
        self.letter(b'M');
        self.bytes.push(market.id());
    }

    pub fn register(&mut self, index: u32, scale: u8, name: &[u8]) {
        self.letter(b'G');
        self.u32(index);
        self.bytes.extend([scale, name.len() as u8]);
        self.bytes.extend(name);
    }

    /// One message at a position, applied.
    pub fn step(&mut self, at: usize, bytes: &[u8]) {
        self.positioned(b'S', at, bytes);
    }

    /// A run from a position, applied.
    pub fn run(&mut self, at: usize, bytes: &[u8]) {
        self.positioned(b'X', at, bytes);
    }

    /// One message at a position, read alone.
    pub fn read(&mut self, at: usize, bytes: &[u8]) {
        self.positioned(b'D', at, bytes);
    }

    /// A run over these messages.
    pub fn run_messages(&mut self, messages: &[Message]) {
        self.run(0, &feed(messages));
    }

    /// A step for each message.
    pub fn step_messages(&mut self, messages: &[Message]) {
        for message in messages {
            self.step(0, &feed(&[*message]));
        }
    }

    pub fn quote(&mut self, index: u32) {
        self.letter(b'Q');
        self.u32(index);
    }

    pub fn depth(&mut self, index: u32) {
        self.letter(b'H');
        self.u32(index);
    }

    pub fn volume(&mut self, index: u32) {
        self.letter(b'V');
        self.u32(index);
    }

    pub fn write(&mut self, nanoseconds: u32, room: usize, bytes: &[u8]) {
        self.letter(b'W');
        self.u32(nanoseconds);
        self.u16(room);
        self.counted(bytes);
    }

    pub fn line(
        &mut self,
        nanoseconds: u32,
        sequence: u32,
        second: u32,
        room: usize,
        bytes: &[u8],
    ) {
        self.letter(b'L');
        self.u32(nanoseconds);
        self.u32(sequence);
        self.u32(second);
        self.u16(room);
        self.counted(bytes);
    }

    fn letter(&mut self, letter: u8) {
        self.starts.push(self.bytes.len());
        self.bytes.push(letter);
    }

    fn positioned(&mut self, letter: u8, at: usize, bytes: &[u8]) {
        self.letter(letter);
        self.u16(at);
        self.counted(bytes);
    }

    fn counted(&mut self, bytes: &[u8]) {
        self.u16(bytes.len());
        self.bytes.extend(bytes);
    }

    fn u16(&mut self, number: usize) {
        let number = u16::try_from(number).expect("a call gives positions and lengths in 16 bits");
        self.bytes.extend(number.to_le_bytes());
    }

    fn u32(&mut self, number: u32) {
        self.bytes.extend(number.to_le_bytes());
    }
}
