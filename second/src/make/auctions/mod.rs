//! Calls that keep crosses and correct them, to the last place and past it: request M-102.

#[cfg(test)]
mod tests;

use super::call_maker::Maker;
use super::fills::push_body;
use crate::record::KEPT_CROSSES;

/// The first symbol has its 16 crosses, or nearly so; some more crosses and corrections follow.
pub fn begin(maker: &mut Maker) {
    if let Some(first) = maker.source.indices().first().copied() {
        let free = maker.random().below(3);
        fill_but(maker, first, free);
        push_some(maker, first);
    }
}

/// A cross or a correction, and the volume.
pub fn push(maker: &mut Maker) {
    let index = maker.source.index();
    step(maker, index);
}

/// Crosses until 16 are kept.
pub fn fill(maker: &mut Maker, index: u32) {
    fill_but(maker, index, 0);
}

/// The 16 crosses, then crosses that find no place, and corrections.
pub fn fill_past(maker: &mut Maker, index: u32) {
    fill(maker, index);
    push_some(maker, index);
}

fn push_some(maker: &mut Maker, index: u32) {
    maker.list.volume(index);
    for _ in 0..4 {
        step(maker, index);
    }
}

/// Crosses until so many places are free.
fn fill_but(maker: &mut Maker, index: u32, free: usize) {
    let mut bytes = Vec::new();
    for _ in maker.source.kept_crosses(index).len()..KEPT_CROSSES - free {
        let body = maker.source.new_cross_body(index);
        push_body(maker, index, body, &mut bytes);
    }
    maker.run(&bytes);
}

fn step(maker: &mut Maker, index: u32) {
    let body = if maker.random().one_in(2) {
        maker.source.cross_body(index)
    } else {
        maker.source.correction_body(index)
    };
    let mut bytes = Vec::new();
    push_body(maker, index, body, &mut bytes);
    maker.step(&bytes);
    maker.list.volume(index);
}
