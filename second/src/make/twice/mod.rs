//! The same messages one by one in one state and at once in another: request M-110.

#[cfg(test)]
mod tests;
mod turns;

use std::ops::Range;

use self::turns::Maker;
use super::call_list::CallList;
use super::random::Random;
use super::registers::Asked;
use crate::probe::LARGEST_FILE;

/// More messages than these a list does not have: both times a message takes some 40 bytes of it, and
/// eight full books take some 80,000.
const MOST: usize = LARGEST_FILE / 120;

/// How many messages a run may have. None has more than 400 bytes, and a call less than 65,536.
const IN_A_RUN: [usize; 6] = [0, 1, 4, 20, 60, 150];

/// A run of the second half: messages, and bytes beside them.
struct Run {
    messages: Range<usize>,
    /// So many of the last messages of all stand in front; the run starts behind them.
    before: usize,
    /// So many bytes of the next message stand behind; all of it is in the next run.
    rest: usize,
}

/// What a list says twice.
struct Twice {
    symbols: Vec<Asked>,
    /// Both states begin with these runs, each of adds that fill a book.
    full: Vec<Vec<u8>>,
    messages: Vec<Vec<u8>>,
    runs: Vec<Run>,
}

/// A list of that many messages, beside those that fill books at the start.
pub fn list(random: Random, count: usize) -> CallList {
    Twice::drawn(random, count).list()
}

impl Twice {
    fn drawn(random: Random, count: usize) -> Twice {
        let mut maker = Maker::new(random);
        maker.make(count.min(MOST));
        let runs = runs(&maker.messages, &mut maker.source.draw.random);
        Twice {
            symbols: maker.symbols,
            full: maker.full,
            messages: maker.messages,
            runs,
        }
    }

    /// The quotes and volumes are asked where the runs stop, and before that, in the first state,
    /// after the same messages.
    fn list(&self) -> CallList {
        let mut list = CallList::new();
        self.begin(&mut list);
        for run in &self.runs {
            for message in &self.messages[run.messages.clone()] {
                list.step(0, message);
            }
            self.ask(&mut list);
        }
        list.new_state();
        self.begin(&mut list);
        for run in &self.runs {
            self.push_run(&mut list, run);
            self.ask(&mut list);
        }
        list
    }

    fn begin(&self, list: &mut CallList) {
        for (index, scale, name) in &self.symbols {
            list.register(*index, *scale, name);
        }
        for adds in &self.full {
            list.run(0, adds);
        }
    }

    fn ask(&self, list: &mut CallList) {
        for (index, ..) in &self.symbols {
            list.quote(*index);
            list.volume(*index);
        }
    }

    fn push_run(&self, list: &mut CallList, run: &Run) {
        let Range { start, end } = run.messages;
        let before = self.messages[self.messages.len() - run.before..].concat();
        let messages = self.messages[start..end].concat();
        let next = self.messages.get(end).map_or(&[][..], Vec::as_slice);
        let bytes = [&before, &messages, &next[..run.rest]].concat();
        list.run(before.len(), &bytes);
    }
}

/// Every message is in one run. Where a run's bytes end within a message, it is the next run's first.
fn runs(messages: &[Vec<u8>], random: &mut Random) -> Vec<Run> {
    let mut runs = Vec::new();
    let mut first = 0;
    while first < messages.len() {
        let last = messages.len().min(first + random.pick(&IN_A_RUN));
        let most = messages.get(last).map_or(0, |next| next.len() - 1);
        let some = random.below(most + 1);
        runs.push(Run {
            messages: first..last,
            before: random.pick(&[0, 0, 1, 5]).min(messages.len()),
            rest: random.pick(&[0, some, most, most.min(3)]),
        });
        first = last;
    }
    runs
}
