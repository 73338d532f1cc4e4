//! The same messages one by one and at once: request M-110. Cases of one symbol that are steps
//! elsewhere stand there at once too.

mod amid;
mod answers;
mod crosses;
mod edges;
mod types;
mod unregistered;

use super::Cases;
use crate::make::call_list::CallList;
use crate::wire::write::to_bytes;
use crate::wire::Message;

/// Groups of messages of some symbols.
struct Twice {
    name: String,
    symbols: Vec<u32>,
    groups: Vec<Vec<Vec<u8>>>,
}

pub fn add_to(cases: &mut Cases) {
    types::add_to(cases);
    amid::add_to(cases);
    answers::add_to(cases);
    unregistered::add_to(cases);
    for twice in lists() {
        cases.twice(&twice);
    }
}

fn lists() -> Vec<Twice> {
    [
        amid::lists(),
        answers::lists(),
        crosses::lists(),
        edges::lists(),
        unregistered::lists(),
    ]
    .into_iter()
    .flatten()
    .collect()
}

fn named(name: &str, symbols: &[u32], groups: &[&[Message]]) -> Twice {
    Twice {
        name: name.to_string(),
        symbols: symbols.to_vec(),
        groups: groups
            .iter()
            .map(|group| group.iter().map(to_bytes).collect())
            .collect(),
    }
}

impl Cases {
    /// In one state one by one, in another each group at once; quotes and volumes after each group.
    fn twice(&mut self, twice: &Twice) {
        self.calls(&twice.name, |calls| {
            for push in [push_steps, push_run] {
                calls.new_state();
                for index in &twice.symbols {
                    calls.register(*index, 2, b"SAME");
                }
                for group in &twice.groups {
                    push(calls, group);
                    push_asked(calls, &twice.symbols);
                }
            }
        });
    }
}

fn push_steps(calls: &mut CallList, messages: &[Vec<u8>]) {
    for message in messages {
        calls.step(0, message);
    }
}

fn push_run(calls: &mut CallList, messages: &[Vec<u8>]) {
    calls.run(0, &messages.concat());
}

fn push_asked(calls: &mut CallList, symbols: &[u32]) {
    for index in symbols {
        calls.quote(*index);
        calls.volume(*index);
    }
}

#[cfg(test)]
mod tests {
    use super::{lists, Cases};
    use crate::probe::probe;

    #[test]
    fn both_states_of_a_list_tell_the_same() {
        let cases = Cases::all();
        for twice in lists() {
            let text = probe(
                cases
                    .file(&format!("{}.calls", twice.name))
                    .expect("a case"),
            );
            let halves: Vec<Vec<&str>> = text
                .split("N\n")
                .map(|half| half.lines().filter(|line| line.starts_with(['Q', 'V'])))
                .map(Iterator::collect)
                .collect();
            assert_eq!(halves.len(), 3, "{}", twice.name);
            let asked = 2 * twice.symbols.len() * twice.groups.len();
            assert_eq!(halves[1].len(), asked, "{}", twice.name);
            assert_eq!(halves[1], halves[2], "{}", twice.name);
        }
    }
}
