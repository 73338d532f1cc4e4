//! Files named after the cases of document 01, "A day in symbol ABC", its easy errors and the corners
//! of its rules and of the requests; most are small. `NAME.feed` is for the program, `NAME.calls` for
//! the probe.

mod bad_fields;
mod book;
mod codes;
mod conditions;
mod crosses;
mod day;
mod depth;
mod fields;
mod full;
mod homes;
mod listed;
mod markets;
mod page;
mod printout;
mod record;
mod registering;
mod runs;
mod script;
mod stream;

use std::io;
use std::path::Path;

use crate::make::call_list::CallList;
use crate::make::messages::{feed, ABC};
use crate::wire::Message;

/// The cases so far: a file name and what is in the file.
#[derive(Default)]
pub struct Cases {
    files: Vec<(String, Vec<u8>)>,
}

impl Cases {
    pub fn all() -> Cases {
        let mut cases = Cases::default();
        day::add_to(&mut cases);
        listed::add_to(&mut cases);
        printout::add_to(&mut cases);
        fields::add_to(&mut cases);
        bad_fields::add_to(&mut cases);
        conditions::add_to(&mut cases);
        codes::add_to(&mut cases);
        markets::add_to(&mut cases);
        book::add_to(&mut cases);
        full::add_to(&mut cases);
        homes::add_to(&mut cases);
        depth::add_to(&mut cases);
        record::add_to(&mut cases);
        crosses::add_to(&mut cases);
        registering::add_to(&mut cases);
        page::add_to(&mut cases);
        stream::add_to(&mut cases);
        runs::add_to(&mut cases);
        cases
    }

    /// What is in the file of that name.
    pub fn file(&self, name: &str) -> Option<&[u8]> {
        let found = self.files.iter().find(|(file, _)| file == name);
        found.map(|(_, bytes)| bytes.as_slice())
    }

    pub fn write_into(&self, folder: &Path) -> io::Result<()> {
        std::fs::create_dir_all(folder)?;
        for (name, bytes) in &self.files {
            std::fs::write(folder.join(name), bytes)?;
        }
        Ok(())
    }

    fn feed(&mut self, name: &str, messages: &[Message]) {
        self.feed_bytes(name, feed(messages));
    }

    fn feed_bytes(&mut self, name: &str, bytes: Vec<u8>) {
        self.files.push((format!("{name}.feed"), bytes));
    }

    /// The bytes as a feed, and at once.
    fn fed(&mut self, name: &str, bytes: Vec<u8>) {
        self.bytes_at_once(name, &bytes);
        self.feed_bytes(name, bytes);
    }

    /// The messages in one run: request M-110.
    fn at_once(&mut self, name: &str, messages: &[Message]) {
        self.bytes_at_once(name, &feed(messages));
    }

    fn bytes_at_once(&mut self, name: &str, bytes: &[u8]) {
        self.calls_on_abc(&format!("{name}-at-once"), |calls| calls.run(0, bytes));
    }

    /// A run for each message, with the quote and volume after it.
    fn in_runs(&mut self, name: &str, messages: &[Vec<u8>]) {
        self.calls_on_abc(&format!("{name}-in-runs"), |calls| {
            for message in messages {
                calls.run(0, message);
                calls.quote(ABC);
                calls.volume(ABC);
            }
        });
    }

    fn calls(&mut self, name: &str, make: impl FnOnce(&mut CallList)) {
        let mut calls = CallList::new();
        make(&mut calls);
        self.files
            .push((format!("{name}.calls"), calls.into_bytes()));
    }

    /// The messages as a feed, each of them read and applied, and all of them at once.
    fn read_and_applied(&mut self, name: &str, messages: &[Message]) {
        self.feed(name, messages);
        self.at_once(name, messages);
        self.calls_on_abc(name, |calls| {
            for message in messages {
                let bytes = feed(&[*message]);
                calls.read(0, &bytes);
                calls.step(0, &bytes);
            }
        });
    }

    /// Calls that start with ABC registered and end with its quote and volume.
    fn calls_on_abc(&mut self, name: &str, make: impl FnOnce(&mut CallList)) {
        self.calls(name, |calls| {
            calls.register(ABC, 4, b"ABC");
            make(calls);
            calls.quote(ABC);
            calls.volume(ABC);
        });
    }

    /// The messages as a feed, as steps with the quote and volume after each, and at once.
    fn both(&mut self, name: &str, messages: &[Message]) {
        self.feed(name, messages);
        self.at_once(name, messages);
        self.calls(name, |calls| {
            calls.register(ABC, 4, b"ABC");
            for message in messages {
                calls.step(0, &feed(&[*message]));
                calls.quote(ABC);
                calls.volume(ABC);
            }
        });
    }
}

#[cfg(test)]
mod tests {
    use super::fields::one_of_each;
    use super::Cases;
    use crate::probe::probe;
    use crate::wire::Market;
    use std::collections::HashSet;

    #[test]
    fn every_name_is_used_once() {
        let cases = Cases::all();
        let names: HashSet<_> = cases.files.iter().map(|(name, _)| name).collect();
        assert_eq!(names.len(), cases.files.len());
    }

    /// Quote and volume at the end, where a case has a list of its messages one by one too.
    #[test]
    fn at_once_ends_as_one_by_one() {
        let cases = Cases::all();
        let end = |file: &str| {
            let text = probe(cases.file(file)?);
            let lines: Vec<String> = text.lines().map(String::from).collect();
            Some(lines[lines.len() - 2..].to_vec())
        };
        let mut count = 0;
        for (file, _) in &cases.files {
            if let Some(name) = file.strip_suffix("-at-once.calls") {
                if let Some(one_by_one) = end(&format!("{name}.calls")) {
                    assert_eq!(end(file), Some(one_by_one), "{name}");
                    count += 1;
                }
            }
        }
        assert!(count > 80, "{count}");
    }

    /// The cases are made of messages like these, and spoil what they mean to.
    #[test]
    fn one_of_each_is_good_on_every_market() {
        for message in one_of_each() {
            for market in Market::ALL {
                assert_eq!(message.check(market), Ok(()), "{message:?}");
            }
        }
    }
}
