//! All the measures, and the table that shows them.

use std::path::PathBuf;
use std::time::Duration;
use std::{fs, io};

use bench::feed::{feed, occurrences, REGISTERED, TYPES};
use bench::{LIVE_DEPTHS, SEED};

use crate::instructions::{valgrind_is_there, Files};
use crate::programs::{self, Program};
use crate::readers::READERS;
use crate::rounds::{self, Times};

/// Of ten messages that are timed, instructions are counted of one: valgrind is slow.
const COUNTED_SHARE: usize = 10;

/// How much is measured, and with what.
pub struct Plan {
    pub messages: usize,
    pub rounds: usize,
    pub program_rounds: usize,
    /// For files that nobody needs afterwards.
    pub folder: PathBuf,
    pub programs: [Program; 2],
}

/// How many times as long ours takes as the ordinary one, of the run and of the program.
pub struct Ratios {
    pub run: f64,
    pub program: f64,
}

impl Plan {
    pub fn carry_out(&self) -> Result<Ratios, String> {
        self.print_occurrences();
        Ok(Ratios {
            run: self.time_runs()?,
            program: self.time_programs()?,
        })
    }

    fn print_occurrences(&self) {
        let counts = LIVE_DEPTHS.map(|depth| occurrences(&self.feed(depth)));
        print!("{:<34}", "type, in 100 messages");
        for depth in LIVE_DEPTHS {
            print!("{:>11}", format!("depth {depth}"));
        }
        println!();
        for (place, (kind, name)) in TYPES.iter().enumerate() {
            print!("  {kind:>3} {name:<28}");
            for counts in &counts {
                let share = 100.0 * counts[place] as f64 / self.messages as f64;
                print!("{share:>11.3}");
            }
            println!();
        }
        println!();
    }

    /// The worst ratio over the depths.
    fn time_runs(&self) -> Result<f64, String> {
        let with_instructions = valgrind_is_there();
        if !with_instructions {
            println!("valgrind is not there: instructions are not counted\n");
        }
        let mut worst: f64 = 0.0;
        for depth in LIVE_DEPTHS {
            let times = rounds::time(&self.feed(depth), self.rounds)?;
            let instructions = with_instructions.then(|| self.instructions(depth));
            let instructions = instructions
                .transpose()
                .map_err(|error| error.to_string())?;
            self.print_runs(depth, &times, instructions.as_deref());
            worst = worst.max(ratio(times[READERS.len() - 1], times[0]));
        }
        Ok(worst)
    }

    fn instructions(&self, depth: usize) -> io::Result<Vec<f64>> {
        Files::make(depth, self.messages.div_ceil(COUNTED_SHARE), &self.folder)?.count()
    }

    fn print_runs(&self, depth: usize, times: &[Times], instructions: Option<&[f64]>) {
        let heading = format!("run at depth {depth}, a message");
        print!("{heading:<34}{:>11}{:>11}", "best ns", "median ns");
        println!("{}", instructions.map_or("", |_| "  instructions"));
        for (place, (reader, times)) in READERS.iter().zip(times).enumerate() {
            let (best, median) = (self.each(times.best), self.each(times.median));
            print!("  {:<32}{best:>11.1}{median:>11.1}", reader.title);
            if let Some(counts) = instructions {
                print!("{:>14.1}", counts[place]);
            }
            println!();
        }
        println!();
    }

    /// The nanoseconds of one message.
    fn each(&self, all: Duration) -> f64 {
        all.as_nanos() as f64 / self.messages as f64
    }

    /// The worst ratio over the depths.
    fn time_programs(&self) -> Result<f64, String> {
        let starts = self.programs_on(&[])?;
        let mut worst: f64 = 0.0;
        for depth in LIVE_DEPTHS {
            let times = self.programs_on(&feed(SEED, depth, &REGISTERED[..1], self.messages))?;
            self.print_programs(depth, &times, &starts);
            worst = worst.max(ratio(times[0], times[1]));
        }
        Ok(worst)
    }

    fn print_programs(&self, depth: usize, times: &[Times; 2], starts: &[Times; 2]) {
        let heading = format!("program at depth {depth}, the file");
        print!("{heading:<34}{:>11}{:>11}", "best ms", "median ms");
        println!("{:>14}", "an empty file");
        for ((program, times), start) in self.programs.iter().zip(times).zip(starts) {
            let [best, median, start] = [times.best, times.median, start.median].map(milliseconds);
            print!("  {:<32}{best:>11.1}{median:>11.1}", program.title);
            println!("{start:>14.1}");
        }
        println!();
    }

    fn programs_on(&self, bytes: &[u8]) -> Result<[Times; 2], String> {
        let file = self.folder.join("feed");
        fs::write(&file, bytes).map_err(|error| error.to_string())?;
        programs::time(&self.programs, &file, self.program_rounds, &self.folder)
    }

    fn feed(&self, depth: usize) -> Vec<u8> {
        feed(SEED, depth, &REGISTERED, self.messages)
    }
}

/// Of the medians, rounded up, so that what is printed as the limit does not exceed it.
fn ratio(ours: Times, ordinary: Times) -> f64 {
    let ratio = ours.median.as_secs_f64() / ordinary.median.as_secs_f64();
    (100.0 * ratio).ceil() / 100.0
}

fn milliseconds(time: Duration) -> f64 {
    1_000.0 * time.as_secs_f64()
}

#[cfg(test)]
mod tests {
    use super::{ratio, Times};
    use std::time::Duration;

    #[test]
    fn a_ratio_above_the_limit_is_printed_above_it() {
        let times = |nanoseconds| Times {
            best: Duration::ZERO,
            median: Duration::from_nanos(nanoseconds),
        };
        assert_eq!(ratio(times(3_000_000), times(1_000_000)), 3.0);
        assert_eq!(ratio(times(3_000_001), times(1_000_000)), 3.01);
    }
}
