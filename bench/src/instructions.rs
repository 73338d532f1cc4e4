//! How many instructions a message takes, as valgrind counts them. Two runs of different length are
//! subtracted, so that starting, reading the file and asking the questions drop out.

use std::path::{Path, PathBuf};
use std::process::Command;
use std::{env, fs, io};

use bench::feed::{feed, REGISTERED};
use bench::SEED;

use crate::readers::READERS;

/// A file of `count` messages, and one of twice as many that begins with it.
pub struct Files {
    count: usize,
    once: PathBuf,
    twice: PathBuf,
}

impl Files {
    pub fn make(depth: usize, count: usize, folder: &Path) -> io::Result<Files> {
        let (once, twice) = (folder.join("once"), folder.join("twice"));
        fs::write(&once, feed(SEED, depth, &REGISTERED, count))?;
        fs::write(&twice, feed(SEED, depth, &REGISTERED, 2 * count))?;
        Ok(Files { count, once, twice })
    }

    /// Instructions a message of each of the `READERS`.
    pub fn count(&self) -> io::Result<Vec<f64>> {
        let counts = READERS.iter().map(|reader| {
            let more = instructions(reader.name, &self.twice)?;
            let fewer = instructions(reader.name, &self.once)?;
            Ok((more - fewer) as f64 / self.count as f64)
        });
        counts.collect()
    }
}

pub fn valgrind_is_there() -> bool {
    let version = Command::new("valgrind").arg("--version").output();
    version.is_ok_and(|output| output.status.success())
}

/// Those of this program while it does one run of that reader.
fn instructions(reader: &str, file: &Path) -> io::Result<u64> {
    let output = Command::new("valgrind")
        .args(["--tool=cachegrind", "--cache-sim=no"])
        .arg("--cachegrind-out-file=/dev/null")
        .arg(env::current_exe()?)
        .args(["once", reader])
        .arg(file)
        .output()?;
    let report = String::from_utf8_lossy(&output.stderr);
    let count = output.status.success().then(|| counted(&report)).flatten();
    count.ok_or_else(|| io::Error::other(format!("valgrind gave no count of {reader}: {report}")))
}

/// The number of the line `==1234== I refs: 1,234,567`.
fn counted(report: &str) -> Option<u64> {
    let line = report.lines().find(|line| line.contains("refs:"))?;
    let (_, number) = line.split_once("refs:")?;
    number.trim().replace(',', "").parse().ok()
}

#[cfg(test)]
mod tests {
    use super::counted;

    #[test]
    fn the_count_is_found_in_the_report() {
        let report = "==7== Cachegrind\n==7== \n==7== I   refs:      31,439,685\n";
        assert_eq!(counted(report), Some(31_439_685));
        assert_eq!(counted("valgrind: no such program"), None);
    }
}
