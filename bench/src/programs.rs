//! The two programs on one file: the verified one and second's. Time is from start to end, with all
//! that starting takes; what they print goes to files, which have to be equal.

use std::fs::{self, File};
use std::path::{Path, PathBuf};
use std::process::Command;
use std::time::{Duration, Instant};

use crate::rounds::Times;

/// A command that prints the page of a file: `COMMAND painterend FILE`.
pub struct Program {
    pub title: &'static str,
    pub command: PathBuf,
}

/// The times of each program, in turn, or why there are none.
pub fn time(
    programs: &[Program; 2],
    file: &Path,
    rounds: usize,
    folder: &Path,
) -> Result<[Times; 2], String> {
    let pages = [folder.join("page"), folder.join("other-page")];
    let mut times = [Vec::new(), Vec::new()];
    for _ in 0..rounds {
        for ((program, page), times) in programs.iter().zip(&pages).zip(&mut times) {
            times.push(program.run(file, page)?);
        }
        compare(&pages)?;
    }
    Ok(times.map(Times::of))
}

impl Program {
    /// One that writes to standard error has failed, whatever it exits with.
    fn run(&self, file: &Path, page: &Path) -> Result<Duration, String> {
        let failed = |reason: String| format!("{}: {reason}", self.title);
        let page = File::create(page).map_err(|error| failed(error.to_string()))?;
        let mut command = Command::new(&self.command);
        command.arg("painterend").arg(file).stdout(page);
        let start = Instant::now();
        let output = command
            .output()
            .map_err(|error| failed(error.to_string()))?;
        let time = start.elapsed();
        if !output.status.success() || !output.stderr.is_empty() {
            let said = String::from_utf8_lossy(&output.stderr);
            return Err(failed(format!("{}, {said}", output.status)));
        }
        Ok(time)
    }
}

fn compare(pages: &[PathBuf; 2]) -> Result<(), String> {
    let read = |page: &PathBuf| fs::read(page).map_err(|error| error.to_string());
    let (page, other) = (read(&pages[0])?, read(&pages[1])?);
    if page == other {
        return Ok(());
    }
    let same = page
        .iter()
        .zip(&other)
        .take_while(|(own, other)| own == other);
    Err(format!(
        "the programs' pages differ at byte {}",
        same.count()
    ))
}
