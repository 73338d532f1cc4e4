//! The bench; `bench/run` builds what it needs and calls it. README.md says what it measures.

mod instructions;
mod programs;
mod readers;
mod rounds;
mod table;

use std::process::ExitCode;
use std::{env, fs};

use programs::Program;
use readers::READERS;
use table::{Plan, Ratios};

const USAGE: &str = "usage: bench table MESSAGES ROUNDS PROGRAM_ROUNDS FOLDER PROGRAM SECOND
       bench once READER FILE";

/// Request M-110 allows so many times the duration of the ordinary reader.
const LIMIT: f64 = 3.0;

fn main() -> ExitCode {
    let arguments: Vec<String> = env::args().skip(1).collect();
    let words: Vec<&str> = arguments.iter().map(String::as_str).collect();
    let done = match words.as_slice() {
        ["table", counts @ .., folder, program, second] => plan(counts, folder, program, second)
            .ok_or(USAGE.to_string())
            .and_then(|plan| print_table(&plan)),
        ["once", reader, file] => run_once(reader, file),
        _ => Err(USAGE.to_string()),
    };
    done.unwrap_or_else(|error| {
        eprintln!("bench: {error}");
        ExitCode::FAILURE
    })
}

/// None where a count is missing, not a number or 0.
fn plan(counts: &[&str], folder: &str, program: &str, second: &str) -> Option<Plan> {
    let counts = counts.iter().map(|count| count.parse().ok());
    let counts: Vec<usize> = counts.collect::<Option<_>>()?;
    let [messages, rounds, program_rounds] = *counts.as_slice() else {
        return None;
    };
    let programs = [("painterend", program), ("second painterend", second)];
    (!counts.contains(&0)).then(|| Plan {
        messages,
        rounds,
        program_rounds,
        folder: folder.into(),
        programs: programs.map(|(title, command)| Program {
            title,
            command: command.into(),
        }),
    })
}

/// The table, the ratios as its last line, and whether they are within the limit.
fn print_table(plan: &Plan) -> Result<ExitCode, String> {
    let Ratios { run, program } = plan.carry_out()?;
    println!("ratio: run {run:.2}, program {program:.2}");
    if run > LIMIT || program > LIMIT {
        return Ok(ExitCode::FAILURE);
    }
    Ok(ExitCode::SUCCESS)
}

/// One run of one reader over a file, for somebody who counts from outside.
fn run_once(name: &str, file: &str) -> Result<ExitCode, String> {
    let reader = READERS.iter().find(|reader| reader.name == name);
    let reader = reader.ok_or_else(|| format!("{name} is not a reader"))?;
    let bytes = fs::read(file).map_err(|error| format!("{file}: {error}"))?;
    let mut state = (reader.new)();
    let ended = state.run(&bytes);
    for line in rounds::said(ended, &*state) {
        println!("{line}");
    }
    Ok(ExitCode::SUCCESS)
}
