//! The subcommands; README.md lists them.

use std::io::{BufWriter, Write};
use std::path::Path;
use std::process::ExitCode;
use std::{env, fs, io};

use second::make::calls::{calls, CALL_KINDS};
use second::make::feeds::{feed, FEED_KINDS};
use second::named::Cases;
use second::probe::probe;
use second::program::{painterend, painterend_levels};
use second::vectors;

const USAGE: &str = "usage: second painterend [--levels] FILE
       second probe FILE
       second feed SEED KIND COUNT
       second calls SEED KIND COUNT
       second named FOLDER
       second vectors INPUT EXPECTED";

/// The option of the program: request M-106.
const LEVELS: &str = "--levels";

fn main() -> ExitCode {
    let arguments: Vec<String> = env::args().skip(1).collect();
    let words: Vec<&str> = arguments.iter().map(String::as_str).collect();
    let done = match words.as_slice() {
        ["painterend", .., LEVELS] => Err(io::Error::other(USAGE)),
        ["painterend", file] => print_file(file, false),
        ["painterend", LEVELS, file] => print_file(file, true),
        ["probe", file] => fs::read(file).and_then(|calls| print(probe(&calls).as_bytes())),
        ["feed", seed, kind, count] => asked(&FEED_KINDS, seed, kind, count)
            .and_then(|(seed, kind, count)| print(&feed(seed, kind, count))),
        ["calls", seed, kind, count] => asked(&CALL_KINDS, seed, kind, count)
            .and_then(|(seed, kind, count)| print(&calls(seed, kind, count))),
        ["named", folder] => Cases::all().write_into(Path::new(folder)),
        ["vectors", input, expected] => write_vectors(input, expected),
        _ => Err(io::Error::other(USAGE)),
    };
    match done {
        Ok(()) => ExitCode::SUCCESS,
        Err(error) => {
            eprintln!("second: {error}");
            ExitCode::FAILURE
        }
    }
}

fn print_file(file: &str, levels: bool) -> io::Result<()> {
    let mut input = fs::File::open(file)?;
    let mut output = BufWriter::new(io::stdout().lock());
    if levels {
        painterend_levels(&mut input, &mut output)?;
    } else {
        painterend(&mut input, &mut output)?;
    }
    output.flush()
}

fn print(bytes: &[u8]) -> io::Result<()> {
    let mut output = io::stdout().lock();
    output.write_all(bytes)?;
    output.flush()
}

/// Seed, kind and count of something to be made.
fn asked<K: Copy>(
    kinds: &[(&str, K)],
    seed: &str,
    kind: &str,
    count: &str,
) -> io::Result<(u64, K, usize)> {
    let seed = seed.parse().map_err(io::Error::other)?;
    let count = count.parse().map_err(io::Error::other)?;
    let known = kinds.iter().find(|(name, _)| *name == kind);
    let (_, kind) = known.ok_or_else(|| {
        let names: Vec<&str> = kinds.iter().map(|(name, _)| *name).collect();
        io::Error::other(format!("the kinds are {}", names.join(", ")))
    })?;
    Ok((seed, *kind, count))
}

fn write_vectors(input: &str, expected: &str) -> io::Result<()> {
    let calls = vectors::input();
    fs::write(input, &calls)?;
    fs::write(expected, vectors::answers(&calls))
}
