//! Times the proved library and program beside the second program in one run.
//!
//! * `bench [REPEATS]`: the soundness check and 20,000 calls of the library, 9 repeats unless said.
//! * `bench nights [REPEATS [CALLS]]`: nights of recorded calls replayed, 5 repeats of 1,000,000 calls unless said, and of a
//!   tenth of them on a full table.
//! * `bench two [REPEATS]`: calls of edition two on two full tables, one that an adversary chose, 9 repeats unless said.
//! * `bench versions FOLDER [REPEATS]`: recorded calls on six tables, from one without pins to one that an adversary chose, by the
//!   `replay` and the `lent_replay` of an earlier version, which stand in the folder, by those of this one, and by the second
//!   program, 9 repeats unless said. `bench/versions` builds and runs it.

mod made;
mod night;
mod program;
mod replays;
mod soundness;
mod tables;
mod timing;
mod two;
mod versions;

use std::path::Path;
use std::process::ExitCode;

const USAGE: &str =
    "bench [REPEATS] | nights [REPEATS [CALLS]] | two [REPEATS] | versions FOLDER [REPEATS]";

fn number(argument: &str) -> Result<usize, String> {
    match argument.replace('_', "").parse() {
        Ok(number) if number > 0 => Ok(number),
        _ => Err(format!("{USAGE}: {argument} is no number from 1 on")),
    }
}

fn run(arguments: &[&str]) -> Result<(), String> {
    match *arguments {
        [] => library(9),
        ["nights"] => replays::report(5, 1_000_000),
        ["nights", repeats] => replays::report(number(repeats)?, 1_000_000),
        ["nights", repeats, calls] => replays::report(number(repeats)?, number(calls)?),
        ["two"] => edition_two(9),
        ["two", repeats] => edition_two(number(repeats)?),
        ["versions"] => Err(USAGE.to_string()),
        ["versions", before] => versions::report(Path::new(before), 9),
        ["versions", before, repeats] => versions::report(Path::new(before), number(repeats)?),
        [repeats] => library(number(repeats)?),
        _ => Err(USAGE.to_string()),
    }
}

fn library(repeats: usize) -> Result<(), String> {
    soundness::report(repeats);
    println!();
    night::report(repeats);
    Ok(())
}

fn edition_two(repeats: usize) -> Result<(), String> {
    two::report(repeats);
    Ok(())
}

fn main() -> ExitCode {
    let arguments: Vec<String> = std::env::args().skip(1).collect();
    let arguments: Vec<&str> = arguments.iter().map(String::as_str).collect();
    match run(&arguments) {
        Ok(()) => ExitCode::SUCCESS,
        Err(problem) => {
            eprintln!("{problem}");
            ExitCode::FAILURE
        }
    }
}
