//! Makes a night of recorded calls on standard output.
//!
//! * `make_night stories`: the bundled night, `samples/night.bin`.
//! * `make_night random CALLS SEED`: calls of few or many names, in any spelling, and keys that meet, with edges and every
//!   refusal.
//! * `make_night full CALLS SEED`: 256 calls that fill the table, and so many calls on it.
//! * `make_night few CALLS SEED`: so many calls of four names, for timing.

use compare::make::{self, stories, Pins};
use std::io::{self, BufWriter, Write};
use std::process::ExitCode;

const USAGE: &str = "make_night stories | random CALLS SEED | full CALLS SEED | few CALLS SEED";

fn number(argument: &str) -> Result<u64, String> {
    let digits = argument.replace('_', "");
    digits
        .parse()
        .map_err(|_| format!("{USAGE}: {argument} is no number"))
}

fn write(arguments: &[&str], out: &mut impl Write) -> Result<(), String> {
    let written = match *arguments {
        ["stories"] => make::write(stories::night(), out),
        ["random", calls, seed] => make::write(make::random(number(calls)?, number(seed)?), out),
        ["full", calls, seed] => {
            let night = make::full(Pins::ALIKE, number(calls)?, number(seed)?);
            make::write(night, out)
        }
        ["few", calls, seed] => make::write(make::few(number(calls)?, number(seed)?), out),
        _ => return Err(USAGE.to_string()),
    };
    written
        .and_then(|()| out.flush())
        .map_err(|error| format!("the night cannot be written: {error}"))
}

fn main() -> ExitCode {
    let arguments: Vec<String> = std::env::args().skip(1).collect();
    let arguments: Vec<&str> = arguments.iter().map(String::as_str).collect();
    match write(&arguments, &mut BufWriter::new(io::stdout().lock())) {
        Ok(()) => ExitCode::SUCCESS,
        Err(problem) => {
            eprintln!("{problem}");
            ExitCode::FAILURE
        }
    }
}
