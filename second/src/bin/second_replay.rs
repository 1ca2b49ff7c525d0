//! Replays a recorded night from standard input to standard output. Its calls
//! learn from disabled servers, which is the old way.
//!
//! With the argument `tally` it also writes the tally to standard error.

use std::env;
use std::ffi::OsString;
use std::fmt::Display;
use std::io::{self, Write};
use std::process::ExitCode;

use second::replay;

const READ_OR_WRITE_ERROR: u8 = 1;
const WRONG_ARGUMENTS: u8 = 2;

fn main() -> ExitCode {
    let arguments: Vec<OsString> = env::args_os().skip(1).collect();
    let with_tally = match arguments.as_slice() {
        [] => false,
        [argument] if argument == "tally" => true,
        _ => return fail("usage: second_replay [tally]", WRONG_ARGUMENTS),
    };
    match run(with_tally) {
        Ok(()) => ExitCode::SUCCESS,
        Err(error) => fail(format!("second_replay: {error}"), READ_OR_WRITE_ERROR),
    }
}

fn run(with_tally: bool) -> io::Result<()> {
    let tally = replay(io::stdin().lock(), io::stdout().lock())?;
    if with_tally {
        io::stderr().write_all(tally.to_string().as_bytes())?;
    }
    Ok(())
}

/// The status counts even if the message cannot be written.
fn fail(message: impl Display, status: u8) -> ExitCode {
    let _ = writeln!(io::stderr(), "{message}");
    ExitCode::from(status)
}
