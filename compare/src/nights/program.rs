//! The programs that replay a night: where they are, and the proved one run as a child process.

use std::io::Write;
use std::path::{Path, PathBuf};
use std::process::{Child, ChildStdin, Command, Output, Stdio};
use std::thread;
use std::time::Duration;

/// After some pieces, so that the program has time to read them before the next comes.
const PAUSE: Duration = Duration::from_micros(20);
const PAUSES: usize = 100;

/// The proved program.
pub struct Program {
    path: PathBuf,
}

/// What a program wrote about a night.
#[derive(Debug, Clone, PartialEq, Eq)]
pub struct Replayed {
    pub report: Vec<u8>,
    /// A line `NUMBER COUNT` for each number; empty where no tally was asked for.
    pub tally: Vec<u8>,
}

impl Replayed {
    /// Whether the report ends with a total.
    pub fn has_total(&self) -> bool {
        let lines = self.report.strip_suffix(b"\n").unwrap_or(&self.report);
        let last = lines.rsplit(|&byte| byte == b'\n').next();
        last.is_some_and(|line| line.starts_with(b"total "))
    }

    /// How many calls had no room: their lines end with a 1. A total of such an end begins with no digit.
    pub fn no_room(&self) -> u64 {
        let lines = self.report.split(|&byte| byte == b'\n');
        let is_without =
            |line: &&[u8]| line.ends_with(b" 1") && line.first().is_some_and(u8::is_ascii_digit);
        lines.filter(is_without).count() as u64
    }

    /// The numbers and counts of the tally.
    pub fn counts(&self) -> Result<Vec<(u8, u64)>, String> {
        let tally = String::from_utf8_lossy(&self.tally);
        let count = |line: &str| {
            let (number, count) = line.split_once(' ')?;
            Some((number.parse().ok()?, count.parse().ok()?))
        };
        let counts = tally.lines().map(count).collect::<Option<Vec<(u8, u64)>>>();
        counts.ok_or_else(|| format!("{tally:?} is no tally"))
    }
}

/// The proved program, or how to build it.
pub fn proved() -> Result<PathBuf, String> {
    find(
        "REPLAY_PROGRAM",
        "crates/replay/out/replay",
        "(cd crates/replay && rt run < stdin)",
    )
}

/// The second program, or how to build it.
pub fn second() -> Result<PathBuf, String> {
    let place = "target/cargo/release/second_replay";
    let build = "cargo build --release -p second";
    find("SECOND_REPLAY_PROGRAM", place, build)
}

/// The program that the variable names, or the repository's own.
fn find(variable: &str, place: &str, build: &str) -> Result<PathBuf, String> {
    let path = match std::env::var_os(variable) {
        Some(path) => PathBuf::from(path),
        None => repository().join(place),
    };
    match path.is_file() {
        true => Ok(path),
        false => Err(format!(
            "There is no {}: run `{build}` in the repository first, or name the program in {variable}.",
            path.display()
        )),
    }
}

/// The folder of the whole workspace.
fn repository() -> &'static Path {
    let folder = Path::new(env!("CARGO_MANIFEST_DIR"));
    folder.parent().unwrap_or(folder)
}

impl Program {
    pub fn find() -> Result<Program, String> {
        Ok(Program { path: proved()? })
    }

    /// Feeds the pieces of a night to the program, one after the other.
    pub fn replay(&self, pieces: &[&[u8]], with_tally: bool) -> Result<Replayed, String> {
        let mut command = Command::new(&self.path);
        if with_tally {
            command.arg("tally");
        }
        let child = command
            .stdin(Stdio::piped())
            .stdout(Stdio::piped())
            .stderr(Stdio::piped())
            .spawn()
            .map_err(|error| format!("{} does not start: {error}", self.path.display()))?;
        let output = feed(child, pieces)?;
        if !output.status.success() {
            let words = String::from_utf8_lossy(&output.stderr);
            return Err(format!("the program ended with {}: {words}", output.status));
        }
        Ok(Replayed {
            report: output.stdout,
            tally: output.stderr,
        })
    }
}

/// Writes in a thread while both outputs are read, so that a full pipe stops neither side.
fn feed(mut child: Child, pieces: &[&[u8]]) -> Result<Output, String> {
    let input = child.stdin.take();
    let output = thread::scope(|scope| {
        scope.spawn(move || write(input, pieces));
        child.wait_with_output()
    });
    output.map_err(|error| format!("the program's output cannot be read: {error}"))
}

/// A program that has seen a bad call may end and leave the rest unread.
fn write(input: Option<ChildStdin>, pieces: &[&[u8]]) {
    let Some(mut input) = input else { return };
    let pause_after = pieces.len() / PAUSES + 1;
    for (index, piece) in pieces.iter().enumerate() {
        if input.write_all(piece).is_err() {
            return;
        }
        if pieces.len() > 1 && index % pause_after == 0 {
            thread::sleep(PAUSE);
        }
    }
}
