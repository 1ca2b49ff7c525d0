//! A program on a night, with its time, its peak of resident memory and its instructions.

use std::fs::{self, File};
use std::io;
use std::path::{Path, PathBuf};
use std::process::{Command, ExitStatus, Stdio};
use std::sync::atomic::{AtomicBool, Ordering};
use std::thread;
use std::time::{Duration, Instant};

const WATCHED_EVERY: Duration = Duration::from_millis(1);

/// It reads a night from standard input and writes its report to standard output.
pub struct Program {
    path: PathBuf,
    word: Option<&'static str>,
}

/// How long one replay took, and the peak of resident memory in kilobytes where the system says it.
pub struct Run {
    pub time: Duration,
    pub peak: Option<u64>,
}

impl Program {
    pub fn at(path: PathBuf) -> Program {
        Program { path, word: None }
    }

    /// The program with one argument.
    pub fn with(path: &Path, word: &'static str) -> Program {
        Program {
            path: path.to_path_buf(),
            word: Some(word),
        }
    }

    pub fn replay(&self, night: &Path, report: &Path) -> Result<Run, String> {
        let mut command = Command::new(&self.path);
        command
            .args(self.word)
            .stdin(open(File::open(night), night)?)
            .stdout(open(File::create(report), report)?);
        let name = self.path.display();
        match watch(&mut command) {
            Ok((status, run)) if status.success() => Ok(run),
            Ok((status, _)) => Err(format!("{name} ended with {status}")),
            Err(error) => Err(format!("{name} cannot be run: {error}")),
        }
    }

    /// How many instructions a replay takes, by callgrind.
    pub fn instructions(&self, night: &Path) -> Result<u64, String> {
        let mut command = Command::new("valgrind");
        command
            .args(["--tool=callgrind", "--callgrind-out-file=/dev/null"])
            .arg(&self.path)
            .args(self.word)
            .stdin(open(File::open(night), night)?)
            .stdout(Stdio::null());
        let output = command
            .output()
            .map_err(|error| format!("valgrind cannot be run: {error}"))?;
        let said = String::from_utf8_lossy(&output.stderr);
        if !output.status.success() {
            let (name, status) = (self.path.display(), output.status);
            return Err(format!("{name} under valgrind ended with {status}: {said}"));
        }
        let count = |line: &str| line.split_once("Collected :")?.1.trim().parse().ok();
        said.lines()
            .find_map(count)
            .ok_or_else(|| format!("callgrind does not say what it collected: {said}"))
    }
}

/// The program beside this one that works on lent bytes, or how to build it.
pub fn lent_replay() -> Result<PathBuf, String> {
    let path = std::env::current_exe()
        .map_err(|error| format!("this program cannot be found: {error}"))?
        .with_file_name("lent_replay");
    match path.is_file() {
        true => Ok(path),
        false => Err(format!(
            "There is no {}: run `cargo build --release -p bench` in the repository first.",
            path.display()
        )),
    }
}

fn open(file: io::Result<File>, path: &Path) -> Result<File, String> {
    file.map_err(|error| format!("{} cannot be opened: {error}", path.display()))
}

/// Another thread looks at the child's memory until the child has ended.
fn watch(command: &mut Command) -> io::Result<(ExitStatus, Run)> {
    let began = Instant::now();
    let mut child = command.spawn()?;
    let process = child.id();
    let ended = AtomicBool::new(false);
    thread::scope(|scope| {
        let watcher = scope.spawn(|| {
            let mut peak = None;
            while !ended.load(Ordering::Relaxed) {
                peak = peak.max(peak_of(process));
                thread::sleep(WATCHED_EVERY);
            }
            peak
        });
        let status = child.wait();
        let time = began.elapsed();
        ended.store(true, Ordering::Relaxed);
        let peak = watcher.join().unwrap_or(None);
        Ok((status?, Run { time, peak }))
    })
}

/// The most resident memory that the process has had so far, in kilobytes; none where the system does not say.
fn peak_of(process: u32) -> Option<u64> {
    let status = fs::read_to_string(format!("/proc/{process}/status")).ok()?;
    let line = status.lines().find(|line| line.starts_with("VmHWM:"))?;
    line.split_whitespace().nth(1)?.parse().ok()
}
