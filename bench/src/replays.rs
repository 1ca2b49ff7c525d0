//! Nights of recorded calls, replayed by the proved program, by the second one, and by the `judge` of each on lent bytes.

use crate::made::{Folder, Night};
use crate::program::{lent_replay, Program, Run};
use crate::timing::Timing;
use compare::make::{self, Pins};
use compare::nights::program;
use std::fs;
use std::path::Path;

const SEED: u64 = 1;

/// A program with the times of its calls in microseconds.
struct Line {
    name: &'static str,
    does: &'static str,
    program: Program,
    times: Vec<f64>,
    peak: Option<u64>,
}

impl Line {
    fn new(name: &'static str, does: &'static str, program: Program) -> Line {
        Line {
            name,
            does,
            program,
            times: vec![],
            peak: None,
        }
    }

    fn run(&mut self, night: &Night, report: &Path) -> Result<(), String> {
        let Run { time, peak } = self.program.replay(&night.path, report)?;
        let microseconds = time.as_secs_f64() * 1e6;
        self.times.push(microseconds / night.calls as f64);
        self.peak = self.peak.max(peak);
        Ok(())
    }

    fn print(self) -> Timing {
        let timing = Timing::of(self.times);
        let (median, spread) = timing.per_second();
        let peak = match self.peak {
            Some(kilobytes) => format!("{kilobytes} kB"),
            None => "not watched".to_string(),
        };
        let name = self.name;
        println!("{name:<20} {median:>12.0} {spread:>24}  {timing:<26} {peak:>11}");
        timing
    }
}

fn lines() -> Result<[Line; 4], String> {
    let lent = lent_replay()?;
    Ok([
        Line::new(
            "replay",
            "the proved program; it works on the 39,432 bytes of a table, proved to stay sound, and checks them not once",
            Program::at(program::proved()?),
        ),
        Line::new(
            "second_replay",
            "the second program; it keeps its table parsed from call to call and checks nothing again",
            Program::at(program::second()?),
        ),
        Line::new(
            "proved on lent bytes",
            "the proved library's `judge` on 39,432 bytes that it checks in every call",
            Program::with(&lent, "judge"),
        ),
        Line::new(
            "second on lent bytes",
            "the second program's `judge` on 39,432 bytes that it parses and writes in every call",
            Program::with(&lent, "second-judge"),
        ),
    ])
}

pub fn report(repeats: usize, calls: usize) -> Result<(), String> {
    for line in lines()? {
        println!("{}: {}", line.name, line.does);
    }
    println!("each reads the night from a file and writes its report into another");
    let folder = Folder::new()?;
    let few = folder.night("few.bin", make::few(calls as u64, SEED))?;
    measure("a night of four names", repeats, &few, &folder)?;
    let full = folder.night("full.bin", make::full(Pins::ALIKE, calls as u64 / 10, SEED))?;
    measure("a night on a full table", repeats, &full, &folder)
}

fn measure(what: &str, repeats: usize, night: &Night, folder: &Folder) -> Result<(), String> {
    let mut lines = lines()?;
    run_in_turn(&mut lines, repeats, night, &folder.file("report"))?;
    println!();
    println!("{what}, {} calls: median of {repeats} repeats", night.calls);
    println!(
        "{:<20} {:>12} {:>24}  {:<26} {:>11}",
        "", "calls/second", "(least to most)", "microseconds a call", "peak memory"
    );
    let [proved, second, proved_lent, second_lent] = lines.map(Line::print);
    println!(
        "a call of replay takes {:.2} times as long as one of second_replay; on lent bytes a proved call takes {:.2} times as long as a second",
        proved.median() / second.median(),
        proved_lent.median() / second_lent.median()
    );
    Ok(())
}

/// One after the other and again, so that a slow moment of the machine meets all. Their reports must be the same.
fn run_in_turn(
    lines: &mut [Line],
    repeats: usize,
    night: &Night,
    report: &Path,
) -> Result<(), String> {
    let mut expected = None;
    for _ in 0..repeats {
        for line in lines.iter_mut() {
            line.run(night, report)?;
            let reported = fs::read(report)
                .map_err(|error| format!("{} cannot be read: {error}", report.display()))?;
            if *expected.get_or_insert_with(|| reported.clone()) != reported {
                return Err(format!("{} reports something else", line.name));
            }
        }
    }
    Ok(())
}
