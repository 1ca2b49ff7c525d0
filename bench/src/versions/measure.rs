//! How the lines are measured, and their reports compared.

use super::line::Line;
use std::fs;
use std::path::Path;
use std::sync::atomic::{AtomicUsize, Ordering};
use std::sync::{Mutex, PoisonError};
use std::thread;

/// Instructions first, and then the times.
pub fn measure(mut lines: Vec<&mut Line>, repeats: usize, report: &Path) -> Result<(), String> {
    count_instructions(&mut lines)?;
    time(&mut lines, repeats, report)
}

/// On all cores at once: a count does not depend on what runs beside it.
fn count_instructions(lines: &mut [&mut Line]) -> Result<(), String> {
    let cores = thread::available_parallelism().map_or(1, usize::from);
    let (count, counted) = (lines.len(), AtomicUsize::new(0));
    let left = Mutex::new(lines.iter_mut());
    let next = || left.lock().unwrap_or_else(PoisonError::into_inner).next();
    let work = || {
        while let Some(line) = next() {
            line.count_instructions()?;
            let number = counted.fetch_add(1, Ordering::Relaxed) + 1;
            eprintln!("instructions: {number} of {count}");
        }
        Ok(())
    };
    thread::scope(|scope| {
        let workers: Vec<_> = (0..cores).map(|_| scope.spawn(work)).collect();
        workers.into_iter().try_for_each(|worker| {
            let panicked = |_| Err("the instructions cannot be counted".to_string());
            worker.join().unwrap_or_else(panicked)
        })
    })
}

/// In turn and again, so that a slow moment of the machine meets all.
fn time(lines: &mut [&mut Line], repeats: usize, report: &Path) -> Result<(), String> {
    let mut reports = Reports::default();
    for repeat in 1..=repeats {
        eprintln!("times: repeat {repeat} of {repeats}");
        for line in lines.iter_mut() {
            line.time(report)?;
            if line.judges {
                reports.compare(line, report)?;
            }
        }
    }
    Ok(())
}

/// The first report on each table, and whose it was.
#[derive(Default)]
struct Reports(Vec<FirstReport>);

struct FirstReport {
    table: &'static str,
    by: String,
    bytes: Vec<u8>,
}

impl Reports {
    fn compare(&mut self, line: &Line, report: &Path) -> Result<(), String> {
        let bytes = fs::read(report)
            .map_err(|error| format!("{} cannot be read: {error}", report.display()))?;
        let table = line.table.name;
        match self.0.iter().find(|first| first.table == table) {
            Some(first) if first.bytes != bytes => Err(format!(
                "{} and {} report different things on the table '{table}'",
                first.by, line.name
            )),
            Some(_) => Ok(()),
            None => {
                self.0.push(FirstReport {
                    table,
                    by: line.name.clone(),
                    bytes,
                });
                Ok(())
            }
        }
    }
}
