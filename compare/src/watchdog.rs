//! Ends a comparison in which a call hangs.

use std::sync::{Arc, Mutex, PoisonError};
use std::time::{Duration, Instant};
use std::{process, thread};

/// Many times what the longest stage takes.
const LIMIT: Duration = Duration::from_secs(120);

/// What is compared now, and since when.
struct Stage {
    name: String,
    began: Instant,
}

impl Stage {
    fn new(name: &str) -> Stage {
        Stage {
            name: name.to_string(),
            began: Instant::now(),
        }
    }

    /// What is wrong, if the stage has gone on for longer than this.
    fn overdue(&self, limit: Duration) -> Option<String> {
        let (name, seconds) = (&self.name, limit.as_secs());
        let problem = || format!("{name}: no progress for {seconds} s, a call hangs");
        (self.began.elapsed() > limit).then(problem)
    }
}

/// The stage of a comparison. A thread looks at it every second, and ends the process with status 1 where it lasts too long.
#[derive(Clone)]
pub struct Watchdog(Arc<Mutex<Stage>>);

impl Watchdog {
    /// Begins to watch.
    pub fn start() -> Watchdog {
        let watchdog = Watchdog(Arc::new(Mutex::new(Stage::new("the beginning"))));
        let watching = watchdog.clone();
        thread::spawn(move || watching.watch());
        watchdog
    }

    /// The stage before has ended, and this one begins.
    pub fn begin(&self, stage: &str) {
        *self.0.lock().unwrap_or_else(PoisonError::into_inner) = Stage::new(stage);
    }

    fn overdue(&self) -> Option<String> {
        let stage = self.0.lock().unwrap_or_else(PoisonError::into_inner);
        stage.overdue(LIMIT)
    }

    fn watch(&self) {
        loop {
            thread::sleep(Duration::from_secs(1));
            if let Some(problem) = self.overdue() {
                eprintln!("{problem}");
                process::exit(1);
            }
        }
    }
}

#[test]
fn a_stage_is_overdue_after_the_limit() {
    let stage = Stage::new("tables");
    assert_eq!(stage.overdue(LIMIT), None);
    thread::sleep(Duration::from_millis(2));
    let problem = stage.overdue(Duration::from_millis(1));
    assert!(problem.is_some_and(|problem| problem.starts_with("tables: ")));
}
