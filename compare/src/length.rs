//! How long a run lasts, and how far it has come.

use crate::watchdog::Watchdog;
use std::time::{Duration, Instant};

/// When a run is long enough.
#[derive(Clone, Copy)]
pub enum Length {
    /// So many extensions and names, and half as many calls on tables; slots of tables and edition two come beside them.
    Inputs(u64),
    Minutes(u64),
}

/// What was done, said on standard error about every two seconds.
pub struct Progress {
    length: Length,
    watchdog: Watchdog,
    began: Instant,
    said: Duration,
    /// Extensions and names.
    pub inputs: u64,
    /// Slots of tables. A run has so many that hardly an extension or a name would come if it ended by the sum of both.
    pub slots: u64,
    pub calls: u64,
    pub nights: u64,
    /// Extensions of edition two, and two names or two keys in its tables.
    pub inputs_two: u64,
    /// Calls on tables of edition two, and of lists in both editions.
    pub calls_two: u64,
}

impl Progress {
    pub fn new(length: Length, watchdog: Watchdog) -> Progress {
        Progress {
            length,
            watchdog,
            began: Instant::now(),
            said: Duration::ZERO,
            inputs: 0,
            slots: 0,
            calls: 0,
            nights: 0,
            inputs_two: 0,
            calls_two: 0,
        }
    }

    /// The next stage begins.
    pub fn begin(&self, stage: &str) {
        self.watchdog.begin(stage);
    }

    pub fn is_over(&self) -> bool {
        match self.length {
            Length::Inputs(inputs) => self.inputs >= inputs && self.calls >= inputs / 2,
            Length::Minutes(minutes) => self.began.elapsed().as_secs() >= 60 * minutes,
        }
    }

    pub fn say(&mut self) {
        let elapsed = self.began.elapsed();
        if elapsed >= self.said + Duration::from_secs(2) {
            self.said = elapsed;
            let of = match self.length {
                Length::Inputs(inputs) => format!("of {inputs} other inputs and {}", inputs / 2),
                Length::Minutes(minutes) => format!("of {minutes} minutes"),
            };
            eprintln!("{}, {} s, {of}", self.counts(), elapsed.as_secs());
        }
    }

    /// Slots of tables are inputs too.
    pub fn counts(&self) -> String {
        let (slots, calls, nights) = (self.slots, self.calls, self.nights);
        let inputs = self.inputs + slots;
        let (inputs_two, calls_two) = (self.inputs_two, self.calls_two);
        format!(
            "{inputs} inputs, {slots} of them slots of tables, {calls} calls and {nights} nights; with edition two {inputs_two} inputs and {calls_two} calls more"
        )
    }
}
