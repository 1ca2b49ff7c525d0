//! The tables that calls are measured on, each by the night that fills it and goes on with it.

use crate::made::{Folder, Night};
use crate::tables;
use compare::call::Connection;
use compare::make::{self, Pins};
use compare::marks;

const SEED: u64 = 1;

/// A table to be made, and how many calls are measured on it: fewer where a call takes long, or counting would.
struct Kind {
    name: &'static str,
    holds: &'static str,
    calls: u64,
    /// None where no pin is ever made.
    pins: Option<Pins>,
}

/// The table of the figures in `docs/landings/Q-14.md`.
pub const FULL_OF_20: usize = 1;

/// The last two are as an adversary would choose them who knows the marks of the version after. The version before has other
/// marks, and another worst case.
const KINDS: [Kind; 6] = [
    Kind {
        name: "empty",
        holds: "no record, since no call brings an extension; a latest clock; the calls have names of 20 bytes",
        calls: 20_000,
        pins: None,
    },
    Kind {
        name: "full, 20 bytes",
        holds: "128 names of 20 bytes that end alike, 64 keys that are equal in their first 63 bytes",
        calls: 20_000,
        pins: Some(Pins::ALIKE),
    },
    Kind {
        name: "full, 60 bytes",
        holds: "128 names of 60 bytes that differ in three near the front, the same keys",
        calls: 20_000,
        pins: Some(Pins {
            name: |number| tables::name(number, 60),
            ..Pins::ALIKE
        }),
    },
    Kind {
        name: "full, 253 bytes",
        holds: "128 names of 253 bytes that differ in three near the front, the same keys",
        calls: 5_000,
        pins: Some(Pins {
            name: |number| tables::name(number, 253),
            ..Pins::ALIKE
        }),
    },
    Kind {
        name: "chosen, 20 bytes",
        holds: "128 names of 20 bytes, of labels of one letter in front, that share a mark after and differ in the last four, 64 keys that share one and differ in the first eight bytes",
        calls: 5_000,
        pins: Some(Pins {
            name: marks::name_of_20,
            key: marks::key,
        }),
    },
    Kind {
        name: "chosen, 253 bytes",
        holds: "128 names of 253 bytes, of labels of one letter in front, that share a mark after and differ in the last four, 64 keys as those of the table above",
        calls: 2_000,
        pins: Some(Pins {
            name: marks::name_of_253,
            key: marks::key,
        }),
    },
];

impl Kind {
    fn calls(&self, count: u64) -> Box<dyn Iterator<Item = Connection>> {
        match self.pins {
            None => Box::new(make::without_extensions(count, SEED)),
            Some(pins) => Box::new(make::full(pins, count, SEED)),
        }
    }

    fn table(&self, number: usize, folder: &Folder) -> Result<Table, String> {
        let night = |part: &str, count| {
            let file = format!("{part}_{number}.bin");
            folder.night(&file, self.calls(count))
        };
        Ok(Table {
            name: self.name,
            holds: self.holds,
            filling: night("filling", 0)?,
            whole: night("whole", self.calls)?,
        })
    }
}

pub struct Table {
    pub name: &'static str,
    pub holds: &'static str,
    /// The calls that fill the table, and these with the calls behind them, which are measured.
    pub filling: Night,
    pub whole: Night,
}

impl Table {
    pub fn all(folder: &Folder) -> Result<Vec<Table>, String> {
        let kinds = KINDS.iter().enumerate();
        kinds
            .map(|(number, kind)| kind.table(number, folder))
            .collect()
    }

    /// How many calls are measured.
    pub fn calls(&self) -> usize {
        self.whole.calls - self.filling.calls
    }
}
