//! Whole and mangled nights of recorded calls, replayed by the proved program and by the second one.

mod counts;
mod kinds;
mod mangled;
mod pieces;
pub mod program;
mod whole;
mod writers;

use crate::random::Random;
use crate::record;
use crate::watchdog::Watchdog;
use counts::Counts;
use kinds::{Feed, Kind, KINDS};
use program::{Program, Replayed};
use writers::Writers;

/// A night whose report and tally the papers give.
struct Example {
    name: &'static str,
    night: fn(usize, &mut Random) -> Vec<u8>,
    report: &'static str,
    tally: &'static str,
}

const EXAMPLES: [Example; 2] = [
    Example {
        name: "E4 and E5",
        night: whole::e4_and_e5,
        report: "0 0 0 0\n1 1 0 0\ntotal 2\n",
        tally: "0 1\n1 1\n",
    },
    Example {
        name: "an expired tack that revokes",
        night: whole::expired_tack_revokes,
        report: "0 0 0 0\n1 23 45 0\n2 22 44 0\n3 0 0 0\n4 1 0 0\n5 23 45 0\n6 22 44 0\n7 1 0 0\ntotal 8\n",
        tally: "0 2\n1 2\n22 2\n23 2\n",
    },
];

/// The proved program, and what its nights have met so far.
pub struct Nights {
    program: Program,
    watchdog: Watchdog,
    random: Random,
    counts: Counts,
    writers: Writers,
}

impl Nights {
    /// Fails if the proved program is not there.
    pub fn new(seed: u64, watchdog: Watchdog) -> Result<Nights, String> {
        Ok(Nights {
            program: Program::find()?,
            watchdog,
            random: Random::new(seed),
            counts: Counts::default(),
            writers: Writers::default(),
        })
    }

    /// The papers' examples, every case of every kind of night, and the writers of calls.
    pub fn edges(&mut self) -> Result<u64, String> {
        self.watchdog
            .begin("the example nights and the writers of calls");
        for example in EXAMPLES {
            self.example(&example)?;
        }
        self.writers.edges(&mut self.random)?;
        let mut nights = 0;
        for (kind, Kind { cases, .. }) in KINDS.iter().enumerate() {
            for case in 0..*cases {
                self.night(kind, case)?;
                nights += 1;
            }
        }
        Ok(nights)
    }

    /// One random night, and some calls written.
    pub fn case(&mut self) -> Result<u64, String> {
        let kind = self.random.below(KINDS.len());
        let case = self.random.below(KINDS[kind].cases);
        self.night(kind, case)?;
        self.writers.cases(20, &mut self.random)?;
        Ok(1)
    }

    fn example(&mut self, example: &Example) -> Result<(), String> {
        let night = (example.night)(0, &mut self.random);
        let expected = Replayed {
            report: example.report.into(),
            tally: example.tally.into(),
        };
        self.is_reported(&night, &expected)
            .map_err(|problem| different(example.name, &night, &problem))
    }

    /// Whether both programs give the report and the tally.
    fn is_reported(&self, night: &[u8], expected: &Replayed) -> Result<(), String> {
        compare(&by_second(night)?, expected)?;
        compare(&self.program.replay(&[night], true)?, expected)
    }

    /// One night by both programs.
    fn night(&mut self, kind: usize, case: usize) -> Result<(), String> {
        let Kind { name, feed, .. } = KINDS[kind];
        self.watchdog.begin(&format!("a night, {name}"));
        let night = KINDS[kind].night(case, &mut self.random);
        self.both(kind, feed, &night)
            .map_err(|problem| different(&format!("{name}, case {case}"), &night, &problem))
    }

    fn both(&mut self, kind: usize, feed: Feed, night: &[u8]) -> Result<(), String> {
        let mut second = by_second(night)?;
        self.counts.add(kind, &second)?;
        self.in_small_letters(night, &second)?;
        let with_tally = !self.random.one_in(8);
        if !with_tally {
            self.counts.without_tally += 1;
            second.tally.clear();
        }
        let pieces = self.pieces(feed, night);
        compare(&self.program.replay(&pieces, with_tally)?, &second)
    }

    /// A whole night with capitals must be reported as the same night in small letters is.
    fn in_small_letters(&mut self, night: &[u8], expected: &Replayed) -> Result<(), String> {
        if !expected.has_total() {
            return Ok(());
        }
        let small = record::in_small_letters(night);
        if small == night {
            return Ok(());
        }
        self.counts.with_capitals += 1;
        self.is_reported(&small, expected)
            .map_err(|problem| format!("in small letters {problem}"))
    }

    /// The night as it is fed to the program.
    fn pieces<'a>(&mut self, feed: Feed, night: &'a [u8]) -> Vec<&'a [u8]> {
        let feed = match feed {
            Feed::Either if self.random.one_in(8) => Feed::InPieces,
            feed => feed,
        };
        let pieces = match feed {
            Feed::InPieces => pieces::irregular(night, &mut self.random),
            Feed::EndsLate => pieces::ends_late(night, &mut self.random),
            Feed::AtOnce | Feed::Either => return vec![night],
        };
        self.counts.in_pieces += 1;
        pieces
    }

    /// The verdict of the nights and of the writers.
    pub fn finish(&self) -> Result<(), String> {
        self.counts.finish()?;
        self.writers.finish()
    }
}

/// What the second program makes of the night, in this process.
fn by_second(night: &[u8]) -> Result<Replayed, String> {
    let mut report = Vec::new();
    let tally = second::replay(night, &mut report)
        .map_err(|error| format!("the second program cannot replay: {error}"))?;
    Ok(Replayed {
        report,
        tally: tally.to_string().into_bytes(),
    })
}

fn compare(replayed: &Replayed, expected: &Replayed) -> Result<(), String> {
    let parts = [
        ("reports", &replayed.report, &expected.report),
        ("tallies", &replayed.tally, &expected.tally),
    ];
    match parts.iter().find(|(_, one, two)| one != two) {
        None => Ok(()),
        Some((part, one, two)) => Err(format!("the {part} differ: {}", first_difference(one, two))),
    }
}

/// The first line that is not the same, counted from 0.
fn first_difference(replayed: &[u8], expected: &[u8]) -> String {
    let lines = |text| String::from_utf8_lossy(text).into_owned() + "(the end)";
    let (replayed, expected) = (lines(replayed), lines(expected));
    let pairs = replayed.split('\n').zip(expected.split('\n'));
    match pairs.enumerate().find(|(_, (one, two))| one != two) {
        None => "bytes that are no text".to_string(),
        Some((line, (one, two))) => {
            format!("line {line} is '{one}' where '{two}' was expected")
        }
    }
}

/// The problem, and where the night is kept that brought it.
fn different(what: &str, night: &[u8], problem: &str) -> String {
    let path = std::env::temp_dir().join(format!("different_night_{}.bin", std::process::id()));
    let kept = match std::fs::write(&path, night) {
        Ok(()) => format!("is kept in {}", path.display()),
        Err(error) => format!("cannot be kept: {error}"),
    };
    format!("{what}: {problem}; the night {kept}")
}
