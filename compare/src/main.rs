//! Runs the proved library and the second program on the same calls and compares every answer and every byte; runs the
//! proved program that replays a night, and the second one, on the same nights and compares every line.
//!
//! * `compare`: of edition one 200,000 extensions and names, some hundred thousand slots of tables, 100,000 calls on tables,
//!   and some hundred nights; with edition two some ten thousand calls more, and some hundred thousand extensions.
//! * `compare INPUTS [SEED]`: so many extensions and names, half as many calls, and some more slots and nights with them; of
//!   edition two its edges, and a list in both editions for about every second list of edition one.
//! * `compare --minutes MINUTES [SEED]`: for so long.
//! * `compare --nights NIGHTS [SEED]`: nights alone, every kind of them and so many at least.
//!
//! Names come in any spelling, and each program must take one with capitals as it takes the same name in small letters.
//!
//! After a refusal the table is also held to what the papers say of it: as it was, but for one floor after 23 of edition one. So is
//! 'no room' and the table after a verdict of edition one without a tack, or with a disabled one and without the yes; and where
//! that yes may change nothing, a call in ten is made again with the other choice.
//!
//! The proved program is `crates/replay/out/replay`, unless `REPLAY_PROGRAM` names another. The comparison ends with status 1 at the
//! first difference, or if a number, a spelling, an age of a pin, a kind of name field, of damage, of full table, of expired
//! tack, of disabled tack, of night or of anything else that is counted in edition two never came. A call that hangs ends it with
//! status 1 too, after two minutes.

use compare::edition_two::EditionTwo;
use compare::length::{Length, Progress};
use compare::nights::Nights;
use compare::padded_names::PaddedNames;
use compare::random::Random;
use compare::tables::Tables;
use compare::watchdog::Watchdog;
use compare::{alike, extensions, lists, names};
use std::process::ExitCode;
use tack::table::Edition;

/// Everything that is compared.
struct Comparison {
    extensions: extensions::Extensions,
    names: names::Names,
    padded_names: PaddedNames,
    alike: alike::Alike,
    tables: Tables,
    lists: lists::Lists,
    edition_two: EditionTwo,
    nights: Nights,
}

impl Comparison {
    fn new(nights: Nights, seed: u64) -> Comparison {
        Comparison {
            extensions: extensions::Extensions::default(),
            names: names::Names::default(),
            padded_names: PaddedNames::new(seed),
            alike: alike::Alike::default(),
            tables: Tables::new(Edition::One),
            lists: lists::Lists::default(),
            edition_two: EditionTwo::new(seed),
            nights,
        }
    }

    /// What every run begins with, however short.
    fn edges(&mut self, random: &mut Random, progress: &mut Progress) -> Result<(), String> {
        progress.begin("extensions and names");
        progress.inputs += self.extensions.edges(random)? + self.names.edges()?;
        progress.begin("slots of tables");
        progress.slots += self.padded_names.edges()? + self.alike.edges()?;
        progress.begin("tables");
        progress.calls += self.tables.edges(random)?;
        for _ in 0..20 {
            progress.begin("lists of calls");
            progress.calls += self.lists.list(random)?;
            progress.say();
        }
        self.edition_two.edges(progress)?;
        progress.nights += self.nights.edges()?;
        progress.say();
        Ok(())
    }

    /// A list of calls, some tables, twice as many extensions and names, with name fields beside them; edition two; a night.
    fn round(&mut self, random: &mut Random, progress: &mut Progress) -> Result<(), String> {
        progress.begin("lists of calls");
        progress.calls += self.lists.list(random)?;
        progress.begin("tables");
        for _ in 0..5 {
            progress.calls += self.tables.case(random)?;
        }
        progress.begin("extensions, names and slots of tables");
        while progress.inputs < 2 * progress.calls {
            progress.inputs += self.extensions.case(random)? + self.names.case(random)?;
            progress.slots += self.padded_names.case()?;
        }
        self.edition_two.round(progress)?;
        progress.nights += self.nights.case()?;
        progress.say();
        Ok(())
    }

    fn finish(&self) -> Result<(), String> {
        self.extensions.finish()?;
        self.names.finish()?;
        self.padded_names.finish()?;
        self.alike.finish()?;
        self.tables.finish()?;
        self.lists.finish()?;
        self.edition_two.finish()?;
        self.nights.finish()
    }
}

/// What a run compares.
enum Run {
    Everything(Length),
    /// Nights alone, so many at least.
    Nights(u64),
}

fn run(run: Run, seed: u64) -> Result<(), String> {
    let watchdog = Watchdog::start();
    let nights = Nights::new(seed, watchdog.clone())?;
    match run {
        Run::Everything(length) => everything(nights, Progress::new(length, watchdog), seed),
        Run::Nights(count) => nights_alone(nights, count, seed),
    }
}

fn nights_alone(mut nights: Nights, count: u64, seed: u64) -> Result<(), String> {
    let mut compared = nights.edges()?;
    while compared < count {
        compared += nights.case()?;
    }
    println!("{compared} nights, seed {seed}: no difference");
    nights.finish()
}

fn everything(nights: Nights, mut progress: Progress, seed: u64) -> Result<(), String> {
    let mut random = Random::new(seed);
    let mut comparison = Comparison::new(nights, seed);
    comparison.edges(&mut random, &mut progress)?;
    loop {
        comparison.round(&mut random, &mut progress)?;
        if progress.is_over() {
            break;
        }
    }
    println!("{}, seed {seed}: no difference", progress.counts());
    comparison.finish()
}

const USAGE: &str = "compare [INPUTS [SEED]] | --minutes MINUTES [SEED] | --nights NIGHTS [SEED]";

fn number(argument: &str) -> Result<u64, String> {
    let digits = argument.replace('_', "");
    digits
        .parse()
        .map_err(|_| format!("{USAGE}: {argument} is no number"))
}

/// The run and the seed that the arguments ask for.
fn asked(arguments: &[&str]) -> Result<(Run, u64), String> {
    let inputs = |inputs: u64| Run::Everything(Length::Inputs(inputs));
    let (run, seed) = match arguments {
        [] => (inputs(200_000), arguments),
        ["--minutes", minutes, seed @ ..] => {
            (Run::Everything(Length::Minutes(number(minutes)?)), seed)
        }
        ["--nights", nights, seed @ ..] => (Run::Nights(number(nights)?), seed),
        [count, seed @ ..] => (inputs(number(count)?), seed),
    };
    match *seed {
        [] => Ok((run, 1)),
        [seed] => Ok((run, number(seed)?)),
        _ => Err(USAGE.to_string()),
    }
}

fn main() -> ExitCode {
    let arguments: Vec<String> = std::env::args().skip(1).collect();
    let arguments: Vec<&str> = arguments.iter().map(String::as_str).collect();
    match asked(&arguments).and_then(|(asked, seed)| run(asked, seed)) {
        Ok(()) => ExitCode::SUCCESS,
        Err(problem) => {
            eprintln!("{problem}");
            ExitCode::FAILURE
        }
    }
}
