//! How often each kind of night came, what came of it, and the verdict on a run.

use super::kinds::KINDS;
use super::program::Replayed;
use crate::tally::Tally;

/// What the nights have met so far.
pub struct Counts {
    /// For each kind of night, how its reports ended.
    kinds: Vec<Ends>,
    /// How often each number was answered in all nights, and how often there was no room.
    numbers: Tally,
    no_room: u64,
    /// Nights that were replayed again in small letters.
    pub with_capitals: u64,
    /// How the nights were given to the program.
    pub in_pieces: u64,
    pub without_tally: u64,
}

/// How many reports ended with `bad`, and how many with a total.
#[derive(Default, Clone, Copy)]
struct Ends {
    bad: u64,
    total: u64,
}

impl Default for Counts {
    fn default() -> Counts {
        Counts {
            kinds: vec![Ends::default(); KINDS.len()],
            numbers: Tally::default(),
            no_room: 0,
            with_capitals: 0,
            in_pieces: 0,
            without_tally: 0,
        }
    }
}

impl Counts {
    /// A night of the kind, with its tally; an end that its reports may not have is a problem.
    pub fn add(&mut self, kind: usize, replayed: &Replayed) -> Result<(), String> {
        for (number, count) in replayed.counts()? {
            self.numbers.add_times(number, count);
        }
        self.no_room += replayed.no_room();
        let has_total = replayed.has_total();
        match has_total {
            true => self.kinds[kind].total += 1,
            false => self.kinds[kind].bad += 1,
        }
        match KINDS[kind].may_end(has_total) {
            true => Ok(()),
            false => Err(format!("a report ended as it must not, total: {has_total}")),
        }
    }

    /// The verdict: every kind of night, both ends of a report, every way to give a night, capitals, every number and no room
    /// came.
    pub fn finish(&self) -> Result<(), String> {
        self.kinds_came()?;
        let bad: u64 = self.kinds.iter().map(|ends| ends.bad).sum();
        let total: u64 = self.kinds.iter().map(|ends| ends.total).sum();
        let (in_pieces, without_tally) = (self.in_pieces, self.without_tally);
        println!(
            "nights: {bad} bad and {total} with a total; {in_pieces} fed in pieces, {without_tally} without a tally"
        );
        let with_capitals = self.with_capitals;
        println!("nights with capitals, and again in small letters: {with_capitals}");
        let judging: Vec<u8> = (0..=2).chain(12..=23).collect();
        self.numbers.report("calls of nights", &judging)?;
        println!("calls of nights without room: {}", self.no_room);
        let all = [
            bad,
            total,
            in_pieces,
            without_tally,
            with_capitals,
            self.no_room,
        ];
        match all.contains(&0) {
            true => Err(
                "an end of a report, a way to give a night, capitals or no room never came".into(),
            ),
            false => Ok(()),
        }
    }

    fn kinds_came(&self) -> Result<(), String> {
        let mut never = vec![];
        for (kind, Ends { bad, total }) in KINDS.iter().zip(&self.kinds) {
            println!("nights: {:<40} {bad:>5} bad, {total:>5} total", kind.name);
            if bad + total == 0 {
                never.push(kind.name);
            }
        }
        match never.is_empty() {
            true => Ok(()),
            false => Err(format!("kinds of nights that never came: {never:?}")),
        }
    }
}
